//! The sizes of what is lent to a question and to `selkaum_initial`: what is written where there is
//! room, that every other byte stays, and that nothing is written where a size doesn't fit.

use crate::drawn::club;
use crate::PAINT;
use beside::board::{self, SET};
use beside::generate::{self, Rng};
use beside::plain::Holdings;
use beside::question::Question::{self, *};
use beside::sheet::{Sheet, PICTURE};

/// Each kind of question on the club, answered with something and with nothing, and the bytes of
/// the answer.
fn answers() -> Vec<(Question, Vec<u8>)> {
    let set = |byte| [byte, 0, 0, 0, 0, 0, 0, 0].to_vec();
    vec![
        (Sort { x: 6 }, vec![3]),
        (Sort { x: 64 }, vec![0]),
        (Below { g: 4 }, set(1 << 3 | 1 << 4 | 1 << 7)),
        (Below { g: 70 }, set(0)),
        (Owned { u: 1 }, set(255)),
        (Owned { u: 2 }, set(0)),
        (Managed { u: 2 }, set(255)),
        (Managed { u: 255 }, set(0)),
        (Administered { u: 3, a: 7 }, set(1 << 5 | 1 << 6)),
        (Administered { u: 3, a: 5 }, set(0)),
        (Permitted { u: 7, k: 2 }, set(1 << 6)),
        (Permitted { u: 7, k: 3 }, set(0)),
        (Permitting { u: 7, k: 2, x: 6 }, vec![0]),
        (Permitting { u: 7, k: 3, x: 6 }, vec![255]),
    ]
}

/// The answer stands over the start of a buffer that has room for it, and every byte behind it
/// stays; in one that is too short, even by a byte, every byte stays, and 0 is returned.
#[test]
fn lengths_of_the_buffer() {
    let (mut answered, mut refused) = (0, 0);
    for (question, answer) in answers() {
        for room in (0..=20).chain([64, 960, 1000]) {
            let mut out = vec![PAINT; 1020];
            let written = board::ask_into(&club(), question, &mut out[..room]);
            let fits = room >= answer.len();
            let expected = if fits { &answer[..] } else { &[] };
            assert_eq!(written, expected.len(), "{question:?}, room {room}");
            assert_eq!(out[..written], *expected, "{question:?}, room {room}");
            assert!(
                out[written..].iter().all(|&byte| byte == PAINT),
                "{question:?}, room {room}"
            );
            answered += fits as usize;
            refused += !fits as usize;
        }
    }
    assert_eq!((answered, refused), (10 * 16 + 4 * 23, 10 * 8 + 4));
}

/// A policy of any other length than 960 bytes: 0, and nothing is written, whatever the room.
#[test]
fn lengths_of_the_policy() {
    let longer = [club(), club()].concat();
    for (question, _) in answers() {
        for length in [
            0,
            1,
            64,
            575,
            576,
            704,
            PICTURE - 1,
            PICTURE + 1,
            2 * PICTURE,
        ] {
            for room in [0, 1, 7, 8, 9, 20] {
                let mut out = [PAINT; 20];
                let written = board::ask_into(&longer[..length], question, &mut out[..room]);
                let message = format!("{question:?}, policy {length}, room {room}");
                assert_eq!((written, out), (0, [PAINT; 20]), "{message}");
            }
        }
    }
}

/// Buffers may start at any address.
#[test]
fn buffers_at_odd_addresses() {
    let mut rng = Rng::new(4601);
    for _ in 0..40 {
        let picture = generate::picture(&mut rng);
        let plain = Holdings::of(Sheet::from_picture(&picture));
        for (question, _) in answers() {
            let shift = rng.below(16);
            let policy = [vec![PAINT; shift], picture.to_vec()].concat();
            let (at, length) = (15 - shift, question.length());
            let mut out = [PAINT; 32];
            assert_eq!(
                board::ask_into(&policy[shift..], question, &mut out[at..]),
                length
            );
            let mut expected = [PAINT; 32];
            let answer = plain.answer(question).to_le_bytes();
            expected[at..at + length].copy_from_slice(&answer[..length]);
            assert_eq!(out, expected, "{question:?}");
        }
    }
}

/// The lengths of the answers are those that a caller has to have room for.
#[test]
fn lengths_of_the_answers() {
    assert_eq!(SET, 8);
    for (question, answer) in answers() {
        assert_eq!(question.length(), answer.len());
    }
}

// ---- The founding -----------------------------------------------------------------------

/// The picture of the founding stands over the first 960 bytes, whatever stood there, and every
/// byte behind it stays; with fewer than 960 every byte stays, and 0 is returned.
#[test]
fn the_founding_is_written() {
    let mut rng = Rng::new(4602);
    for length in [
        0,
        1,
        64,
        576,
        PICTURE - 1,
        PICTURE,
        PICTURE + 1,
        2 * PICTURE,
        5000,
    ] {
        for shift in [0, 1, 7, 8, 15] {
            let before: Vec<u8> = (0..5100).map(|_| rng.byte()).collect();
            let mut policy = before.clone();
            let written = board::initial_into(&mut policy[shift..shift + length]);
            let mut expected = before;
            if length >= PICTURE {
                expected[shift..shift + PICTURE].copy_from_slice(&board::founding());
            }
            let whole = if length >= PICTURE { PICTURE } else { 0 };
            assert_eq!(written, whole, "{length} bytes");
            assert!(policy == expected, "{length} bytes");
        }
    }
}

/// It is the policy on which the first record of a list is judged: an empty list leaves it.
#[test]
fn lists_start_from_it() {
    let mut policy = [PAINT; PICTURE];
    assert_eq!(board::initial_into(&mut policy), PICTURE);
    assert_eq!(policy, board::run(&[], &[]).picture);
    assert_eq!(Sheet::from_picture(&policy), Sheet::founding());
}
