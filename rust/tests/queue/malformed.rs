//! Records that count "as an empty line with the radio free", by hand.

use crate::*;

/// A held record with two waiters.
const SOUND: Queue = [RADIO, 3, 0, 1, 10, 2, 0, 2, 11, 12, 0, 0, 0, 0, 0, 0];

/// The record with these bytes changed.
fn with(changes: &[(usize, u8)]) -> Queue {
    let mut queue = SOUND;
    for &(at, byte) in changes {
        queue[at] = byte;
    }
    queue
}

/// One record, or more, for each clause.
fn all() -> Vec<Queue> {
    let mut all = vec![
        // "More than 8 waiters", whoever they are.
        with(&[(7, 9)]),
        with(&[(7, 128), (10, 13), (11, 14)]),
        [RADIO, 3, 0, 1, 10, 2, 0, 9, 11, 12, 13, 14, 15, 16, 17, 18],
        [
            RADIO, 3, 0, 1, 10, 2, 0, 255, 11, 12, 13, 14, 15, 16, 17, 18,
        ],
        // "A member twice (the holder counted)".
        with(&[(9, 11)]),
        with(&[(8, 10)]),
        with(&[(9, 10)]),
        [RADIO, 3, 0, 1, 10, 2, 0, 8, 11, 12, 13, 14, 15, 16, 17, 11],
        [RADIO, 3, 0, 1, 10, 2, 0, 8, 11, 12, 13, 14, 15, 16, 17, 10],
        // "A holder or waiter above 63".
        with(&[(4, 64)]),
        with(&[(4, 74)]),
        with(&[(4, 255)]),
        with(&[(8, 64)]),
        with(&[(9, 75)]),
        with(&[(9, 255)]),
        // "A held radio whose ticks left aren't 1 to N."
        with(&[(5, 0)]),
        with(&[(5, 4)]),
        with(&[(5, 2), (6, 1)]),
        with(&[(5, 255), (6, 255)]),
        with(&[(1, 0)]),
        with(&[(1, 1)]),
        // 601 ticks, with N of 601, of 65535 and of 600, which all count as 600.
        with(&[(1, 89), (2, 2), (5, 89), (6, 2)]),
        with(&[(1, 255), (2, 255), (5, 89), (6, 2)]),
        with(&[(1, 88), (2, 2), (5, 89), (6, 2)]),
    ];
    // "Waiters while the radio is free": every mark but 1 is that of a free one.
    all.extend([0, 2, 3, 128, 129, 255].map(|mark| with(&[(3, mark)])));
    all
}

/// What alters nothing leaves every byte of a malformed record: a tick, a leaving, and a refused
/// join.
#[test]
fn without_effect_they_stay() {
    for queue in all() {
        assert_eq!(after(queue, &club(), Tick), (0, queue));
        for user in [10, 11, 12, 13, 64, queue[4], queue[8], queue[9]] {
            assert_eq!(after(queue, &club(), Leave { user }), (0, queue));
        }
        assert_eq!(after(queue, &club(), Join { user: GUEST }), (9, queue));
        assert_eq!(after(queue, &club(), Join { user: 64 }), (4, queue));
    }
}

/// A join that is accepted begins from the empty line: nobody is there and the line is not full.
#[test]
fn a_join_begins_from_the_empty_line() {
    for queue in all() {
        let mut joined = [
            queue[0], queue[1], queue[2], 1, 0, 3, 0, 0, 0, 0, 0, 0, 0, 0, 0, 0,
        ];
        (joined[5], joined[6]) = match (queue[1], queue[2]) {
            (3, 0) => (3, 0),
            (0 | 1, 0) => (1, 0),
            _ => (88, 2),
        };
        for user in [10, 11, 12, 20] {
            joined[4] = user;
            assert_eq!(after(queue, &club(), Join { user }), (0, joined));
        }
    }
}

/// What is not looked at makes no record malformed: the places past the count, and all of a free
/// radio but its count. An event with effect leaves zeros there.
#[test]
fn what_is_not_looked_at() {
    let junk = [10, 11, 11, 64, 255, 200];
    let mut queue = SOUND;
    queue[10..].copy_from_slice(&junk);
    assert_eq!(after(queue, &club(), Tick), (0, held(3, 10, 1, &[11, 12])));
    assert_eq!(
        after(queue, &club(), Join { user: 13 }),
        (0, held(3, 10, 2, &[11, 12, 13]))
    );
    assert_eq!(
        after(queue, &club(), Leave { user: 11 }),
        (0, held(3, 10, 2, &[12]))
    );
    assert_eq!(
        after(queue, &club(), Leave { user: 10 }),
        (0, held(3, 11, 3, &[12]))
    );
    for mark in [0, 2, 255] {
        let queue = [RADIO, 3, 0, mark, 10, 9, 9, 0, 11, 11, 64, 1, 2, 3, 4, 5];
        let joined = after(queue, &club(), Join { user: 10 });
        assert_eq!(joined, (0, held(3, 10, 3, &[])));
        assert_eq!(after(queue, &club(), Join { user: GUEST }), (9, queue));
        assert_eq!(after(queue, &club(), Leave { user: 10 }), (0, queue));
        assert_eq!(after(queue, &club(), Tick), (0, queue));
    }
}

/// The ends of what is well formed: object 63, eight waiters, one tick and N ticks left.
#[test]
fn the_last_that_are_well_formed() {
    assert_eq!(
        after(with(&[(4, 63), (9, 0)]), &club(), Tick),
        (0, held(3, 63, 1, &[11, 0]))
    );
    assert_eq!(
        after(with(&[(5, 3), (8, 63)]), &club(), Tick),
        (0, held(3, 10, 2, &[63, 12]))
    );
    let longest = with(&[(1, 255), (2, 255), (5, 88), (6, 2)]);
    let mut ticked = longest;
    ticked[5] = 87;
    assert_eq!(after(longest, &club(), Tick), (0, ticked));
    let zero = with(&[(1, 0), (5, 1)]);
    assert_eq!(after(zero, &club(), Tick), (0, held(0, 11, 1, &[12])));
}
