//! The sizes of what is lent: 255 where one doesn't fit, and then no byte is written.

use crate::*;
use beside::board::{self, NO_EVENT};

/// What stands around a buffer that is lent.
const PAINT: u8 = 0xa5;
const AROUND: usize = 16;

/// Each event, and the queue on which it has an effect.
fn events() -> [(Event, Queue); 5] {
    [
        (Start { gear: RADIO, n: 3 }, [PAINT; 16]),
        (Join { user: 10 }, free(3)),
        (Join { user: 12 }, held(3, 10, 1, &[11])),
        (Leave { user: 10 }, held(3, 10, 1, &[11])),
        (Tick, held(3, 10, 1, &[11])),
    ]
}

/// The result of an event on so many bytes of a queue, over and over, and these with what stands
/// around them before and after it.
fn lent(queue: &Queue, length: usize, policy: &[u8], event: Event) -> (u8, Vec<u8>, Vec<u8>) {
    let mut before = vec![PAINT; AROUND];
    before.extend(queue.iter().cycle().take(length));
    before.extend([PAINT; AROUND]);
    let mut after = before.clone();
    let result = board::happen_into(&mut after[AROUND..AROUND + length], policy, event);
    (result, before, after)
}

/// A queue of any other length than 16 bytes.
#[test]
fn lengths_of_the_queue() {
    let picture = club().picture();
    for (event, queue) in events() {
        for length in (0..=40).chain([255, 256, 272, 960, 65552]) {
            let (result, before, after) = lent(&queue, length, &picture, event);
            if length == 16 {
                assert_eq!(result, 0, "{event:?}");
                assert_ne!(before, after, "{event:?}");
                assert_eq!(before[..AROUND], after[..AROUND], "{event:?}");
                assert_eq!(before[AROUND + 16..], after[AROUND + 16..], "{event:?}");
            } else {
                assert_eq!(result, NO_EVENT, "{event:?}, {length} bytes");
                assert_eq!(before, after, "{event:?}, {length} bytes");
            }
        }
    }
}

/// A policy of any other length than 960 bytes, with a queue that fits and one that doesn't. A
/// start has none.
#[test]
fn lengths_of_the_policy() {
    let twice = [club().picture(), club().picture()].concat();
    for (event, queue) in &events()[1..] {
        for policy in [0, 1, 16, 64, 704, PICTURE - 1, PICTURE + 1, 2 * PICTURE] {
            for length in [0, 15, 16, 17] {
                let (result, before, after) = lent(queue, length, &twice[..policy], *event);
                let message = format!("{event:?}, policy {policy}, queue {length}");
                assert_eq!(result, NO_EVENT, "{message}");
                assert_eq!(before, after, "{message}");
            }
        }
        let (result, before, after) = lent(queue, 16, &twice[..PICTURE], *event);
        assert_eq!(result, 0);
        assert_ne!(before, after);
    }
}

/// Buffers may start at any address.
#[test]
fn buffers_at_odd_addresses() {
    for shift in 0..16 {
        let policy = [vec![PAINT; shift], club().picture().to_vec()].concat();
        for (event, queue) in events() {
            let (_, expected) = after(queue, &club(), event);
            let mut bytes = [PAINT; 48];
            let at = 16 + shift;
            bytes[at..at + 16].copy_from_slice(&queue);
            let result = board::happen_into(&mut bytes[at..at + 16], &policy[shift..], event);
            assert_eq!(result, 0);
            assert_eq!(bytes[at..at + 16], expected);
            assert!(bytes[..at].iter().all(|&byte| byte == PAINT));
            assert!(bytes[at + 16..].iter().all(|&byte| byte == PAINT));
        }
    }
}

/// 255 is no code of an event.
#[test]
fn no_code_is_255() {
    assert_eq!(NO_EVENT, 255);
    assert_eq!(after(free(3), &club(), Join { user: 255 }).0, 4);
}
