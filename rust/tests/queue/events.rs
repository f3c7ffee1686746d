//! Start, join, leave and tick, by hand.

use crate::*;

/// "The gear and N are set at the start"; N is stored as it was given.
#[test]
fn a_start_sets_gear_and_n() {
    let junk = [0xa5; 16];
    let start = |gear, n| after(junk, &club(), Start { gear, n });
    assert_eq!(
        start(6, 3),
        (0, [6, 3, 0, 0, 0, 0, 0, 0, 0, 0, 0, 0, 0, 0, 0, 0])
    );
    assert_eq!(
        start(255, 65535),
        (0, [255, 255, 255, 0, 0, 0, 0, 0, 0, 0, 0, 0, 0, 0, 0, 0])
    );
    assert_eq!(
        start(64, 601),
        (0, [64, 89, 2, 0, 0, 0, 0, 0, 0, 0, 0, 0, 0, 0, 0, 0])
    );
    assert_eq!(start(0, 0), (0, [0; 16]));
}

/// "The last step of an accepted join while it is free is a call": the joiner has the radio.
#[test]
fn the_joiner_of_a_free_radio_holds_it() {
    let joined = after(free(3), &club(), Join { user: 10 });
    assert_eq!(joined, (0, held(3, 10, 3, &[])));
}

/// "First come first served, besides the one holding it."
#[test]
fn later_ones_wait_in_their_order() {
    let joins = [14, 11, 20, 12].map(|user| Join { user });
    assert_eq!(
        after_all(free(3), &club(), &joins),
        held(3, 14, 3, &[11, 20, 12])
    );
}

/// "N from 1 to 600; 0 counts as 1, more than 600 as 600." It stays as it was given.
#[test]
fn n_counts_as_1_to_600() {
    let left = |n: u16| {
        let [low, high] = n.to_le_bytes();
        let queue = [RADIO, low, high, 0, 0, 0, 0, 0, 0, 0, 0, 0, 0, 0, 0, 0];
        let (code, joined) = after(queue, &club(), Join { user: 10 });
        assert_eq!((code, joined[..3].to_vec()), (0, queue[..3].to_vec()));
        (joined[5], joined[6])
    };
    assert_eq!([left(0), left(1), left(2)], [(1, 0), (1, 0), (2, 0)]);
    assert_eq!([left(255), left(256)], [(255, 0), (0, 1)]);
    // 600 is 2 times 256 and 88.
    assert_eq!([left(599), left(600)], [(87, 2), (88, 2)]);
    assert_eq!([left(601), left(65535)], [(88, 2), (88, 2)]);
}

/// "A join fails first with the USE refusals of document 01": each of them, on a free radio, on
/// a held one and on a full line. The record stays.
#[test]
fn the_refusals_of_a_use() {
    let sheet = club();
    let full = held(3, 10, 3, &[11, 12, 13, 14, 15, 16, 17, 18]);
    for queue in [free(3), held(3, 10, 2, &[11]), full] {
        let with_gear = |gear| {
            let mut queue = queue;
            queue[0] = gear;
            queue
        };
        // 4 stranger: above 63, an empty object, a group, a gear; it comes before 5, 6 and 7.
        for user in [64, 74, 138, 255, 50, 0, OPERATORS, RADIO] {
            for gear in [RADIO, 64, 50, 0] {
                let queue = with_gear(gear);
                assert_eq!(after(queue, &sheet, Join { user }), (4, queue));
            }
        }
        // 5 off the sheet, 6 absent, 7 wrong sort: even for one who is there.
        for user in [10, 11, 20, GUEST] {
            for (gear, code) in [(64, 5), (70, 5), (255, 5), (50, 6), (0, 7), (GUEST, 7)] {
                let queue = with_gear(gear);
                assert_eq!(after(queue, &sheet, Join { user }), (code, queue));
            }
        }
        // 9 no authority: all operations but 2 are not enough.
        for user in [1, GUEST] {
            assert_eq!(after(queue, &sheet, Join { user }), (9, queue));
        }
    }
}

/// "Then 15 already there, for one who waits or holds", though he may use the radio; and 9 comes
/// before it for one who may not any longer.
#[test]
fn already_there() {
    let queue = held(3, 10, 2, &[11, 12]);
    for user in [10, 11, 12] {
        assert_eq!(after(queue, &club(), Join { user }), (15, queue));
        let sheet = club_without(&[user]);
        assert_eq!(after(queue, &sheet, Join { user }), (9, queue));
    }
}

/// "Then 16 line full, when the radio is held and 8 wait." Seven who wait leave a place.
#[test]
fn line_full() {
    let full = held(3, 10, 2, &[11, 12, 13, 14, 15, 16, 17, 18]);
    assert_eq!(after(full, &club(), Join { user: 19 }), (16, full));
    assert_eq!(after(full, &club(), Join { user: 18 }), (15, full));
    assert_eq!(after(full, &club(), Join { user: 10 }), (15, full));
    assert_eq!(after(full, &club(), Join { user: GUEST }), (9, full));
    let seven = held(3, 10, 2, &[11, 12, 13, 14, 15, 16, 17]);
    assert_eq!(after(seven, &club(), Join { user: 18 }), (0, full));
}

/// A waiter goes, the others keep their order, and no call follows: those who may not transmit
/// stay. The places past the count are 0.
#[test]
fn a_waiter_leaves() {
    let queue = held(3, 10, 2, &[11, 12, 13, 14, 15, 16, 17, 18]);
    let sheet = club_without(&[11, 12, 13]);
    for (user, waiters) in [
        (11, [12, 13, 14, 15, 16, 17, 18]),
        (14, [11, 12, 13, 15, 16, 17, 18]),
        (18, [11, 12, 13, 14, 15, 16, 17]),
    ] {
        let left = after(queue, &sheet, Leave { user });
        assert_eq!(left, (0, held(3, 10, 2, &waiters)));
    }
    let one = held(3, 10, 2, &[11]);
    assert_eq!(
        after(one, &sheet, Leave { user: 11 }),
        (0, held(3, 10, 2, &[]))
    );
}

/// "Leaving by one who is not there leaves the record as it was", junk past the count too.
#[test]
fn one_who_is_not_there_leaves() {
    let mut queue = held(3, 10, 2, &[11, 12]);
    queue[10..].copy_from_slice(&[13, 14, 64, 255, 10, 11]);
    for user in [13, 14, 0, 1, GUEST, 63, 64, 74, 128, 255] {
        assert_eq!(after(queue, &club(), Leave { user }), (0, queue));
        assert_eq!(after(free(3), &club(), Leave { user }), (0, free(3)));
    }
}

/// "A turn ends at the N-th tick after it began." One that a join begins has N ticks.
#[test]
fn a_turn_has_n_ticks() {
    let sheet = club();
    let mut queue = after_all(free(3), &sheet, &[Join { user: 10 }, Join { user: 11 }]);
    for expected in [
        held(3, 10, 2, &[11]),
        held(3, 10, 1, &[11]),
        // The third tick ends it. The turn that begins in it does not count it.
        held(3, 11, 3, &[]),
        held(3, 11, 2, &[]),
        held(3, 11, 1, &[]),
        free(3),
        free(3),
    ] {
        queue = after_all(queue, &sheet, &[Tick]);
        assert_eq!(queue, expected);
    }
}

/// With N of 1, and of 0, each tick ends a turn.
#[test]
fn turns_of_one_tick() {
    for n in [0, 1] {
        let queue = held(n, 10, 1, &[11, 12]);
        let queue = after_all(queue, &club(), &[Tick]);
        assert_eq!(queue, held(n, 11, 1, &[12]));
        let queue = after_all(queue, &club(), &[Tick]);
        assert_eq!(queue, held(n, 12, 1, &[]));
        assert_eq!(after_all(queue, &club(), &[Tick]), free(n));
    }
}

/// The ticks left are one number of two bytes.
#[test]
fn ticks_left_take_two_bytes() {
    let mut queue = held(3, 10, 0, &[]);
    (queue[1], queue[2]) = (88, 2);
    (queue[5], queue[6]) = (0, 2);
    let mut next = queue;
    (next[5], next[6]) = (255, 1);
    assert_eq!(after(queue, &club(), Tick), (0, next));
}

/// "A tick while the radio is free leaves the record as it was."
#[test]
fn a_tick_at_a_free_radio() {
    assert_eq!(after(free(3), &club(), Tick), (0, free(3)));
    let mut junk = free(3);
    junk[4] = 200;
    junk[5] = 7;
    junk[8..].fill(99);
    assert_eq!(after(junk, &club(), Tick), (0, junk));
}
