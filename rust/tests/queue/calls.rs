//! The call, by hand: who gets the radio and who is struck.

use crate::*;

/// The two events that free a radio whose holder has one tick left.
const FREEING: [Event; 2] = [Tick, Leave { user: 10 }];

/// "It hands the radio to the first waiter then permitted operation 2", for N ticks.
#[test]
fn the_first_waiter_gets_it() {
    let queue = held(7, 10, 1, &[12, 11, 13]);
    for event in FREEING {
        let called = after(queue, &club(), event);
        assert_eq!(called, (0, held(7, 12, 7, &[11, 13])));
    }
}

/// It "strikes all ahead of him"; those behind him stay, permitted or not.
#[test]
fn those_ahead_are_struck() {
    let queue = held(7, 10, 1, &[11, 12, 13, 14, 15]);
    let sheet = club_without(&[11, 12, 14]);
    for event in FREEING {
        let called = after(queue, &sheet, event);
        assert_eq!(called, (0, held(7, 13, 7, &[14, 15])));
    }
}

/// The last of eight gets it, and seven are struck.
#[test]
fn the_last_of_eight_gets_it() {
    let queue = held(7, 10, 1, &[11, 12, 13, 14, 15, 16, 17, 18]);
    let sheet = club_without(&[11, 12, 13, 14, 15, 16, 17]);
    for event in FREEING {
        assert_eq!(after(queue, &sheet, event), (0, held(7, 18, 7, &[])));
    }
}

/// "If none is permitted, all are struck", and the radio is free; likewise if nobody waits.
#[test]
fn all_are_struck() {
    let queue = held(7, 10, 1, &[11, 12, 13, 14, 15, 16, 17, 18]);
    let sheet = club_without(&[11, 12, 13, 14, 15, 16, 17, 18]);
    for event in FREEING {
        assert_eq!(after(queue, &sheet, event), (0, free(7)));
        assert_eq!(after(held(7, 10, 1, &[]), &club(), event), (0, free(7)));
    }
}

/// Each event has its own sheet: a radio that is no gear on it, or that no rule covers, is
/// nobody's; and a rule that lacks operation 2 gives no turn.
#[test]
fn the_sheet_of_this_event() {
    let queue = held(7, 10, 1, &[11, 12]);
    let mut a_group = club();
    a_group.sorts[RADIO as usize] = GROUP;
    let mut empty = club();
    empty.sorts[RADIO as usize] = 0;
    let mut elsewhere = club();
    elsewhere.members[5] = 0;
    let mut no_rule = club();
    no_rule.rules[3] = Rule::default();
    let mut tune = club();
    tune.rules[3].ops = 0b1111_1011;
    for sheet in [a_group, empty, elsewhere, no_rule, tune, Sheet::empty()] {
        for event in FREEING {
            assert_eq!(after(queue, &sheet, event), (0, free(7)));
        }
    }
}

/// A waiter who is no member on this event's sheet is struck, though a rule names his number.
#[test]
fn only_members_are_permitted() {
    let queue = held(7, 10, 1, &[11, 12]);
    for sort in [0, GROUP, GEAR, 4, 255] {
        let mut sheet = club();
        sheet.sorts[11] = sort;
        for event in FREEING {
            assert_eq!(after(queue, &sheet, event), (0, held(7, 12, 7, &[])));
        }
    }
}

/// A line for a gear off the table: whoever waits in it is struck.
#[test]
fn a_gear_off_the_table() {
    for gear in [64, 70, 255] {
        let mut queue = held(7, 10, 1, &[11, 12]);
        queue[0] = gear;
        let mut after_it = free(7);
        after_it[0] = gear;
        for event in FREEING {
            assert_eq!(after(queue, &club(), event), (0, after_it));
        }
    }
}

/// "A holder keeps his turn though his permit ends", whatever the event.
#[test]
fn a_holder_keeps_his_turn() {
    let sheet = club_without(&[10]);
    let queue = held(7, 10, 5, &[11]);
    assert_eq!(after(queue, &sheet, Tick), (0, held(7, 10, 4, &[11])));
    assert_eq!(
        after(queue, &sheet, Join { user: 12 }),
        (0, held(7, 10, 5, &[11, 12]))
    );
    assert_eq!(
        after(queue, &sheet, Leave { user: 11 }),
        (0, held(7, 10, 5, &[]))
    );
    assert_eq!(
        after(queue, &Sheet::empty(), Tick),
        (0, held(7, 10, 4, &[11]))
    );
}

/// A permit that ended and came back before the call is as good as one that stayed.
#[test]
fn a_permit_that_comes_back() {
    let queue = held(2, 10, 2, &[11]);
    let (_, queue) = after(queue, &club_without(&[11]), Tick);
    assert_eq!(queue, held(2, 10, 1, &[11]));
    assert_eq!(after(queue, &club(), Tick), (0, held(2, 11, 2, &[])));
}

/// One who was struck may join again, at the end of the line.
#[test]
fn the_struck_may_join_again() {
    let queue = held(2, 10, 1, &[11, 12, 13]);
    let (_, queue) = after(queue, &club_without(&[11]), Tick);
    assert_eq!(queue, held(2, 12, 2, &[13]));
    assert_eq!(
        after(queue, &club(), Join { user: 11 }),
        (0, held(2, 12, 2, &[13, 11]))
    );
}
