//! Turns at one radio, Job 4 of document 02: the sentences with their answers written out by
//! hand; the board beside the two lines of this package, on lists of events with changing
//! policies and on records of any value; the sizes of what is lent; and how long one waits.

#[path = "queue/beside.rs"]
mod beside_lines;
#[path = "queue/bound.rs"]
mod bound;
#[path = "queue/calls.rs"]
mod calls;
#[path = "queue/events.rs"]
mod events;
#[path = "queue/malformed.rs"]
mod malformed;
#[path = "queue/sizes.rs"]
mod sizes;

use beside::compare;
use beside::line::{Event, Event::*, Queue};
use beside::sheet::*;

/// The gear at which turns are taken, and the operators, who may transmit on it.
const RADIO: u8 = 6;
const FIRST: u8 = 10;
const LAST: u8 = 20;
const OPERATORS: u8 = 4;
/// A member who is no operator.
const GUEST: u8 = 30;

/// A club by hand: group 0 has the founder 1, the operators' group 4, the group 5 with the radio,
/// and the guest. Rule 3 gives the operators operation 2 on group 5, and rule 2 gives the whole
/// club all but that.
fn club() -> Sheet {
    let mut sheet = Sheet::founding();
    for (x, sort, group) in [(OPERATORS, GROUP, 0), (5, GROUP, 0), (RADIO, GEAR, 5)] {
        sheet.sorts[x as usize] = sort;
        sheet.members[group] |= 1 << x;
    }
    for x in FIRST..=LAST {
        sheet.sorts[x as usize] = MEMBER;
        sheet.members[OPERATORS as usize] |= 1 << x;
    }
    sheet.sorts[GUEST as usize] = MEMBER;
    sheet.members[0] |= 1 << GUEST;
    let rule = |u, ops| Rule {
        mark: true,
        u,
        t: 5,
        ops,
    };
    sheet.rules[2] = rule(0, 0b1111_1011);
    sheet.rules[3] = rule(OPERATORS, 0b0000_0100);
    sheet
}

/// The club, with these no longer among the operators.
fn club_without(users: &[u8]) -> Sheet {
    let mut sheet = club();
    for &user in users {
        sheet.members[OPERATORS as usize] &= !(1 << user);
    }
    sheet
}

/// The bytes of a record of the radio: N below 256, the holder, the ticks left below 256, and
/// the waiters.
fn held(n: u8, holder: u8, left: u8, waiters: &[u8]) -> Queue {
    let mut queue = free(n);
    queue[3] = 1;
    queue[4] = holder;
    queue[5] = left;
    queue[7] = waiters.len() as u8;
    queue[8..8 + waiters.len()].copy_from_slice(waiters);
    queue
}

fn free(n: u8) -> Queue {
    [RADIO, n, 0, 0, 0, 0, 0, 0, 0, 0, 0, 0, 0, 0, 0, 0]
}

/// The code and the record after an event on a sheet: those of the board and of both lines.
fn after(queue: Queue, sheet: &Sheet, event: Event) -> (u8, Queue) {
    compare::queues::event(&queue, &sheet.picture(), event)
        .unwrap_or_else(|difference| panic!("a difference\n{difference}"))
}

/// The record after a number of events on one sheet, each of which has code 0.
fn after_all(mut queue: Queue, sheet: &Sheet, events: &[Event]) -> Queue {
    for &event in events {
        let (code, next) = after(queue, sheet, event);
        assert_eq!(code, 0, "{event:?}");
        queue = next;
    }
    queue
}

/// The numbers of the club as the tests take them.
#[test]
fn the_club() {
    let sheet = club();
    let code = |user, operation| {
        let record = [7, 0, 8, 0, user, RADIO, operation];
        beside::plain::judge(&sheet, &record).code
    };
    assert!((FIRST..=LAST).all(|user| code(user, 2) == 0));
    assert_eq!([code(GUEST, 2), code(GUEST, 1), code(GUEST, 3)], [9, 0, 0]);
    assert_eq!(code(1, 2), 9);
    let queue = held(3, 10, 2, &[11, 12]);
    assert_eq!(queue, [6, 3, 0, 1, 10, 2, 0, 2, 11, 12, 0, 0, 0, 0, 0, 0]);
    assert_eq!(after(queue, &sheet, Tick), (0, held(3, 10, 1, &[11, 12])));
}
