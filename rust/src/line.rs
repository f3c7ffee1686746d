//! Job 4 of document 02, "Turns at one radio", in the plainest way: a record of 16 bytes is read
//! into a line, the event alters the line, and the line is written back over the record. `fast`
//! does the same for speed.

pub mod fast;
mod record;

pub use record::{malformed, turn_length};

use crate::plain::holdings::{sort_is, Holdings};
use crate::plain::{self, DONE};
use crate::sheet::*;
use record::{stored_turn, stored_waiters, write};

/// Length of the record: gear, N (lowest byte first), mark, holder, ticks left (lowest byte
/// first), count of waiters, and eight places for waiters.
pub const QUEUE: usize = 16;

/// "The waiting line is one record that stays in its place while events alter it." Any bytes are
/// one.
pub type Queue = [u8; QUEUE];

/// Where each field stands; N and the ticks left take two bytes.
pub const GEAR_AT: usize = 0;
pub const N_AT: usize = 1;
pub const MARK_AT: usize = 3;
pub const HOLDER_AT: usize = 4;
pub const LEFT_AT: usize = 5;
pub const COUNT_AT: usize = 7;
pub const WAITERS_AT: usize = 8;

/// The mark of a held radio; any other is that of a free one.
pub const HELD: u8 = 1;

/// "Up to 8 may wait."
pub const MOST_WAITERS: usize = 8;

/// "N from 1 to 600."
pub const LONGEST_TURN: u16 = 600;

/// Operation "2 transmit".
pub const TRANSMIT: u8 = 2;

/// Turned away: "15 already there, for one who waits or holds, then 16 line full, when the radio
/// is held and 8 wait".
pub const ALREADY_THERE: u8 = 15;
pub const LINE_FULL: u8 = 16;

/// "The gear and N are set at the start"; "The events are join, leave and a one-second tick."
#[derive(Clone, Copy, Debug, PartialEq, Eq)]
pub enum Event {
    Start { gear: u8, n: u16 },
    Join { user: u8 },
    Leave { user: u8 },
    Tick,
}

/// Who has the radio, and for how many ticks yet.
#[derive(Clone, Copy, Debug, PartialEq, Eq)]
pub struct Turn {
    pub holder: u8,
    pub left: u16,
}

/// What a record says: whose turn it is, or that the radio is free; and who waits, the first to
/// come first.
#[derive(Clone, Debug, Default, PartialEq, Eq)]
pub struct Line {
    pub turn: Option<Turn>,
    pub waiters: Vec<u8>,
}

impl Line {
    /// The line of a record. One that is malformed "counts as an empty line with the radio free".
    pub fn of(queue: &Queue) -> Line {
        if malformed(queue) {
            return Line::default();
        }
        Line {
            turn: stored_turn(queue),
            waiters: stored_waiters(queue).to_vec(),
        }
    }

    /// Does this user hold the radio?
    pub fn is_held_by(&self, user: u8) -> bool {
        self.turn.is_some_and(|turn| turn.holder == user)
    }

    /// How many wait ahead of this waiter, "the holder not counted".
    pub fn ahead_of(&self, user: u8) -> Option<usize> {
        self.waiters.iter().position(|&waiter| waiter == user)
    }
}

/// "The gear and N are set at the start." The line is empty and the radio free.
pub fn start(gear: u8, n: u16) -> Queue {
    let mut queue = [0; QUEUE];
    queue[GEAR_AT] = gear;
    queue[N_AT..N_AT + 2].copy_from_slice(&n.to_le_bytes());
    queue
}

/// "A join fails first with the USE refusals of document 01, then 15 already there, then 16 line
/// full." A refused join leaves the record as it was.
pub fn join(queue: &mut Queue, sheet: &Sheet, user: u8) -> u8 {
    let record = [7, 0, 8, 0, user, queue[GEAR_AT], TRANSMIT];
    let refusal = plain::judge(sheet, &record).code;
    if refusal != DONE {
        return refusal;
    }
    let mut line = Line::of(queue);
    if line.is_held_by(user) || line.ahead_of(user).is_some() {
        return ALREADY_THERE;
    }
    if line.turn.is_some() && line.waiters.len() == MOST_WAITERS {
        return LINE_FULL;
    }
    // "First come first served."
    line.waiters.push(user);
    // "The last step of an accepted join while it is free is a call."
    if line.turn.is_none() {
        line = called(queue, sheet, &line.waiters);
    }
    write(queue, &line);
    DONE
}

/// The holder frees the radio, and "the last step of an event that freed the radio is a call". A
/// waiter goes, and the others keep their order. "Leaving by one who is not there leaves the
/// record as it was."
pub fn leave(queue: &mut Queue, sheet: &Sheet, user: u8) {
    let mut line = Line::of(queue);
    if line.is_held_by(user) {
        line = called(queue, sheet, &line.waiters);
    } else if let Some(place) = line.ahead_of(user) {
        line.waiters.remove(place);
    } else {
        return;
    }
    write(queue, &line);
}

/// "A turn ends at the N-th tick after it began", and then the last step is a call. "A tick while
/// the radio is free leaves the record as it was."
pub fn tick(queue: &mut Queue, sheet: &Sheet) {
    let mut line = Line::of(queue);
    match &mut line.turn {
        None => return,
        Some(turn) if turn.left > 1 => turn.left -= 1,
        Some(_) => line = called(queue, sheet, &line.waiters),
    }
    write(queue, &line);
}

/// One event on the sheet "as it then is": the code, which is 0 but for a refused join.
pub fn happen(queue: &mut Queue, sheet: &Sheet, event: Event) -> u8 {
    match event {
        Event::Start { gear, n } => *queue = start(gear, n),
        Event::Join { user } => return join(queue, sheet, user),
        Event::Leave { user } => leave(queue, sheet, user),
        Event::Tick => tick(queue, sheet),
    }
    DONE
}

/// The line after a call. "It hands the radio to the first waiter then permitted operation 2 and
/// strikes all ahead of him; if none is permitted, all are struck."
fn called(queue: &Queue, sheet: &Sheet, waiters: &[u8]) -> Line {
    let holdings = Holdings::of(*sheet);
    let gear = queue[GEAR_AT];
    // "A permit is a member, an operation and a gear on which he is permitted it."
    let permitted = |&user: &u8| {
        sort_is(sheet, user, MEMBER)
            && sort_is(sheet, gear, GEAR)
            && holdings.permitted(user, TRANSMIT, gear)
    };
    match waiters.iter().position(permitted) {
        None => Line::default(),
        Some(first) => Line {
            turn: Some(Turn {
                holder: waiters[first],
                left: turn_length(queue),
            }),
            waiters: waiters[first + 1..].to_vec(),
        },
    }
}
