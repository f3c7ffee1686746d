//! Events at one radio: records of any value, events with a sheet and a record in view, policies
//! that change from one event to the next, and inputs of the program.

mod inputs;
mod policies;
mod records;

pub use inputs::input;
pub use policies::{Club, Policies, RADIO};
pub use records::queue;

use super::draw::Draw;
use super::Rng;
use crate::fast;
use crate::line::{self, Event, Queue};
use crate::sheet::*;

/// How the events of a list are mixed.
#[derive(Clone, Copy)]
pub struct Mix {
    join: usize,
    leave: usize,
    tick: usize,
    start: usize,
}

impl Mix {
    /// Mostly joins, so that lines get full; mostly ticks; or much of each.
    pub fn draw(rng: &mut Rng, start: usize) -> Mix {
        let (join, leave, tick) = rng.pick(&[(80, 8, 10), (40, 20, 40), (30, 5, 60), (20, 20, 60)]);
        Mix {
            join,
            leave,
            tick,
            start,
        }
    }
}

/// An N: most often a short one, at times one at the ends of what counts or past them.
pub fn turn(rng: &mut Rng) -> u16 {
    match rng.below(10) {
        0 => 0,
        1 => rng.pick(&[599, 600, 601, 1000, 65535]),
        2 => rng.word() as u16,
        _ => 1 + rng.below(6) as u16,
    }
}

/// A start: most often for a gear in use.
pub fn start(rng: &mut Rng, sheet: &Sheet) -> Event {
    let gear = gear(rng, sheet);
    Event::Start { gear, n: turn(rng) }
}

fn gear(rng: &mut Rng, sheet: &Sheet) -> u8 {
    match rng.below(25) {
        0 => 64 + rng.below(192) as u8,
        1 => Draw::new(rng, sheet).not_in_use(),
        2 => Draw::new(rng, sheet).in_use(),
        3 => rng.byte(),
        _ => {
            let drafts = [0; 6].map(|_| Draw::new(rng, sheet).of_sort(GEAR));
            let users = |gear: &u8| {
                (0..64)
                    .filter(|&user| permitted(sheet, user, *gear))
                    .count()
            };
            drafts.into_iter().max_by_key(users).expect("six drafts")
        }
    }
}

/// Is the user permitted operation 2 on the gear?
fn permitted(sheet: &Sheet, user: u8, gear: u8) -> bool {
    fast::judge(sheet, &[7, 0, 8, 0, user, gear, line::TRANSMIT]).code == 0
}

/// An event for this sheet and record. At a free radio most are joins.
pub fn event(rng: &mut Rng, mix: Mix, sheet: &Sheet, queue: &Queue) -> Event {
    let idle = queue[line::MARK_AT] != line::HELD && rng.percent(60);
    match rng.weighted(&[mix.join, mix.leave, mix.tick, mix.start]) {
        drawn if drawn == 0 || idle => Event::Join {
            user: joiner(rng, sheet, queue),
        },
        1 => Event::Leave {
            user: user(rng, sheet, queue, 75),
        },
        2 => Event::Tick,
        _ => start(rng, sheet),
    }
}

/// Most often one who is permitted.
fn joiner(rng: &mut Rng, sheet: &Sheet, queue: &Queue) -> u8 {
    let mut drawn = user(rng, sheet, queue, 10);
    for _ in 0..rng.pick(&[0, 3, 8]) {
        if !permitted(sheet, drawn, queue[line::GEAR_AT]) {
            drawn = user(rng, sheet, queue, 10);
        }
    }
    drawn
}

/// One whom the record names, as often as asked; else most often a member, or any number.
fn user(rng: &mut Rng, sheet: &Sheet, queue: &Queue, named: usize) -> u8 {
    if rng.percent(named) {
        let count = queue[line::COUNT_AT].min(8) as usize;
        let waiters = &queue[line::WAITERS_AT..][..count];
        return rng.pick(&[&[queue[line::HOLDER_AT]], waiters].concat());
    }
    match rng.below(25) {
        0 => rng.byte(),
        1 => Draw::new(rng, sheet).not_in_use(),
        2 => Draw::new(rng, sheet).in_use(),
        _ => Draw::new(rng, sheet).of_sort(MEMBER),
    }
}
