//! What came of the events at a radio.

use crate::line::{self, malformed, Event, Line, Queue};

/// How often each came.
#[derive(Debug, Default)]
pub struct Events {
    pub starts: usize,
    /// Joins by their codes, 0 to 16.
    pub joins: [usize; 17],
    /// Waiters and holders that left, and users who left but were not there.
    pub waiters_left: usize,
    pub holders_left: usize,
    pub strangers_left: usize,
    /// Ticks in a turn, at its end, and at a free radio.
    pub ticks_in_a_turn: usize,
    pub turns_over: usize,
    pub ticks_at_free: usize,
    /// Calls that found the first waiter, a later one, nobody of those who waited; and those with
    /// nobody waiting. A joiner of a free radio is not counted.
    pub found_first: usize,
    pub found_later: usize,
    pub found_nobody: usize,
    pub nobody_waited: usize,
    /// How many were struck, and at most in one call.
    pub struck: usize,
    pub most_struck: usize,
    /// Events that met a full line, and those that left one.
    pub met_full: usize,
    pub left_full: usize,
    /// Events on malformed records that altered them, and that left them as they were.
    pub malformed_altered: usize,
    pub malformed_kept: usize,
}

impl Events {
    pub fn total(&self) -> usize {
        let joins: usize = self.joins.iter().sum();
        let leaves = self.waiters_left + self.holders_left + self.strangers_left;
        self.starts + joins + leaves + self.ticks_in_a_turn + self.turns_over + self.ticks_at_free
    }

    /// An event on a record, and what it left.
    pub fn add(&mut self, before: &Queue, event: Event, code: u8, after: &Queue) {
        let (old, new) = (Line::of(before), Line::of(after));
        let mut called = false;
        match event {
            Event::Start { .. } => {
                self.starts += 1;
                return;
            }
            Event::Join { .. } => self.joins[code as usize] += 1,
            Event::Leave { user } if old.is_held_by(user) => {
                self.holders_left += 1;
                called = true;
            }
            Event::Leave { user } if old.ahead_of(user).is_some() => self.waiters_left += 1,
            Event::Leave { .. } => self.strangers_left += 1,
            Event::Tick => match old.turn {
                None => self.ticks_at_free += 1,
                Some(turn) if turn.left > 1 => self.ticks_in_a_turn += 1,
                Some(_) => {
                    self.turns_over += 1;
                    called = true;
                }
            },
        }
        if called {
            self.add_call(&old, &new);
        }
        let full = |line: &Line| line.waiters.len() == line::MOST_WAITERS;
        self.met_full += full(&old) as usize;
        self.left_full += full(&new) as usize;
        if malformed(before) {
            self.malformed_altered += (before != after) as usize;
            self.malformed_kept += (before == after) as usize;
        }
    }

    fn add_call(&mut self, old: &Line, new: &Line) {
        let found = new.turn.and_then(|turn| old.ahead_of(turn.holder));
        let struck = found.unwrap_or(old.waiters.len());
        match found {
            Some(0) => self.found_first += 1,
            Some(_) => self.found_later += 1,
            None if old.waiters.is_empty() => self.nobody_waited += 1,
            None => self.found_nobody += 1,
        }
        self.struck += struck;
        self.most_struck = self.most_struck.max(struck);
    }
}
