//! What came in a test: how often each pair of kind and code, and how far the sheets grew.

mod events;
mod withdrawals;

pub use events::Events;
pub use withdrawals::Withdrawals;

use crate::sheet::Sheet;
use std::fmt::{self, Display, Formatter};

/// How often each (kind, code) came; kind 0 stands for records of unknown kind.
#[derive(Default)]
pub struct Counts([[usize; 13]; 9]);

impl Counts {
    pub fn add(&mut self, record: &[u8], code: u8) {
        let kind = match record {
            [_, _, kind @ 1..=8, 0, ..] => *kind as usize,
            _ => 0,
        };
        self.0[kind][code as usize] += 1;
    }

    pub fn of(&self, kind: usize, code: u8) -> usize {
        self.0[kind][code as usize]
    }

    pub fn total(&self) -> usize {
        self.0.iter().flatten().sum()
    }
}

impl Display for Counts {
    fn fmt(&self, out: &mut Formatter) -> fmt::Result {
        write!(out, "kind")?;
        for code in 0..13 {
            write!(out, "{:>10}", format!("code {code}"))?;
        }
        for (kind, row) in self.0.iter().enumerate() {
            write!(out, "\n{kind:>4}")?;
            for count in row {
                write!(out, "{count:>10}")?;
            }
        }
        Ok(())
    }
}

/// The shapes of the sheets that lists from the founding come to.
#[derive(Default)]
pub struct Shapes {
    /// The steps of the longest of the shortest chains to object 0, on any sheet.
    pub longest_chain: usize,
    /// How many lists end with a circle of groups, and with a group directly in itself.
    pub circles: usize,
    pub selves: usize,
    /// How many lists end with every object, every warrant, every rule in use.
    pub full_objects: usize,
    pub full_warrants: usize,
    pub full_rules: usize,
}

impl Shapes {
    pub fn add_any(&mut self, sheet: &Sheet) {
        self.longest_chain = self.longest_chain.max(levels(sheet, 0));
    }

    pub fn add_last(&mut self, sheet: &Sheet) {
        let in_itself = |g: usize| sheet.members[g] >> g & 1 == 1;
        self.selves += (0..64).any(in_itself) as usize;
        self.circles += (0..64).any(|g| in_a_circle(sheet, g)) as usize;
        self.full_objects += sheet.sorts.iter().all(|&s| s != 0) as usize;
        self.full_warrants += sheet.warrants.iter().all(|w| w.kind != 0) as usize;
        self.full_rules += sheet.rules.iter().all(|r| r.mark) as usize;
    }
}

impl Display for Shapes {
    fn fmt(&self, out: &mut Formatter) -> fmt::Result {
        write!(
            out,
            "longest chain {}; lists that end with a circle {}, a group in itself {}, \
             all objects in use {}, all warrants {}, all rules {}",
            self.longest_chain,
            self.circles,
            self.selves,
            self.full_objects,
            self.full_warrants,
            self.full_rules
        )
    }
}

/// How many steps the shortest chain has to what lies furthest under g.
fn levels(sheet: &Sheet, g: usize) -> usize {
    let mut level = 1u64 << g;
    let mut found = level;
    let mut steps = 0;
    loop {
        level = directly_under(sheet, level) & !found;
        if level == 0 {
            return steps;
        }
        found |= level;
        steps += 1;
    }
}

fn directly_under(sheet: &Sheet, set: u64) -> u64 {
    let inside = |g: &usize| set >> g & 1 == 1;
    (0..64)
        .filter(inside)
        .fold(0, |below, g| below | sheet.members[g])
}

/// Does a chain of two or more memberships lead from g up to g?
fn in_a_circle(sheet: &Sheet, g: usize) -> bool {
    let own = 1u64 << g;
    let mut below = sheet.members[g] & !own;
    for _ in 0..64 {
        below |= directly_under(sheet, below);
    }
    below & own != 0
}
