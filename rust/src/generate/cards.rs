//! Sheets and cards for Job 2: sound sheets, sheets with one fault, and cards that no writer
//! produces.

mod damage;
mod faults;

pub use damage::{changed_card, damaged, records, Damage};
pub use faults::{spoilt, Fault, Wrong};

use super::streams::{stream, Profile};
use super::Rng;
use crate::fast;
use crate::sheet::*;
use crate::words::{is_kind, is_sort};

/// How far a sound sheet is filled.
#[derive(Clone, Copy, Debug, PartialEq, Eq)]
pub enum Fill {
    /// Nothing is in use.
    Blank,
    /// Some objects, most of them in one group.
    Sparse,
    /// Most of every table, and many memberships.
    Dense,
    /// The longest file: 63 groups and a member, and all that can be stored between them.
    Full,
    /// What a list of requests from the founding leaves.
    Grown,
}

impl Fill {
    pub const ALL: [Fill; 5] = [
        Fill::Blank,
        Fill::Sparse,
        Fill::Dense,
        Fill::Full,
        Fill::Grown,
    ];
}

/// A sound sheet, with zeros in its empty places.
pub fn sound(rng: &mut Rng, fill: Fill) -> Sheet {
    match fill {
        Fill::Blank => Sheet::empty(),
        Fill::Sparse => Plan::sparse(rng).sheet(rng),
        Fill::Dense => Plan::dense(rng).sheet(rng),
        Fill::Full => full(rng),
        Fill::Grown => grown(rng),
    }
}

/// A sound sheet, half of the time with junk in its empty places.
pub fn sound_with_junk(rng: &mut Rng, fill: Fill) -> Sheet {
    let mut sheet = sound(rng, fill);
    if rng.percent(50) {
        strew_junk(rng, &mut sheet);
    }
    sheet
}

/// Fills empty places with what leaves them empty: unknown sorts and kinds, and any numbers.
pub fn strew_junk(rng: &mut Rng, sheet: &mut Sheet) {
    let often = rng.pick(&[10, 50, 100]);
    for sort in &mut sheet.sorts {
        if !is_sort(*sort) && rng.percent(often) {
            *sort = of_no_use(rng);
        }
    }
    for w in &mut sheet.warrants {
        if !is_kind(w.kind) && rng.percent(often) {
            *w = Warrant {
                kind: of_no_use(rng),
                holder: rng.byte(),
                a: rng.byte(),
                b: rng.byte(),
            };
        }
    }
    for r in &mut sheet.rules {
        if !r.mark && rng.percent(often) {
            (r.u, r.t, r.ops) = (rng.byte(), rng.byte(), rng.byte());
        }
    }
}

/// A sort or kind that counts as empty: 0, or above 3.
fn of_no_use(rng: &mut Rng) -> u8 {
    if rng.percent(20) {
        0
    } else {
        4 + rng.below(252) as u8
    }
}

/// How a sound sheet is put together.
pub struct Plan {
    /// How many objects are in use, two more than there are roots or above. The roots are the
    /// groups that owner warrants name, one each; all else is under one of them.
    pub objects: usize,
    pub roots: usize,
    /// How many memberships of a hundred are stored besides those that lead to a root.
    pub more: usize,
    /// How many warrants are in use, those of the roots counted; the kinds of the others.
    pub warrants: usize,
    pub kinds: &'static [u8],
    pub rules: usize,
}

impl Plan {
    fn sparse(rng: &mut Rng) -> Plan {
        let roots = 1 + rng.below(3);
        Plan {
            objects: roots + 2 + rng.below(12),
            roots,
            more: rng.pick(&[0, 5, 20]),
            warrants: roots + rng.below(6),
            kinds: &[OWNER, MANAGER, ADMINISTRATOR],
            rules: rng.below(6),
        }
    }

    fn dense(rng: &mut Rng) -> Plan {
        Plan {
            objects: 40 + rng.below(25),
            roots: 1 + rng.below(4),
            more: rng.pick(&[20, 50, 90, 100]),
            warrants: 20 + rng.below(13),
            kinds: &[OWNER, MANAGER, ADMINISTRATOR],
            rules: 40 + rng.below(25),
        }
    }

    /// A sheet after the plan, at any numbers and places.
    pub fn sheet(&self, rng: &mut Rng) -> Sheet {
        let mut sheet = Sheet::empty();
        let numbers = some_of(rng, OBJECTS, self.objects);
        let (roots, others) = numbers.split_at(self.roots);
        let mut groups = roots.to_vec();
        let mut members = Vec::new();
        for &root in roots {
            sheet.sorts[root as usize] = GROUP;
        }
        for (index, &x) in others.iter().enumerate() {
            let sort = match index {
                0 => MEMBER,
                1 => GEAR,
                _ => rng.pick(&[GROUP, GROUP, MEMBER, GEAR]),
            };
            sheet.sorts[x as usize] = sort;
            sheet.members[rng.pick(&groups) as usize] |= 1 << x;
            match sort {
                GROUP => groups.push(x),
                MEMBER => members.push(x),
                _ => {}
            }
        }
        for &g in &groups {
            for &x in &numbers {
                sheet.members[g as usize] |= (rng.percent(self.more) as u64) << x;
            }
        }
        let mut roots = roots.iter();
        for place in some_of(rng, WARRANTS, self.warrants) {
            let (kind, a) = match roots.next() {
                Some(&root) => (OWNER, root),
                None => (rng.pick(self.kinds), rng.pick(&groups)),
            };
            let holder = rng.pick(&members);
            sheet.warrants[place as usize] = warrant(rng, kind, holder, a, &groups);
        }
        for place in some_of(rng, RULES, self.rules) {
            sheet.rules[place as usize] = rule(rng, &groups);
        }
        sheet
    }
}

/// B is one of the groups for an administrator, else 0.
fn warrant(rng: &mut Rng, kind: u8, holder: u8, a: u8, groups: &[u8]) -> Warrant {
    let b = match kind {
        ADMINISTRATOR => rng.pick(groups),
        _ => 0,
    };
    Warrant { kind, holder, a, b }
}

fn rule(rng: &mut Rng, groups: &[u8]) -> Rule {
    Rule {
        mark: true,
        u: rng.pick(groups),
        t: rng.pick(groups),
        ops: 1 + rng.below(255) as u8,
    }
}

/// So many different numbers below `below`, in any order.
fn some_of(rng: &mut Rng, below: usize, count: usize) -> Vec<u8> {
    let mut numbers: Vec<u8> = (0..below as u8).collect();
    for at in 0..count {
        let other = at + rng.below(below - at);
        numbers.swap(at, other);
    }
    numbers.truncate(count);
    numbers
}

fn full(rng: &mut Rng) -> Sheet {
    let mut sheet = Sheet::empty();
    let member = rng.below(OBJECTS) as u8;
    let groups: Vec<u8> = (0..OBJECTS as u8).filter(|&x| x != member).collect();
    sheet.sorts = [GROUP; OBJECTS];
    sheet.sorts[member as usize] = MEMBER;
    sheet.members = [u64::MAX; OBJECTS];
    sheet.members[member as usize] = 0;
    for w in &mut sheet.warrants {
        let (kind, a) = (1 + rng.below(3) as u8, rng.pick(&groups));
        *w = warrant(rng, kind, member, a, &groups);
    }
    let a = rng.pick(&groups);
    sheet.warrants[rng.below(WARRANTS)] = warrant(rng, OWNER, member, a, &groups);
    for r in &mut sheet.rules {
        *r = rule(rng, &groups);
    }
    sheet
}

fn grown(rng: &mut Rng) -> Sheet {
    let profile = rng.pick(&Profile::ALL);
    let count = rng.below(150);
    let mut sheet = Sheet::founding();
    for record in stream(rng, profile, count, fast::judge) {
        fast::judge_in_place(&mut sheet, &record);
    }
    sheet
}
