//! The objects of a sheet as sets by sort, and the closure: what is under each of them.

use crate::sheet::*;
use crate::words::{all_if, at, each, has};

/// The objects in use: of each sort, and all. "An unknown sort counts as empty."
#[derive(Clone, Copy)]
pub struct Sorts {
    pub groups: u64,
    pub members: u64,
    pub gear: u64,
    pub all: u64,
}

impl Sorts {
    pub fn of(sorts: &[u8; OBJECTS]) -> Sorts {
        let [groups, members, gear] = [GROUP, MEMBER, GEAR].map(|sort| places_of(sort, sorts));
        Sorts {
            groups,
            members,
            gear,
            all: groups | members | gear,
        }
    }
}

/// The places that hold this byte, eight of them looked at in one 64-bit word.
fn places_of(byte: u8, table: &[u8; OBJECTS]) -> u64 {
    const EACH: u64 = 0x0101_0101_0101_0101;
    const LOW: u64 = 0x7f * EACH;
    // Moves bit 0 of byte i to bit 56 + i; no two of its products meet.
    const GATHER: u64 = 0x0102_0408_1020_4080;
    table.chunks_exact(8).rev().fold(0, |places, eight| {
        let word = u64::from_le_bytes(eight.try_into().expect("chunks of 8"));
        let differs = word ^ (EACH * byte as u64);
        // Adding 0x7f to the low seven bits sets the eighth unless they are all 0.
        let high_unless_0 = ((differs & LOW) + LOW) | differs;
        let ones = (!high_unless_0 & !LOW) >> 7;
        places << 8 | ones.wrapping_mul(GATHER) >> 56
    })
}

/// For each object in use the set of what is under it; for any other number the empty set.
#[derive(Clone, Copy)]
pub struct Reach([u64; OBJECTS]);

impl Reach {
    /// Works the closure of the stored memberships: a walk down from group to group, each of
    /// them entered once. A group that is left takes the rows of the groups directly in it.
    ///
    /// That row lacks nothing if no group is in it that was entered earlier and isn't finished.
    /// Then the groups that were entered since and aren't finished lead back up to this one,
    /// on circles; so they have the same row, and all of them are finished with it.
    #[inline(never)]
    pub fn of(members: &[u64; OBJECTS], sorts: &Sorts) -> Reach {
        let &Sorts { groups, all, .. } = sorts;
        // "x is under g if x = g": that is all for a member or a gear.
        let mut under: [u64; OBJECTS] = std::array::from_fn(|x| 1 << x & all);
        let mut not_entered = groups;
        let mut finished = 0;
        // The groups on the way down to the one at hand; and for each of these and for the one
        // at hand, those that were entered earlier and weren't finished.
        let mut way = [0; OBJECTS];
        let mut earlier = [0; OBJECTS];
        while not_entered != 0 {
            let mut g = lowest(not_entered);
            not_entered &= !(1 << g);
            let mut depth = 0;
            loop {
                let below = members[g] & not_entered;
                if below != 0 {
                    way[depth % OBJECTS] = g as u8;
                    depth += 1;
                    earlier[depth % OBJECTS] = groups & !not_entered & !finished;
                    g = lowest(below);
                    not_entered &= !(1 << g);
                    continue;
                }
                let mut row = 1 << g | members[g] & all;
                for c in each(members[g] & groups) {
                    row |= under[c];
                }
                under[g] = row;
                if row & earlier[depth % OBJECTS] == 0 {
                    let with_g = row & groups & !finished;
                    finished |= with_g;
                    for c in each(with_g) {
                        under[c] = row;
                    }
                }
                if depth == 0 {
                    break;
                }
                depth -= 1;
                g = at(way[depth % OBJECTS]);
            }
        }
        Reach(under)
    }

    /// The closure with one membership more. A chain goes through it once at most: so what is
    /// under the object comes under whatever the group is under, and nothing else changes.
    pub fn with(&self, object: u8, group: u8) -> Reach {
        let joined = self.under(object);
        Reach(self.0.map(|row| row | joined & all_if(has(row, group))))
    }

    /// What is under the object of this stored number. One "outside its table, or naming an
    /// empty object, covers nothing".
    #[inline(always)]
    pub fn under(&self, number: u8) -> u64 {
        self.0[at(number)] & all_if(number < 64)
    }
}

fn lowest(set: u64) -> usize {
    set.trailing_zeros() as usize % OBJECTS
}
