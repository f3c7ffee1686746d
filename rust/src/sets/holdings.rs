//! Who holds what, as sets: worked from a sheet's tables and a closure, before a request or
//! after it.

use super::reach::{Reach, Sorts};
use crate::sheet::*;
use crate::words::{all_if, at, bit, each, has};

/// The tables of a sheet, and the sets to read them by.
pub struct Holdings<'a> {
    sheet: &'a Sheet,
    pub sorts: Sorts,
    pub reach: Reach,
}

impl<'a> Holdings<'a> {
    /// On this sheet: all sets are worked anew.
    pub fn on(sheet: &'a Sheet) -> Holdings<'a> {
        let sorts = Sorts::of(&sheet.sorts);
        let reach = Reach::of(&sheet.members, &sorts);
        Holdings {
            sheet,
            sorts,
            reach,
        }
    }

    /// On the sheet with one membership more.
    pub fn with(&self, object: u8, group: u8) -> Holdings<'a> {
        Holdings {
            reach: self.reach.with(object, group),
            ..*self
        }
    }

    /// On the sheet with one membership less: the closure is worked anew.
    pub fn without(&self, object: u8, group: u8) -> Holdings<'a> {
        let mut members = self.sheet.members;
        members[at(group)] &= !bit(object);
        Holdings {
            reach: Reach::of(&members, &self.sorts),
            ..*self
        }
    }

    /// What a member owns, and what he manages.
    pub fn owned_and_managed(&self, member: u8) -> (u64, u64) {
        let (mut owned, mut managed) = (0, 0);
        for w in &self.sheet.warrants {
            if w.holder == member {
                let under_a = self.reach.under(w.a);
                owned |= under_a & all_if(w.kind == OWNER);
                managed |= under_a & all_if(w.kind == MANAGER);
            }
        }
        (owned, managed)
    }

    /// A member's administrator warrants.
    fn administrator(&self, member: u8) -> impl Iterator<Item = &'a Warrant> {
        let his = move |w: &&Warrant| w.kind == ADMINISTRATOR && w.holder == member;
        self.sheet.warrants.iter().filter(his)
    }

    /// "Administers the pair (a, b) if he holds one administrator warrant with a under A and
    /// b under B."
    pub fn administers(&self, member: u8, a: u8, b: u8) -> bool {
        self.administrator(member)
            .any(|w| has(self.reach.under(w.a), a) && has(self.reach.under(w.b), b))
    }

    /// The pairs that a member administers: for each a the set of all b.
    fn administered(&self, member: u8) -> [u64; OBJECTS] {
        let mut pairs = [0; OBJECTS];
        for w in self.administrator(member) {
            let under_b = self.reach.under(w.b);
            for a in each(self.reach.under(w.a)) {
                pairs[a] |= under_b;
            }
        }
        pairs
    }

    /// Is there a pair of one of `firsts` and one of `seconds` that he doesn't administer?
    pub fn lacks_a_pair(&self, member: u8, firsts: u64, seconds: u64) -> bool {
        let had = self.administered(member);
        each(firsts).any(|a| seconds & !had[a] != 0)
    }

    /// Does a member administer a pair after, by these holdings, that he didn't before?
    pub fn new_pair(&self, before: &Holdings, member: u8) -> bool {
        let rows = |by: &Holdings, w: &Warrant| (by.reach.under(w.a), by.reach.under(w.b));
        let mut widened = self
            .administrator(member)
            .filter(|w| rows(self, w) != rows(before, w))
            .peekable();
        if widened.peek().is_none() {
            return false;
        }
        let had = before.administered(member);
        widened.any(|w| {
            let (under_a, under_b) = rows(self, w);
            each(under_a).any(|a| under_b & !had[a] != 0)
        })
    }

    /// For each operation the gear that a member is permitted it on.
    pub fn permitted(&self, member: u8) -> [u64; 8] {
        let mut permitted = [0; 8];
        for r in &self.sheet.rules {
            if r.mark & has(self.reach.under(r.u), member) {
                self.add_permits(&mut permitted, r);
            }
        }
        permitted
    }

    /// Adds what a rule permits to whom is under its U.
    pub fn add_permits(&self, permitted: &mut [u64; 8], rule: &Rule) {
        let gear = self.reach.under(rule.t) & self.sorts.gear;
        for (k, set) in permitted.iter_mut().enumerate() {
            *set |= gear & all_if(rule.ops >> k & 1 == 1);
        }
    }

    /// The lowest rule that permits a member this operation on this gear.
    pub fn permitting(&self, member: u8, operation: u8, gear: u8) -> Option<u8> {
        let permits = |r: &Rule| {
            r.mark & (r.ops >> operation & 1 == 1)
                && has(self.reach.under(r.u), member) & has(self.reach.under(r.t), gear)
        };
        self.sheet.rules.iter().position(permits).map(|p| p as u8)
    }

    /// Does some member own or manage after, by these holdings, what he didn't before and what
    /// isn't in `allowed`? What he comes to, he comes to by a warrant whose row has grown.
    pub fn new_to_some_member(&self, before: &Holdings, allowed: u64) -> bool {
        let warrants = &self.sheet.warrants;
        warrants.iter().any(|w| {
            let grown = self.reach.under(w.a) & !before.reach.under(w.a) & !allowed;
            let counts = (w.kind == OWNER) | (w.kind == MANAGER);
            if grown == 0 || !counts || !has(self.sorts.members, w.holder) {
                return false;
            }
            let had = warrants
                .iter()
                .filter(|v| v.kind == w.kind && v.holder == w.holder)
                .fold(0, |had, v| had | before.reach.under(v.a));
            grown & !had != 0
        })
    }

    /// All objects in use that no member owns by these warrants.
    pub fn orphans(&self, warrants: &[Warrant; WARRANTS]) -> u64 {
        let owned = warrants.iter().fold(0, |owned, w| {
            let counts = (w.kind == OWNER) & has(self.sorts.members, w.holder);
            owned | self.reach.under(w.a) & all_if(counts)
        });
        self.sorts.all & !owned
    }
}
