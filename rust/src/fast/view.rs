//! What the fast judge sees of a sheet: the objects as sets, who reaches what, and what a PUT
//! would give.

use crate::sheet::*;
use crate::wide;
use crate::words::{all_if, at, bit, each, has, refuse_if};

/// A sheet, the sender, and the objects in use as sets: of each sort, and all.
#[derive(Clone, Copy)]
pub struct View<'a> {
    pub sheet: &'a Sheet,
    pub sender: u8,
    groups: u64,
    members: u64,
    gear: u64,
    pub all: u64,
}

/// A PUT under trial: `object`, what covers it, and what covers the group that it is put into.
/// After it, y is under z as before, or y is under `object` and z is in `over_group`.
pub struct Join {
    pub object: u8,
    pub over_object: u64,
    pub over_group: u64,
}

impl<'a> View<'a> {
    /// Check 4: "sender above 63, or not a member".
    #[inline(always)]
    pub fn of(sheet: &'a Sheet, sender: u8) -> Result<View<'a>, u8> {
        refuse_if(sender > 63 || sheet.sorts[at(sender)] != MEMBER, 4)?;
        let [groups, members, gear] = wide::sorts(&sheet.sorts);
        Ok(View {
            sheet,
            sender,
            groups,
            members,
            gear,
            all: groups | members | gear,
        })
    }

    #[inline(always)]
    pub fn in_use(&self, x: u8) -> bool {
        has(self.all, x)
    }

    #[inline(always)]
    pub fn is(&self, x: u8, sort: u8) -> bool {
        x < 64 && self.sheet.sorts[at(x)] == sort
    }

    #[inline(always)]
    pub fn stored_in(&self, x: u8, g: u8) -> bool {
        has(self.sheet.members[at(g)], x)
    }

    /// Checks 5 to 7 of PUT and TAKE.
    #[inline(always)]
    pub fn check_pair(&self, object: u8, group: u8) -> Result<(), u8> {
        refuse_if(object > 63 || group > 63, 5)?;
        refuse_if(!self.in_use(object) || !self.in_use(group), 6)?;
        refuse_if(!self.is(group, GROUP), 7)
    }

    /// For each of these objects in use, all that it is under.
    #[inline(always)]
    pub fn over<const N: usize>(&self, objects: [u8; N]) -> [u64; N] {
        wide::over(&self.sheet.members, self.groups, objects.map(bit))
    }

    /// For each of these stored numbers, all that it is under. What isn't in use is under
    /// nothing.
    #[inline(always)]
    pub fn over_stored<const N: usize>(&self, numbers: [u8; N]) -> [u64; N] {
        let start = |x| bit(x) & all_if(self.in_use(x));
        wide::over(&self.sheet.members, self.groups, numbers.map(start))
    }

    /// All that is under some object in use of `from`, level by level, with each row as `row`
    /// gives it. It may stop as soon as all of `enough` is found.
    #[inline(always)]
    pub fn under_all(&self, from: u64, enough: u64, row: impl Fn(usize, u64) -> u64) -> u64 {
        let mut found = from & self.all;
        let mut level = found & self.groups;
        while level != 0 && enough & !found != 0 {
            let mut below = 0;
            for g in each(level) {
                below |= row(g, self.sheet.members[g]);
            }
            let new = below & self.all & !found;
            found |= new;
            level = new & self.groups;
        }
        found
    }

    fn under(&self, from: u64, enough: u64) -> u64 {
        self.under_all(from, enough, |_, row| row)
    }

    /// The sender's warrants of one kind.
    #[inline(always)]
    fn held(&self, kind: u8) -> impl Iterator<Item = &'a Warrant> {
        let warrants = &self.sheet.warrants;
        each(wide::held(warrants, kind, self.sender) as u64).map(|place| &warrants[place])
    }

    /// The A of each of them, as a set. He owns x if one of his owner warrants' A is over x,
    /// and manages it by a manager warrant likewise.
    #[inline(always)]
    pub fn held_a(&self, kind: u8) -> u64 {
        self.held(kind)
            .fold(0, |set, w| set | ((w.a < 64) as u64) << (w.a % 64))
    }

    /// The A of his owner and manager warrants.
    #[inline(always)]
    pub fn runs_from(&self) -> u64 {
        self.held_a(OWNER) | self.held_a(MANAGER)
    }

    #[inline(always)]
    pub fn administers(&self, over_a: u64, over_b: u64) -> bool {
        self.held(ADMINISTRATOR)
            .any(|w| has(over_a, w.a) && has(over_b, w.b))
    }

    /// Where the members' owner warrants start, one place left out if so asked.
    pub fn owner_groups(&self, but: Option<u8>) -> u64 {
        let warrants = &self.sheet.warrants;
        let mut places = wide::of_kind(warrants, OWNER);
        if let Some(place) = but {
            places &= !(1 << (place % 32));
        }
        each(places as u64).fold(0, |from, place| {
            let w = &warrants[place];
            let counts = has(self.members, w.holder) & (w.a < 64);
            from | (counts as u64) << (w.a % 64)
        })
    }

    /// Does the PUT make the sender administer a pair that he didn't? By a warrant with A over
    /// the group he comes to (object, B), by one with B over it to (A, object), and with each
    /// of these to the pairs under it. By one with both he comes to (object, object) too. That
    /// needs no look of its own: if (object, B) was his by a warrant v, then v's B is over the
    /// group as well; and if (v's A, object) was his, so was (object, object).
    pub fn join_gives_administration(&self, join: &Join) -> bool {
        let (mut with_object, mut object_with) = (0, 0);
        let (mut new_a, mut new_b) = (0, 0);
        for w in self.held(ADMINISTRATOR) {
            if !self.in_use(w.a) || !self.in_use(w.b) {
                continue;
            }
            if has(join.over_object, w.a) {
                object_with |= bit(w.b);
            }
            if has(join.over_object, w.b) {
                with_object |= bit(w.a);
            }
            if has(join.over_group, w.a) {
                new_b |= bit(w.b);
            }
            if has(join.over_group, w.b) {
                new_a |= bit(w.a);
            }
        }
        new_b & !self.under(object_with, new_b) != 0 || new_a & !self.under(with_object, new_a) != 0
    }

    /// Does the PUT permit the sender what he wasn't permitted? By a rule with him under U and
    /// T over the group he comes to the gear under the object. If he is under the object
    /// himself, a rule with U over the group is new to him as a whole.
    pub fn join_gives_permit(&self, join: &Join, over_sender: u64) -> bool {
        let mine = self.rules_with_u_in(over_sender);
        let mut new = 0;
        if has(over_sender, join.object) {
            new = self.rules_with_u_in(join.over_group) & !mine;
        }
        let [widened, had] = self.ops_with_t_in(mine, [join.over_group, join.over_object]);
        let [also_widened, new_ops] = self.ops_with_t_in(new, [join.over_group, self.all]);
        // A rule of his whose T covers the object leaves nothing of its operations to gain.
        let widened = (widened | also_widened) & !had;
        self.lacks_under(mine, widened, bit(join.object))
            || each(new_ops as u64).any(|k| {
                let from = self.t_of(new, k as u8);
                self.lacks_under(mine, 1 << k, from)
            })
    }

    /// Does the PUT make some member own or manage the object who didn't? (If none, then none
    /// comes to anything under it; and the sender doesn't own the object.)
    pub fn join_gives_others(&self, join: &Join) -> bool {
        let (mut own_group, mut own_object) = (0, 0);
        let (mut manage_group, mut manage_object) = (0, 0);
        for w in &self.sheet.warrants {
            if !has(self.members, w.holder) {
                continue;
            }
            let to_group = has(join.over_group, w.a) as u64 * bit(w.holder);
            let to_object = has(join.over_object, w.a) as u64 * bit(w.holder);
            if w.kind == OWNER {
                own_group |= to_group;
                own_object |= to_object;
            } else if w.kind == MANAGER {
                manage_group |= to_group;
                manage_object |= to_object;
            }
        }
        own_group & !own_object != 0 || manage_group & !manage_object != 0
    }

    /// The places of the rules in use whose U is in the set.
    #[inline(always)]
    pub fn rules_with_u_in(&self, set: u64) -> u64 {
        let rules = &self.sheet.rules;
        each(wide::rules_with(rules, 0)).fold(0, |places, place| {
            places | (has(set, rules[place].u) as u64) << place
        })
    }

    /// For each set, all operations of those rules among `places` whose T is in it.
    #[inline(always)]
    pub fn ops_with_t_in<const N: usize>(&self, places: u64, sets: [u64; N]) -> [u8; N] {
        each(places).fold([0; N], |mut ops, place| {
            let r = &self.sheet.rules[place];
            for (ops, &set) in ops.iter_mut().zip(&sets) {
                *ops |= r.ops * has(set, r.t) as u8;
            }
            ops
        })
    }

    /// The T of each of these rules that has the operation, as a set.
    fn t_of(&self, places: u64, operation: u8) -> u64 {
        each(places).fold(0, |set, place| {
            let r = &self.sheet.rules[place];
            let counts = (r.ops >> operation & 1 == 1) & (r.t < 64);
            set | (counts as u64) << (r.t % 64)
        })
    }

    /// Is there a gear under `from` and an operation of `ops` such that the rules `mine`, those
    /// with the sender under U, don't permit him that operation on it?
    pub fn lacks_under(&self, mine: u64, ops: u8, from: u64) -> bool {
        if ops == 0 {
            return false;
        }
        let gear = self.under(from, u64::MAX) & self.gear;
        let lacks = |k: usize| gear & !self.under(self.t_of(mine, k as u8), gear) != 0;
        gear != 0 && each(ops as u64).any(lacks)
    }
}
