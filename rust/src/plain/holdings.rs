//! What is in use on a sheet, who reaches what, and who holds what.

use crate::sheet::*;

pub fn on_table(number: u8, places: usize) -> bool {
    (number as usize) < places
}

/// "An unknown sort counts as empty"; a number outside the table names nothing.
pub fn in_use(sheet: &Sheet, x: u8) -> bool {
    on_table(x, OBJECTS) && (GROUP..=GEAR).contains(&sheet.sorts[x as usize])
}

pub fn sort_is(sheet: &Sheet, x: u8, sort: u8) -> bool {
    on_table(x, OBJECTS) && sheet.sorts[x as usize] == sort
}

/// "An unknown kind counts as empty."
pub fn warrant_in_use(sheet: &Sheet, place: u8) -> bool {
    (OWNER..=ADMINISTRATOR).contains(&sheet.warrants[place as usize].kind)
}

/// "A rule place has its own mark, empty or in use."
pub fn rule_in_use(sheet: &Sheet, place: u8) -> bool {
    sheet.rules[place as usize].mark
}

/// Is x stored as directly in g? Both numbers are on the table.
pub fn stored_in(sheet: &Sheet, x: u8, g: u8) -> bool {
    sheet.members[g as usize] >> x & 1 == 1
}

pub fn objects() -> std::ops::Range<u8> {
    0..OBJECTS as u8
}

/// The set of the objects that are wanted: bit x is object x.
pub fn set_of(wanted: impl Fn(u8) -> bool) -> u64 {
    objects()
        .filter(|&x| wanted(x))
        .fold(0, |set, x| set | 1 << x)
}

/// A sheet with its reach worked out: it answers who owns, manages, administers, may use.
pub struct Holdings {
    pub sheet: Sheet,
    /// `under[x][g]`: x is under g.
    under: [[bool; OBJECTS]; OBJECTS],
}

impl Holdings {
    pub fn of(sheet: Sheet) -> Holdings {
        let mut under = [[false; OBJECTS]; OBJECTS];
        for x in objects() {
            under[x as usize] = all_over(&sheet, x);
        }
        Holdings { sheet, under }
    }

    /// "x is under g if x = g or a chain of one or more direct memberships leads from x up to
    /// g." A number outside the table covers nothing.
    pub fn under(&self, x: u8, g: u8) -> bool {
        on_table(x, OBJECTS) && on_table(g, OBJECTS) && self.under[x as usize][g as usize]
    }

    /// Warrants of this kind that the member holds. Only a member holds any.
    fn warrants(&self, member: u8, kind: u8) -> impl Iterator<Item = &Warrant> {
        let is_member = sort_is(&self.sheet, member, MEMBER);
        self.sheet
            .warrants
            .iter()
            .filter(move |w| is_member && w.kind == kind && w.holder == member)
    }

    /// "A member owns x if he holds an owner warrant with x under its A."
    pub fn owns(&self, member: u8, x: u8) -> bool {
        self.warrants(member, OWNER).any(|w| self.under(x, w.a))
    }

    /// "Manages x likewise by a manager warrant only."
    pub fn manages(&self, member: u8, x: u8) -> bool {
        self.warrants(member, MANAGER).any(|w| self.under(x, w.a))
    }

    pub fn owns_or_manages(&self, member: u8, x: u8) -> bool {
        self.owns(member, x) || self.manages(member, x)
    }

    /// "Administers the pair (a, b) if he holds one administrator warrant with a under A and
    /// b under B."
    pub fn administers(&self, member: u8, a: u8, b: u8) -> bool {
        self.warrants(member, ADMINISTRATOR)
            .any(|w| self.under(a, w.a) && self.under(b, w.b))
    }

    /// "He is permitted operation k on gear x if some one rule has bit k, himself under U and
    /// x under T." The lowest such place.
    pub fn permitting_rule(&self, member: u8, operation: u8, gear: u8) -> Option<u8> {
        let permits = |r: &Rule| {
            r.mark
                && r.ops >> operation & 1 == 1
                && self.under(member, r.u)
                && self.under(gear, r.t)
        };
        self.sheet.rules.iter().position(permits).map(|p| p as u8)
    }

    pub fn permitted(&self, member: u8, operation: u8, gear: u8) -> bool {
        self.permitting_rule(member, operation, gear).is_some()
    }

    pub fn of_sort(&self, sort: u8) -> impl Iterator<Item = u8> + '_ {
        objects().filter(move |&x| sort_is(&self.sheet, x, sort))
    }

    pub fn objects_in_use(&self) -> impl Iterator<Item = u8> + '_ {
        objects().filter(|&x| in_use(&self.sheet, x))
    }
}

/// For each g, is x under it? "An empty object is under nothing", nor is a number outside the
/// table.
pub fn all_over(sheet: &Sheet, x: u8) -> [bool; OBJECTS] {
    let mut found = [false; OBJECTS];
    if in_use(sheet, x) {
        climb(sheet, x, &mut found);
    }
    found
}

/// Marks `at` and all that a chain leads up to from it. "A stored membership counts only from
/// an object in use to a group in use"; `at` is in use. What is marked is not climbed again,
/// so a circle ends.
fn climb(sheet: &Sheet, at: u8, found: &mut [bool; OBJECTS]) {
    found[at as usize] = true;
    for g in objects() {
        if !found[g as usize] && sort_is(sheet, g, GROUP) && stored_in(sheet, at, g) {
            climb(sheet, g, found);
        }
    }
}
