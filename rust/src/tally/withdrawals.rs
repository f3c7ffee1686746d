//! Who sent the WITHDRAW requests that came to check 9, and on which rules.

use crate::sheet::*;
use crate::words::{at, bit, has, is_sort};

/// How often each came. U and T are those of the rule at the place.
#[derive(Debug, Default)]
pub struct Withdrawals {
    /// Done: the sender administers (U, T) and does not own T, the other way round, or both.
    pub by_administrator: usize,
    pub by_owner: usize,
    pub by_both: usize,
    /// Done, though U is empty or past the table.
    pub without_users: usize,
    /// Done by an owner of T, and each A by which he owns it is on a circle with T.
    pub by_circle: usize,
    /// Refused: T is empty or past the table; the sender owns U; he manages T.
    pub without_targets: usize,
    pub owner_of_users: usize,
    pub manager_of_targets: usize,
}

impl Withdrawals {
    pub fn add(&mut self, sheet: &Sheet, record: &[u8], code: u8) {
        let (&[6, 0, 7, 0, sender, place], 0 | 9) = (record, code) else {
            return;
        };
        let Rule { u, t, .. } = sheet.rules[place as usize];
        let (over_u, over_t) = (over(sheet, u), over(sheet, t));
        let held = |kind| {
            let his = move |w: &&Warrant| w.kind == kind && w.holder == sender;
            sheet.warrants.iter().filter(his)
        };
        let holds = |kind, set| held(kind).any(|w| has(set, w.a));
        let owns = holds(OWNER, over_t);
        if code == 0 {
            let administers = held(ADMINISTRATOR).any(|w| has(over_u, w.a) && has(over_t, w.b));
            self.by_administrator += (administers && !owns) as usize;
            self.by_owner += (owns && !administers) as usize;
            self.by_both += (owns && administers) as usize;
            self.without_users += (over_u == 0) as usize;
            let on_circle = |w: &Warrant| w.a != t && has(over(sheet, w.a), t);
            let mut covering = held(OWNER).filter(|w| has(over_t, w.a));
            self.by_circle += (owns && covering.all(on_circle)) as usize;
        } else {
            self.without_targets += (over_t == 0) as usize;
            self.owner_of_users += holds(OWNER, over_u) as usize;
            self.manager_of_targets += holds(MANAGER, over_t) as usize;
        }
    }

    /// The count that is lowest.
    pub fn least(&self) -> usize {
        let done = [self.by_administrator, self.by_owner, self.by_both];
        let odd = [self.without_users, self.by_circle, self.without_targets];
        let refused = [self.owner_of_users, self.manager_of_targets];
        let all = done.into_iter().chain(odd).chain(refused);
        all.min().expect("there are counts")
    }
}

/// All that x is under; nothing if it is empty or past the table.
fn over(sheet: &Sheet, x: u8) -> u64 {
    if x > 63 || !is_sort(sheet.sorts[at(x)]) {
        return 0;
    }
    let mut found = bit(x);
    loop {
        let holds = |g: &usize| sheet.sorts[*g] == GROUP && sheet.members[*g] & found != 0;
        let next = (0..64).filter(holds).fold(found, |set, g| set | 1 << g);
        if next == found {
            return found;
        }
        found = next;
    }
}
