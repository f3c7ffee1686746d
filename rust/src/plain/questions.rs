//! The answers to questions about a sheet, object by object from its holdings.

use super::holdings::{in_use, set_of, sort_is, Holdings};
use crate::question::Question::{self, *};
use crate::sheet::*;

impl Holdings {
    /// The answer to a question: a set, with bit n for object n, or one byte.
    pub fn answer(&self, question: Question) -> u64 {
        match question {
            Sort { x } => self.sort(x) as u64,
            Below { g } => set_of(|x| self.under(x, g)),
            Owned { u } => set_of(|x| self.owns(u, x)),
            Managed { u } => set_of(|x| self.manages(u, x)),
            Administered { u, a } => set_of(|b| self.administers(u, a, b)),
            Permitted { u, k } => set_of(|x| self.permit(u, k, x).is_some()),
            Permitting { u, k, x } => self.permit(u, k, x).unwrap_or(NO_RULE) as u64,
        }
    }

    /// "An unknown sort counts as empty"; so does a number outside the table.
    fn sort(&self, x: u8) -> u8 {
        if in_use(&self.sheet, x) {
            self.sheet.sorts[x as usize]
        } else {
            0
        }
    }

    /// "A permit is a member, an operation and a gear on which he is permitted it." The lowest
    /// place of a rule that permits, if these numbers are a member, an operation and gear.
    fn permit(&self, u: u8, k: u8, x: u8) -> Option<u8> {
        let could_be = sort_is(&self.sheet, u, MEMBER) && k < 8 && sort_is(&self.sheet, x, GEAR);
        could_be.then(|| self.permitting_rule(u, k, x)).flatten()
    }
}
