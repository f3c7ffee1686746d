//! The questions about a sheet that the board answers, besides what an object is under. Their
//! numbers may be any bytes.

use crate::sheet::OBJECTS;
use Question::*;

/// Length of a set of objects: a bit for each, the lowest first.
pub const SET: usize = OBJECTS / 8;

#[derive(Clone, Copy, Debug, PartialEq, Eq)]
pub enum Question {
    /// The sort of x as it counts, so 0 for an unknown one.
    Sort { x: u8 },
    /// All that is under g, itself too.
    Below { g: u8 },
    /// All that u owns.
    Owned { u: u8 },
    /// All that u manages.
    Managed { u: u8 },
    /// All b such that u administers the pair (a, b).
    Administered { u: u8, a: u8 },
    /// All gear on which u is permitted operation k.
    Permitted { u: u8, k: u8 },
    /// The lowest place of a rule by which u is permitted operation k on gear x; 255 for none.
    Permitting { u: u8, k: u8, x: u8 },
}

impl Question {
    /// How many bytes the answer has: those of a set of objects, or one.
    pub fn length(self) -> usize {
        match self {
            Sort { .. } | Permitting { .. } => 1,
            Below { .. } | Owned { .. } | Managed { .. } => SET,
            Administered { .. } | Permitted { .. } => SET,
        }
    }
}
