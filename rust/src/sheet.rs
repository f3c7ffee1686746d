//! The club sheet: three tables held by value, the founding, and a 960-byte picture of any
//! sheet value, both ways. Nothing here judges; see `plain`, `sets` and `fast`.

use crate::words::turned;

/// "64 objects, numbers 0 to 63."
pub const OBJECTS: usize = 64;
/// "32 warrants, places 0 to 31."
pub const WARRANTS: usize = 32;
/// "64 rules, places 0 to 63."
pub const RULES: usize = 64;

/// "Sort 0 empty, 1 group, 2 member, 3 gear." Any other stored sort counts as empty.
pub const GROUP: u8 = 1;
pub const MEMBER: u8 = 2;
pub const GEAR: u8 = 3;

/// Warrant kinds: "1 owner, 2 manager, 3 administrator". Any other counts as an empty place.
pub const OWNER: u8 = 1;
pub const MANAGER: u8 = 2;
pub const ADMINISTRATOR: u8 = 3;

/// The cited rule of every answer but an accepted USE.
pub const NO_RULE: u8 = 255;

/// Length of a sheet's picture: 64 sorts, 64 rows of 8, 32 warrants of 4, 64 rules of 4. A row
/// of a picture is an object's set of groups; a sheet keeps the same bits by group.
pub const PICTURE: usize = ROWS_AT + 8 * OBJECTS + 4 * WARRANTS + 4 * RULES;

const ROWS_AT: usize = OBJECTS;
const WARRANTS_AT: usize = ROWS_AT + 8 * OBJECTS;
const RULES_AT: usize = WARRANTS_AT + 4 * WARRANTS;

/// One place of the warrant table, as stored: any four bytes.
#[derive(Clone, Copy, Debug, Default, PartialEq, Eq)]
pub struct Warrant {
    pub kind: u8,
    pub holder: u8,
    pub a: u8,
    pub b: u8,
}

/// One place of the rule table. "A rule place has its own mark, empty or in use."
#[derive(Clone, Copy, Debug, Default, PartialEq, Eq)]
pub struct Rule {
    pub mark: bool,
    pub u: u8,
    pub t: u8,
    pub ops: u8,
}

/// "A record handed in and handed back by value." Every value of this type is a sheet.
#[derive(Clone, Copy, Debug, PartialEq, Eq)]
pub struct Sheet {
    pub sorts: [u8; OBJECTS],
    /// `members[g]` is the set of what is stored as directly in g: bit x stands for object x.
    pub members: [u64; OBJECTS],
    pub warrants: [Warrant; WARRANTS],
    pub rules: [Rule; RULES],
}

/// What a judge returns: "the sheet after, a code (0 done, else a refusal) and a cited rule".
#[derive(Clone, Copy, Debug, PartialEq, Eq)]
pub struct Answer {
    pub sheet: Sheet,
    pub code: u8,
    pub cited: u8,
}

impl Answer {
    /// The answer of a judge that writes the sheet after over the sheet before, and returns the
    /// code and the cited rule.
    pub fn of(
        in_place: impl Fn(&mut Sheet, &[u8]) -> (u8, u8),
        sheet: &Sheet,
        record: &[u8],
    ) -> Answer {
        let mut sheet = *sheet;
        let (code, cited) = in_place(&mut sheet, record);
        Answer { sheet, code, cited }
    }
}

impl Sheet {
    /// A sheet with every byte zero: no objects, no warrants, no rules.
    pub fn empty() -> Sheet {
        Sheet {
            sorts: [0; OBJECTS],
            members: [0; OBJECTS],
            warrants: [Warrant::default(); WARRANTS],
            rules: [Rule::default(); RULES],
        }
    }

    /// "Object 0 a group, object 1 a member directly in 0, warrant 0 owner held by 1 with
    /// A = 0, all else empty."
    pub fn founding() -> Sheet {
        let mut sheet = Sheet::empty();
        sheet.sorts[0] = GROUP;
        sheet.sorts[1] = MEMBER;
        sheet.members[0] = 1 << 1;
        sheet.warrants[0] = Warrant {
            kind: OWNER,
            holder: 1,
            a: 0,
            b: 0,
        };
        sheet
    }

    /// The sheet as 960 bytes; a rule's mark is written as 1 or 0.
    pub fn picture(&self) -> [u8; PICTURE] {
        let mut bytes = [0; PICTURE];
        bytes[..ROWS_AT].copy_from_slice(&self.sorts);
        let groups = turned(self.members);
        for (row, out) in groups.iter().zip(bytes[ROWS_AT..].chunks_mut(8)) {
            out.copy_from_slice(&row.to_le_bytes());
        }
        for (w, out) in self.warrants.iter().zip(bytes[WARRANTS_AT..].chunks_mut(4)) {
            out.copy_from_slice(&[w.kind, w.holder, w.a, w.b]);
        }
        for (r, out) in self.rules.iter().zip(bytes[RULES_AT..].chunks_mut(4)) {
            out.copy_from_slice(&[r.mark as u8, r.u, r.t, r.ops]);
        }
        bytes
    }

    /// The sheet of a picture; mark byte 1 means in use, any other byte empty.
    pub fn from_picture(bytes: &[u8; PICTURE]) -> Sheet {
        let mut sheet = Sheet::empty();
        sheet.sorts.copy_from_slice(&bytes[..ROWS_AT]);
        let mut groups = [0; OBJECTS];
        for (row, eight) in groups.iter_mut().zip(bytes[ROWS_AT..].chunks(8)) {
            *row = u64::from_le_bytes(eight.try_into().expect("chunks of 8"));
        }
        sheet.members = turned(groups);
        for (w, four) in sheet
            .warrants
            .iter_mut()
            .zip(bytes[WARRANTS_AT..].chunks(4))
        {
            *w = Warrant {
                kind: four[0],
                holder: four[1],
                a: four[2],
                b: four[3],
            };
        }
        for (r, four) in sheet.rules.iter_mut().zip(bytes[RULES_AT..].chunks(4)) {
            *r = Rule {
                mark: four[0] == 1,
                u: four[1],
                t: four[2],
                ops: four[3],
            };
        }
        sheet
    }
}
