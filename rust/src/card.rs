//! Job 2 of document 02, "Save the sheet to a card", in the plainest way: what a sound sheet is,
//! clause by clause; the file of a sheet, record by record; and a reader that takes a card apart
//! as well as it can and then holds the card against what the writer produces. `write_fast` and
//! `read_fast` do the same for speed.

mod fast;

pub use fast::{read_fast, write_fast};

use crate::plain::holdings::{
    in_use, objects, on_table, rule_in_use, sort_is, stored_in, warrant_in_use, Holdings,
};
use crate::plain::DONE;
use crate::report::{Next, Reader};
use crate::sheet::*;

/// Turned away: "13 damaged, when the writer's sheet isn't sound, or for any other bytes at the
/// reader"; "then 14 short card, when the lent bytes are fewer than the file needs".
pub const DAMAGED: u8 = 13;
pub const SHORT_CARD: u8 = 14;

/// The kinds of a card's records: "16 object (number, sort), 17 direct membership (object,
/// group), 18 warrant (place, kind, holder, A, B), 19 rule (place, U, T, operations)".
pub const OBJECT: u8 = 16;
pub const MEMBERSHIP: u8 = 17;
pub const WARRANT: u8 = 18;
pub const RULE: u8 = 19;

/// The length of a record of each kind.
pub const OBJECT_LENGTH: usize = 6;
pub const MEMBERSHIP_LENGTH: usize = 6;
pub const WARRANT_LENGTH: usize = 9;
pub const RULE_LENGTH: usize = 8;

/// The length of the longest file of a sound sheet: 63 groups and one member, all of them in all
/// groups, and every warrant and rule in use. A second member would cost 64 memberships.
pub const LARGEST: usize = 25_376;

// ---- Sound ------------------------------------------------------------------------------

/// "A sheet is sound if its stored memberships and the numbers in its places in use, unread B
/// apart, all name objects in use of the right sort, no rule has operation set 0, B is 0 for
/// owners and managers, and every object in use has an owner."
pub fn sound(sheet: &Sheet) -> bool {
    memberships_name_the_right_sort(sheet)
        && warrants_name_the_right_sort(sheet)
        && rules_name_the_right_sort(sheet)
        && every_rule_has_an_operation(sheet)
        && unread_b_is_0(sheet)
        && every_object_has_an_owner(sheet)
}

/// Whatever is stored is in use, and it is stored as in a group.
fn memberships_name_the_right_sort(sheet: &Sheet) -> bool {
    memberships(sheet).all(|(x, g)| in_use(sheet, x) && sort_is(sheet, g, GROUP))
}

/// A warrant has "holder (a member), group A, group B"; B is read for an administrator alone.
fn warrants_name_the_right_sort(sheet: &Sheet) -> bool {
    warrants(sheet).all(|(_, w)| {
        sort_is(sheet, w.holder, MEMBER)
            && sort_is(sheet, w.a, GROUP)
            && (w.kind != ADMINISTRATOR || sort_is(sheet, w.b, GROUP))
    })
}

/// A rule has "user group U, gear group T".
fn rules_name_the_right_sort(sheet: &Sheet) -> bool {
    rules(sheet).all(|(_, r)| sort_is(sheet, r.u, GROUP) && sort_is(sheet, r.t, GROUP))
}

fn every_rule_has_an_operation(sheet: &Sheet) -> bool {
    rules(sheet).all(|(_, r)| r.ops != 0)
}

fn unread_b_is_0(sheet: &Sheet) -> bool {
    warrants(sheet).all(|(_, w)| w.kind == ADMINISTRATOR || w.b == 0)
}

fn every_object_has_an_owner(sheet: &Sheet) -> bool {
    let holdings = Holdings::of(*sheet);
    let has_an_owner = |x| holdings.of_sort(MEMBER).any(|m| holdings.owns(m, x));
    let mut in_use = holdings.objects_in_use();
    in_use.all(has_an_owner)
}

// ---- What a sheet holds, in the order of a card -----------------------------------------

fn objects_in_use(sheet: &Sheet) -> impl Iterator<Item = u8> + '_ {
    objects().filter(|&x| in_use(sheet, x))
}

/// The stored memberships, "by object, then group".
fn memberships(sheet: &Sheet) -> impl Iterator<Item = (u8, u8)> + '_ {
    let pairs = objects().flat_map(|x| objects().map(move |g| (x, g)));
    pairs.filter(|&(x, g)| stored_in(sheet, x, g))
}

/// The warrants in use with their places.
fn warrants(sheet: &Sheet) -> impl Iterator<Item = (u8, Warrant)> + '_ {
    let places = (0..WARRANTS as u8).filter(|&place| warrant_in_use(sheet, place));
    places.map(|place| (place, sheet.warrants[place as usize]))
}

/// The rules in use with their places.
fn rules(sheet: &Sheet) -> impl Iterator<Item = (u8, Rule)> + '_ {
    let places = (0..RULES as u8).filter(|&place| rule_in_use(sheet, place));
    places.map(|place| (place, sheet.rules[place as usize]))
}

/// Do the sheets "agree in every place in use and every membership"?
pub fn agree(one: &Sheet, other: &Sheet) -> bool {
    objects().all(|x| {
        let (used, used_there) = (in_use(one, x), in_use(other, x));
        used == used_there && (!used || one.sorts[x as usize] == other.sorts[x as usize])
    }) && one.members == other.members
        && warrants(one).eq(warrants(other))
        && rules(one).eq(rules(other))
}

/// The sheet with zeros in its empty places. The memberships stay.
pub fn tidy(sheet: &Sheet) -> Sheet {
    let mut tidy = Sheet::empty();
    objects_in_use(sheet).for_each(|x| tidy.sorts[x as usize] = sheet.sorts[x as usize]);
    tidy.members = sheet.members;
    warrants(sheet).for_each(|(place, w)| tidy.warrants[place as usize] = w);
    rules(sheet).for_each(|(place, r)| tidy.rules[place as usize] = r);
    tidy
}

// ---- The writer -------------------------------------------------------------------------

/// The records of what is in use, and of all memberships: "They stand rising by kind, then by
/// number or place; memberships by object, then group." Of a sheet that isn't sound, too.
pub fn file(sheet: &Sheet) -> Vec<u8> {
    let mut file = Vec::new();
    for x in objects_in_use(sheet) {
        file.extend(record(OBJECT, &[x, sheet.sorts[x as usize]]));
    }
    for (x, g) in memberships(sheet) {
        file.extend(record(MEMBERSHIP, &[x, g]));
    }
    for (place, w) in warrants(sheet) {
        file.extend(record(WARRANT, &[place, w.kind, w.holder, w.a, w.b]));
    }
    for (place, r) in rules(sheet) {
        file.extend(record(RULE, &[place, r.u, r.t, r.ops]));
    }
    file
}

/// "Length first: two bytes, little-endian, counting the whole record; then a two-byte
/// little-endian kind; then one byte each." On a card no record has a sender.
pub fn record(kind: u8, fields: &[u8]) -> Vec<u8> {
    let mut record = vec![4 + fields.len() as u8, 0, kind, 0];
    record.extend(fields);
    record
}

/// The code and "the file's length, 0 when refused". The file stands at the start of the lent
/// bytes; those past it stay, and a refusal writes nothing.
pub fn write(sheet: &Sheet, lent: &mut [u8]) -> (u8, usize) {
    if !sound(sheet) {
        return (DAMAGED, 0);
    }
    let file = file(sheet);
    if lent.len() < file.len() {
        return (SHORT_CARD, 0);
    }
    lent[..file.len()].copy_from_slice(&file);
    (DONE, file.len())
}

// ---- The reader -------------------------------------------------------------------------

/// "The reader takes only what the writer produces for a sound sheet, and gives a sheet whose
/// empty places hold zeros"; for any other bytes the code is 13, "the board's sheet kept".
pub fn read(kept: &Sheet, card: &[u8]) -> (u8, Sheet) {
    let sheet = taken_apart(card);
    if file(&sheet) == card && sound(&sheet) {
        (DONE, sheet)
    } else {
        (DAMAGED, *kept)
    }
}

/// What the records of any bytes put on a blank sheet; what doesn't fit is left out.
fn taken_apart(card: &[u8]) -> Sheet {
    let mut sheet = Sheet::empty();
    let mut reader = Reader::new(card);
    while let Next::Record(record) = reader.next_record() {
        match record[2..] {
            [OBJECT, _, x, sort] if on_table(x, OBJECTS) => sheet.sorts[x as usize] = sort,
            [MEMBERSHIP, _, x, g] if on_table(x, OBJECTS) && on_table(g, OBJECTS) => {
                sheet.members[g as usize] |= 1 << x;
            }
            [WARRANT, _, place, kind, holder, a, b] if on_table(place, WARRANTS) => {
                sheet.warrants[place as usize] = Warrant { kind, holder, a, b };
            }
            [RULE, _, place, u, t, ops] if on_table(place, RULES) => {
                let mark = true;
                sheet.rules[place as usize] = Rule { mark, u, t, ops };
            }
            _ => {}
        }
    }
    sheet
}
