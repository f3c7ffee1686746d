//! Sheets that one fault keeps from being sound.

use super::{rule, strew_junk, warrant, Plan};
use crate::generate::draw::Draw;
use crate::generate::Rng;
use crate::sheet::*;

/// What a number names that it must not name.
#[derive(Clone, Copy, Debug, PartialEq, Eq)]
pub enum Wrong {
    Empty,
    /// Nothing: it is past the table.
    Past,
    Group,
    Member,
    Gear,
}

/// What is wrong on a sheet.
#[derive(Clone, Copy, Debug, PartialEq, Eq)]
pub enum Fault {
    /// The object and the group of a stored membership.
    MembershipOf(Wrong),
    MembershipIn(Wrong),
    /// The numbers of a warrant in use; B of an administrator.
    Holder(Wrong),
    A(Wrong),
    B(Wrong),
    /// B isn't 0 in a warrant of this kind.
    UnreadB(u8),
    /// The numbers of a rule in use.
    U(Wrong),
    T(Wrong),
    /// A rule in use has operation set 0.
    NoOperation,
    /// An object is there that was never put under an owner's group; the one owner's warrant is
    /// gone, or is a manager's; the one membership of an object is gone.
    New,
    Dismissed,
    Demoted,
    Taken,
}

use Wrong::*;

impl Fault {
    pub const ALL: [Fault; 31] = [
        Fault::MembershipOf(Empty),
        Fault::MembershipIn(Empty),
        Fault::MembershipIn(Member),
        Fault::MembershipIn(Gear),
        Fault::Holder(Empty),
        Fault::Holder(Past),
        Fault::Holder(Group),
        Fault::Holder(Gear),
        Fault::A(Empty),
        Fault::A(Past),
        Fault::A(Member),
        Fault::A(Gear),
        Fault::B(Empty),
        Fault::B(Past),
        Fault::B(Member),
        Fault::B(Gear),
        Fault::UnreadB(OWNER),
        Fault::UnreadB(MANAGER),
        Fault::U(Empty),
        Fault::U(Past),
        Fault::U(Member),
        Fault::U(Gear),
        Fault::T(Empty),
        Fault::T(Past),
        Fault::T(Member),
        Fault::T(Gear),
        Fault::NoOperation,
        Fault::New,
        Fault::Dismissed,
        Fault::Demoted,
        Fault::Taken,
    ];
}

/// A sound sheet, and the same with this fault; they differ in one byte. Half of them have junk
/// in their empty places.
pub fn spoilt(rng: &mut Rng, fault: Fault) -> [Sheet; 2] {
    // Where the loss of a warrant or of a membership is the fault, there is no other instead.
    let one_owner = matches!(fault, Fault::Dismissed | Fault::Demoted | Fault::Taken);
    let plan = Plan {
        objects: 4 + rng.below(58),
        roots: 1,
        more: if fault == Fault::Taken {
            0
        } else {
            rng.pick(&[0, 2, 20])
        },
        warrants: 1 + rng.below(WARRANTS - 1),
        kinds: if one_owner {
            &[MANAGER, ADMINISTRATOR]
        } else {
            &[OWNER, MANAGER, ADMINISTRATOR]
        },
        rules: rng.below(RULES),
    };
    let mut sheet = plan.sheet(rng);
    if rng.percent(50) {
        strew_junk(rng, &mut sheet);
    }
    match fault {
        Fault::MembershipOf(_) | Fault::MembershipIn(_) | Fault::Taken => {
            membership(rng, sheet, fault)
        }
        Fault::Holder(_) | Fault::A(_) | Fault::B(_) | Fault::UnreadB(_) => {
            one_more_warrant(rng, sheet, fault)
        }
        Fault::U(_) | Fault::T(_) | Fault::NoOperation => one_more_rule(rng, sheet, fault),
        Fault::New => new_object(rng, sheet),
        Fault::Dismissed | Fault::Demoted => without_its_owner(rng, sheet, fault),
    }
}

/// A number that is wrong in this way where `right` would be right.
fn named(rng: &mut Rng, sheet: &Sheet, wrong: Wrong, right: u8) -> u8 {
    match wrong {
        Empty => Draw::new(rng, sheet).not_in_use(),
        // Half of them are the right number if the high bits are lost.
        Past if rng.percent(50) => right | rng.pick(&[64, 128, 192]),
        Past => 64 + rng.below(192) as u8,
        Group => Draw::new(rng, sheet).of_sort(GROUP),
        Member => Draw::new(rng, sheet).of_sort(MEMBER),
        Gear => Draw::new(rng, sheet).of_sort(GEAR),
    }
}

fn membership(rng: &mut Rng, sheet: Sheet, fault: Fault) -> [Sheet; 2] {
    let mut after = sheet;
    let mut draw = Draw::new(rng, &sheet);
    let (x, g) = match fault {
        Fault::MembershipOf(wrong) => {
            let g = draw.of_sort(GROUP);
            (named(rng, &sheet, wrong, 0), g)
        }
        Fault::MembershipIn(wrong) => {
            let x = draw.in_use();
            (x, named(rng, &sheet, wrong, 0))
        }
        _ => {
            let held = |&g: &u8| sheet.members[g as usize] != 0;
            let groups: Vec<u8> = (0..OBJECTS as u8).filter(held).collect();
            let g = rng.pick(&groups);
            let inside = |&x: &u8| sheet.members[g as usize] >> x & 1 == 1;
            let objects: Vec<u8> = (0..OBJECTS as u8).filter(inside).collect();
            (rng.pick(&objects), g)
        }
    };
    after.members[g as usize] ^= 1 << x;
    [sheet, after]
}

fn one_more_warrant(rng: &mut Rng, mut sheet: Sheet, fault: Fault) -> [Sheet; 2] {
    let mut draw = Draw::new(rng, &sheet);
    let place = draw.warrant_place(false) as usize;
    let (holder, a, b) = (
        draw.of_sort(MEMBER),
        draw.of_sort(GROUP),
        draw.of_sort(GROUP),
    );
    let kind = match fault {
        Fault::B(_) => ADMINISTRATOR,
        Fault::UnreadB(kind) => kind,
        _ => 1 + rng.below(3) as u8,
    };
    sheet.warrants[place] = warrant(rng, kind, holder, a, &[b]);
    let mut after = sheet;
    let w = &mut after.warrants[place];
    match fault {
        Fault::Holder(wrong) => w.holder = named(rng, &sheet, wrong, holder),
        Fault::A(wrong) => w.a = named(rng, &sheet, wrong, a),
        Fault::B(wrong) => w.b = named(rng, &sheet, wrong, b),
        // At times a group.
        _ if b > 0 && rng.percent(50) => w.b = b,
        _ => w.b = 1 + rng.below(255) as u8,
    }
    [sheet, after]
}

fn one_more_rule(rng: &mut Rng, mut sheet: Sheet, fault: Fault) -> [Sheet; 2] {
    let mut draw = Draw::new(rng, &sheet);
    let place = draw.rule_place(false) as usize;
    let groups = [draw.of_sort(GROUP), draw.of_sort(GROUP)];
    let right = rule(rng, &groups);
    sheet.rules[place] = right;
    let mut after = sheet;
    let r = &mut after.rules[place];
    match fault {
        Fault::U(wrong) => r.u = named(rng, &sheet, wrong, right.u),
        Fault::T(wrong) => r.t = named(rng, &sheet, wrong, right.t),
        _ => r.ops = 0,
    }
    [sheet, after]
}

fn new_object(rng: &mut Rng, sheet: Sheet) -> [Sheet; 2] {
    let mut after = sheet;
    let x = Draw::new(rng, &sheet).not_in_use();
    after.sorts[x as usize] = rng.pick(&[GROUP, MEMBER, GEAR]);
    [sheet, after]
}

/// The one owner's warrant is emptied, by kind 0 or an unknown one, or turned into a manager's.
fn without_its_owner(rng: &mut Rng, sheet: Sheet, fault: Fault) -> [Sheet; 2] {
    let mut after = sheet;
    let owners = after.warrants.iter_mut().find(|w| w.kind == OWNER);
    owners.expect("the sheet is owned").kind = match fault {
        Fault::Demoted => MANAGER,
        _ => rng.pick(&[0, 4, 255]),
    };
    [sheet, after]
}
