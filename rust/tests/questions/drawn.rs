//! Sheets drawn by hand, with the answers written out.

use crate::told::Asked;
use beside::board;
use beside::question::Question::{self, *};
use beside::sheet::*;

/// The answer is this set.
pub fn assert_set(sheet: &Asked, question: Question, objects: &[u8]) {
    let set = objects.iter().fold(0, |set, x| set | 1 << x);
    assert_eq!(sheet.ask(question), set, "{question:?}");
}

/// These objects if so, and else none.
pub fn only_if(so: bool, objects: &[u8]) -> &[u8] {
    if so {
        objects
    } else {
        &[]
    }
}

/// The sheet with these sorts, (object, sort), and stored memberships, (object, group).
pub fn drawn(sorts: &[(usize, u8)], stored: &[(u8, usize)]) -> Sheet {
    let mut sheet = Sheet::empty();
    for &(x, sort) in sorts {
        sheet.sorts[x] = sort;
    }
    for &(x, g) in stored {
        sheet.members[g] |= 1 << x;
    }
    sheet
}

pub fn warrant(kind: u8, holder: u8, a: u8, b: u8) -> Warrant {
    Warrant { kind, holder, a, b }
}

pub fn rule(u: u8, t: u8, ops: u8) -> Rule {
    let mark = true;
    Rule { mark, u, t, ops }
}

/// The club of document 01's sample before its record 13: member 1 owns all, 2 manages all, and 3
/// administers group 4, in which 3 and 7 are, with group 5, in which gear 6 is. Rule 0 permits
/// those of 4 operations 1 and 2 on what is in 5.
pub fn club() -> [u8; PICTURE] {
    let groups = [(0, GROUP), (4, GROUP), (5, GROUP), (6, GEAR)];
    let members = [1, 2, 3, 7].map(|x| (x, MEMBER));
    let in_all = [1, 2, 3, 4, 5].map(|x| (x, 0));
    let stored = [&in_all[..], &[(6, 5), (7, 4), (3, 4)]].concat();
    let mut sheet = drawn(&[&groups[..], &members].concat(), &stored);
    sheet.warrants[0] = warrant(OWNER, 1, 0, 0);
    sheet.warrants[1] = warrant(MANAGER, 2, 0, 0);
    sheet.warrants[2] = warrant(ADMINISTRATOR, 3, 4, 5);
    sheet.rules[0] = rule(4, 5, 0b110);
    sheet.picture()
}

#[test]
fn the_founding() {
    let founding = Asked::of(&board::founding());
    for n in 0..=255 {
        let (sort, below): (u64, &[u8]) = match n {
            0 => (1, &[0, 1]),
            1 => (2, &[1]),
            _ => (0, &[]),
        };
        assert_eq!(founding.ask(Sort { x: n }), sort, "object {n}");
        assert_set(&founding, Below { g: n }, below);
        assert_set(&founding, Owned { u: n }, only_if(n == 1, &[0, 1]));
        assert_set(&founding, Managed { u: n }, &[]);
        for m in 0..=255 {
            assert_set(&founding, Administered { u: n, a: m }, &[]);
            assert_set(&founding, Permitted { u: n, k: m }, &[]);
        }
    }
}

/// An owner is no manager, and a manager no owner; numbers past the table are nobody and nothing.
#[test]
fn the_club_of_the_sample() {
    let club = Asked::of(&club());
    let all = [0, 1, 2, 3, 4, 5, 6, 7];
    for u in 0..=255 {
        assert_set(&club, Owned { u }, only_if(u == 1, &all));
        assert_set(&club, Managed { u }, only_if(u == 2, &all));
        for n in 0..=255 {
            let covered = u == 3 && [3, 4, 7].contains(&n);
            assert_set(&club, Administered { u, a: n }, only_if(covered, &[5, 6]));
            let permitted = [3, 7].contains(&u) && [1, 2].contains(&n);
            assert_set(&club, Permitted { u, k: n }, only_if(permitted, &[6]));
            for x in [0, 1, 5, 6, 7, 64 + 6, 255] {
                let place = if permitted && x == 6 { 0 } else { 255 };
                assert_eq!(club.ask(Permitting { u, k: n, x }), place, "{u} {n} {x}");
            }
        }
    }
    assert_set(&club, Below { g: 0 }, &all);
    assert_set(&club, Below { g: 4 }, &[3, 4, 7]);
    assert_set(&club, Below { g: 5 }, &[5, 6]);
    assert_set(&club, Below { g: 6 }, &[6]);
    assert_set(&club, Below { g: 64 }, &[]);
}

/// U of one rule and T or an operation of another permit nothing, and A of one warrant and B of
/// another administer nothing.
#[test]
fn one_rule_and_one_warrant() {
    let groups = [2, 3, 4, 5].map(|g| (g, GROUP));
    let others = [(1, MEMBER), (8, GEAR), (9, GEAR)];
    let stored = [(1, 2), (8, 3), (9, 5)];
    let mut sheet = drawn(&[&groups[..], &others].concat(), &stored);
    sheet.warrants[7] = warrant(ADMINISTRATOR, 1, 2, 3);
    sheet.warrants[9] = warrant(ADMINISTRATOR, 1, 4, 5);
    sheet.rules[20] = rule(2, 3, 0b01);
    sheet.rules[10] = rule(4, 5, 0b11);
    let sheet = Asked::of(&sheet.picture());
    assert_set(&sheet, Administered { u: 1, a: 2 }, &[3, 8]);
    assert_set(&sheet, Administered { u: 1, a: 1 }, &[3, 8]);
    assert_set(&sheet, Administered { u: 1, a: 4 }, &[5, 9]);
    assert_set(&sheet, Administered { u: 1, a: 3 }, &[]);
    assert_set(&sheet, Permitted { u: 1, k: 0 }, &[8]);
    assert_set(&sheet, Permitted { u: 1, k: 1 }, &[]);
    assert_eq!(sheet.ask(Permitting { u: 1, k: 0, x: 8 }), 20);
    assert_eq!(sheet.ask(Permitting { u: 1, k: 0, x: 9 }), 255);
}

/// What several warrants cover is one set, and so is what several rules permit.
#[test]
fn several_together() {
    let groups = [2, 3, 4].map(|g| (g, GROUP));
    let others = [(1, MEMBER), (5, GEAR), (6, GEAR), (63, GEAR)];
    let stored = [(1, 2), (5, 3), (6, 4), (63, 4), (6, 3)];
    let mut sheet = drawn(&[&groups[..], &others].concat(), &stored);
    for (place, group) in [(0, 3), (29, 4)] {
        sheet.warrants[place] = warrant(OWNER, 1, group, 0);
        sheet.warrants[place + 1] = warrant(MANAGER, 1, group, 0);
        sheet.warrants[place + 2] = warrant(ADMINISTRATOR, 1, 2, group);
        sheet.rules[place + 1] = rule(2, group, 0b1);
    }
    let sheet = Asked::of(&sheet.picture());
    assert_set(&sheet, Owned { u: 1 }, &[3, 4, 5, 6, 63]);
    assert_set(&sheet, Managed { u: 1 }, &[3, 4, 5, 6, 63]);
    assert_set(&sheet, Administered { u: 1, a: 1 }, &[3, 4, 5, 6, 63]);
    assert_set(&sheet, Permitted { u: 1, k: 0 }, &[5, 6, 63]);
    assert_eq!(sheet.ask(Permitting { u: 1, k: 0, x: 6 }), 1);
    assert_eq!(sheet.ask(Permitting { u: 1, k: 0, x: 63 }), 30);
}

/// Of several rules that permit, the lowest place is told.
#[test]
fn the_lowest_place() {
    let mut sheet = drawn(&[(0, GROUP), (1, MEMBER), (2, GEAR)], &[(1, 0), (2, 0)]);
    for place in (0..64).rev() {
        sheet.rules[place] = rule([0, 1][place % 2], [0, 2][place / 2 % 2], 0b1000_0001);
        let asked = Asked::of(&sheet.picture());
        for (k, told) in [(0, place as u64), (7, place as u64), (6, 255)] {
            assert_eq!(asked.ask(Permitting { u: 1, k, x: 2 }), told);
        }
    }
}

/// Chains of 63 memberships, up the numbers and down the numbers, and closed to a circle. In the
/// rising one object 0, as a member, owns what is under A.
#[test]
fn chains_of_63() {
    let mut rising = Sheet::empty();
    rising.sorts = [GROUP; OBJECTS];
    let mut falling = rising;
    for x in 0..63 {
        rising.members[x + 1] |= 1 << x;
        falling.members[x] |= 1 << (x + 1);
    }
    let mut circle = rising;
    circle.members[0] |= 1 << 63;
    let [in_rising, in_falling, in_circle] =
        [rising, falling, circle].map(|sheet| Asked::of(&sheet.picture()));
    rising.sorts[0] = MEMBER;
    for g in 0..64 {
        assert_eq!(in_rising.ask(Below { g }), u64::MAX >> (63 - g));
        assert_eq!(in_falling.ask(Below { g }), u64::MAX << g);
        assert_eq!(in_circle.ask(Below { g }), u64::MAX);
        rising.warrants[0] = warrant(OWNER, 0, g, 0);
        let owner = Asked::of(&rising.picture());
        assert_eq!(owner.ask(Owned { u: 0 }), u64::MAX >> (63 - g));
    }
}
