//! What a sheet stores, byte by byte: every sort, kind, holder, number, mark and set of operations
//! in its place, with the answers written out.

use crate::drawn::{assert_set, drawn, only_if, rule, warrant};
use crate::told::Asked;
use beside::question::Question::*;
use beside::sheet::*;

/// A stored sort of 1 to 3 is told at every number of the table, and any other is 0.
#[test]
fn every_sort() {
    for stored in 0..=255 {
        let mut sheet = Sheet::empty();
        sheet.sorts = [stored; OBJECTS];
        let sheet = Asked::of(&sheet.picture());
        for x in 0..=255 {
            let counts = x < 64 && (GROUP..=GEAR).contains(&stored);
            let sort = if counts { stored } else { 0 };
            assert_eq!(sheet.ask(Sort { x }), sort as u64, "{stored} at {x}");
        }
    }
}

/// A warrant of every kind, and a holder of every sort: an owner owns, a manager manages and an
/// administrator administers, and none of them does anything else. Who is no member holds nothing.
/// What B of an owner and of a manager is doesn't matter.
#[test]
fn every_kind_and_every_holder() {
    for byte in 0..=255 {
        let of_holders = [OWNER, MANAGER, ADMINISTRATOR].map(|kind| (kind, byte));
        for (kind, sort) in [(byte, MEMBER)].into_iter().chain(of_holders) {
            let sorts = [(0, GROUP), (1, sort), (2, GROUP), (3, GEAR)];
            let mut sheet = drawn(&sorts, &[(2, 0), (3, 2)]);
            let b = if kind == ADMINISTRATOR { 2 } else { byte };
            sheet.warrants[31] = warrant(kind, 1, 0, b);
            let sheet = Asked::of(&sheet.picture());
            let holds = |wanted| kind == wanted && sort == MEMBER;
            assert_set(&sheet, Owned { u: 1 }, only_if(holds(OWNER), &[0, 2, 3]));
            assert_set(
                &sheet,
                Managed { u: 1 },
                only_if(holds(MANAGER), &[0, 2, 3]),
            );
            let covered = only_if(holds(ADMINISTRATOR), &[2, 3]);
            assert_set(&sheet, Administered { u: 1, a: 3 }, covered);
        }
    }
}

/// Only the holder's own number holds: not one that is higher by 64, as the stored one or as the
/// one that is asked.
#[test]
fn every_holder_number() {
    for holder in 0..=255 {
        let mut sheet = drawn(&[(0, GROUP), (7, MEMBER)], &[]);
        sheet.warrants[0] = warrant(OWNER, holder, 0, 0);
        sheet.warrants[1] = warrant(MANAGER, holder, 0, 0);
        sheet.warrants[2] = warrant(ADMINISTRATOR, holder, 0, 0);
        let sheet = Asked::of(&sheet.picture());
        for u in 0..=255 {
            let holds = only_if(holder == 7 && u == 7, &[0]);
            assert_set(&sheet, Owned { u }, holds);
            assert_set(&sheet, Managed { u }, holds);
            assert_set(&sheet, Administered { u, a: 0 }, holds);
        }
    }
}

/// A stored A, B, U or T that names a member or gear covers that object alone, though others are
/// stored in it; one that names an empty object or is past the table covers nothing.
#[test]
fn every_number() {
    let sorts = [
        (0, GROUP),
        (1, MEMBER),
        (2, GEAR),
        (3, GEAR),
        (4, 4),
        (5, MEMBER),
    ];
    let stored = [(1, 0), (2, 0), (3, 2), (1, 2), (3, 1), (3, 4), (4, 0)];
    for number in 0..=255 {
        let (covered, gear): (&[u8], &[u8]) = match number {
            0 => (&[0, 1, 2], &[2]),
            1 => (&[1], &[]),
            2 => (&[2], &[2]),
            3 => (&[3], &[3]),
            5 => (&[5], &[]),
            _ => (&[], &[]),
        };
        let mut sheet = drawn(&sorts, &stored);
        sheet.warrants[0] = warrant(OWNER, 1, number, 0);
        sheet.warrants[1] = warrant(MANAGER, 1, number, 0);
        sheet.warrants[2] = warrant(ADMINISTRATOR, 1, 3, number);
        sheet.warrants[3] = warrant(ADMINISTRATOR, 5, number, 2);
        sheet.rules[0] = rule(1, number, 0b01);
        sheet.rules[1] = rule(number, 3, 0b10);
        let sheet = Asked::of(&sheet.picture());
        assert_set(&sheet, Below { g: number }, covered);
        assert_set(&sheet, Owned { u: 1 }, covered);
        assert_set(&sheet, Managed { u: 1 }, covered);
        assert_set(&sheet, Administered { u: 1, a: 3 }, covered);
        assert_set(&sheet, Permitted { u: 1, k: 0 }, gear);
        let has_1 = covered.contains(&1);
        assert_set(&sheet, Administered { u: 5, a: 1 }, only_if(has_1, &[2]));
        assert_set(&sheet, Permitted { u: 1, k: 1 }, only_if(has_1, &[3]));
    }
}

/// A rule of every mark and every set of operations: with mark 1 alone it permits the operations of
/// its set, and no operation past 7 is ever permitted.
#[test]
fn every_mark_and_every_operation() {
    let sheet = drawn(&[(0, GROUP), (1, MEMBER), (63, GEAR)], &[(1, 0), (63, 0)]);
    let mut picture = sheet.picture();
    for byte in 0..=255 {
        for (mark, ops) in [(byte, 255), (1, byte)] {
            picture[PICTURE - 4..].copy_from_slice(&[mark, 0, 0, ops]);
            let sheet = Asked::of(&picture);
            for k in 0..=255 {
                let permits = mark == 1 && k < 8 && ops >> (k % 8) & 1 == 1;
                assert_set(&sheet, Permitted { u: 1, k }, only_if(permits, &[63]));
                let place = if permits { 63 } else { 255 };
                assert_eq!(sheet.ask(Permitting { u: 1, k, x: 63 }), place);
            }
        }
    }
}

/// Who asks and what is asked for, of every sort: only a member is permitted, and only gear.
#[test]
fn every_user_and_every_gear() {
    for user in 0..=255 {
        for gear in (0..=5).chain([64, 67, 130, 131, 255]) {
            let mut sheet = drawn(&[(0, GROUP), (1, user), (2, gear)], &[(1, 0), (2, 0)]);
            sheet.rules[5] = rule(0, 0, 255);
            let sheet = Asked::of(&sheet.picture());
            let permitted = user == MEMBER && gear == GEAR;
            assert_set(&sheet, Permitted { u: 1, k: 4 }, only_if(permitted, &[2]));
            let place = if permitted { 5 } else { 255 };
            assert_eq!(sheet.ask(Permitting { u: 1, k: 4, x: 2 }), place);
        }
    }
}
