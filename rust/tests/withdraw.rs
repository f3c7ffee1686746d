//! Job 1, "WITHDRAW is accepted from a member who administers (U, T) or who owns T", on sheets
//! written by hand: the proved board and the three judges give the answer that stands here.

use beside::compare;
use beside::sheet::*;

const DONE: u8 = 0;
const NO_AUTHORITY: u8 = 9;

/// Where the rule stands, and a number that names an empty object.
const PLACE: u8 = 9;
const EMPTY: u8 = 40;

/// Who sends: one owns group 5 through group 8, one manages it, one administers (4, 5), one
/// owns group 4, one owns gear 6, and one holds nothing.
const OWNS_T: u8 = 10;
const MANAGES_T: u8 = 11;
const ADMINISTERS: u8 = 12;
const OWNS_U: u8 = 13;
const OWNS_GEAR: u8 = 14;
const NOBODY: u8 = 15;

/// Groups 4 and 5, gear 6 in 5, and 5 in group 8. A rule lets those in 4 use what is in 5.
fn club() -> Sheet {
    let mut sheet = Sheet::empty();
    for group in [4, 5, 8] {
        sheet.sorts[group] = GROUP;
    }
    sheet.sorts[6] = GEAR;
    sheet.members[5] = 1 << 6;
    sheet.members[8] = 1 << 5;
    for member in OWNS_T..=NOBODY {
        sheet.sorts[member as usize] = MEMBER;
    }
    let warrants = [
        (OWNER, OWNS_T, 8, 0),
        (MANAGER, MANAGES_T, 8, 0),
        (ADMINISTRATOR, ADMINISTERS, 4, 5),
        (OWNER, OWNS_U, 4, 0),
        (OWNER, OWNS_GEAR, 6, 0),
    ];
    for (place, (kind, holder, a, b)) in warrants.into_iter().enumerate() {
        sheet.warrants[place] = Warrant { kind, holder, a, b };
    }
    sheet.rules[PLACE as usize] = rule(4, 5);
    sheet
}

fn rule(u: u8, t: u8) -> Rule {
    let (mark, ops) = (true, 6);
    Rule { mark, u, t, ops }
}

/// All four answer the sender's WITHDRAW with this code. Done empties the place and nothing
/// else; a refusal changes nothing.
fn assert_answer(sheet: &Sheet, sender: u8, code: u8) {
    let record = [6, 0, 7, 0, sender, PLACE];
    let answer = compare::single(&sheet.picture(), &record).unwrap_or_else(|e| panic!("{e}"));
    let rule = sheet.rules[PLACE as usize];
    assert_eq!(
        (answer.code, answer.cited),
        (code, NO_RULE),
        "{sender} on {rule:?}"
    );
    let mut after = *sheet;
    if code == DONE {
        after.rules[PLACE as usize] = Rule::default();
    }
    assert_eq!(Sheet::from_picture(&answer.picture), after);
}

fn with_rule(u: u8, t: u8) -> Sheet {
    let mut sheet = club();
    sheet.rules[PLACE as usize] = rule(u, t);
    sheet
}

#[test]
fn an_owner_of_t_and_an_administrator_may() {
    assert_answer(&club(), OWNS_T, DONE);
    assert_answer(&club(), ADMINISTERS, DONE);
}

/// A manager of T, an owner of U, and an owner of gear in T own no T.
#[test]
fn the_others_may_not() {
    for sender in [MANAGES_T, OWNS_U, OWNS_GEAR, NOBODY] {
        assert_answer(&club(), sender, NO_AUTHORITY);
    }
}

/// Who owns T needs nothing of U, which may be empty or past the table; an administrator does.
/// 68, 132 and 196 would be object 4 if the high bits were lost.
#[test]
fn u_that_names_nothing() {
    for u in [EMPTY, 68, 132, 196, 255] {
        assert_answer(&with_rule(u, 5), OWNS_T, DONE);
        assert_answer(&with_rule(u, 5), ADMINISTERS, NO_AUTHORITY);
        assert_answer(&with_rule(u, 5), OWNS_U, NO_AUTHORITY);
    }
}

/// A T that is empty or past the table is owned by nobody.
#[test]
fn t_that_names_nothing() {
    for t in [EMPTY, 69, 133, 197, 255] {
        for sender in OWNS_T..=NOBODY {
            assert_answer(&with_rule(4, t), sender, NO_AUTHORITY);
            assert_answer(&with_rule(EMPTY, t), sender, NO_AUTHORITY);
        }
    }
    // Nor by the holder of an owner's warrant with the same number.
    let mut sheet = with_rule(4, 197);
    sheet.warrants[0].a = 197;
    assert_answer(&sheet, OWNS_T, NO_AUTHORITY);
}

/// A stored T that is no group is covered by itself and by what it is in.
#[test]
fn t_that_is_no_group() {
    assert_answer(&with_rule(4, 6), OWNS_GEAR, DONE);
    assert_answer(&with_rule(4, 6), OWNS_T, DONE);
    assert_answer(&with_rule(4, 6), OWNS_U, NO_AUTHORITY);
    let mut sheet = with_rule(4, NOBODY);
    sheet.members[8] |= 1 << NOBODY;
    assert_answer(&sheet, OWNS_T, DONE);
    assert_answer(&sheet, NOBODY, NO_AUTHORITY);
}

/// 5 is in 8 and 8 in 5: who owns one of them owns the other.
#[test]
fn t_on_a_circle() {
    let mut sheet = with_rule(4, 8);
    sheet.members[5] |= 1 << 8;
    sheet.warrants[0].a = 5;
    assert_answer(&sheet, OWNS_T, DONE);
    assert_answer(&sheet, MANAGES_T, NO_AUTHORITY);
    // Without the way back he owns 5 and not 8.
    sheet.members[5] &= !(1 << 8);
    assert_answer(&sheet, OWNS_T, NO_AUTHORITY);
}

/// One who is both may; and he still may when either of the two is gone.
#[test]
fn owner_and_administrator() {
    let mut sheet = club();
    sheet.warrants[2].holder = OWNS_T;
    assert_answer(&sheet, OWNS_T, DONE);
    for place in [0, 2] {
        let mut left = sheet;
        left.warrants[place] = Warrant::default();
        assert_answer(&left, OWNS_T, DONE);
    }
    sheet.warrants[0] = Warrant::default();
    sheet.warrants[2] = Warrant::default();
    assert_answer(&sheet, OWNS_T, NO_AUTHORITY);
}

/// Only a member holds a post.
#[test]
fn an_owner_that_is_no_member() {
    let mut sheet = club();
    for sort in [0, GROUP, GEAR, 4, 255] {
        sheet.sorts[OWNS_T as usize] = sort;
        assert_answer(&sheet, OWNS_T, 4);
    }
}

/// "GRANT keeps its condition": who owns T, U or both grants nothing by it.
#[test]
fn owners_grant_nothing() {
    let grants = |sheet: &Sheet, sender| {
        let record = [9, 0, 6, 0, sender, 3, 4, 5, 1];
        let answer = compare::single(&sheet.picture(), &record).unwrap_or_else(|e| panic!("{e}"));
        answer.code
    };
    let mut sheet = club();
    assert_eq!(grants(&sheet, OWNS_T), NO_AUTHORITY);
    assert_eq!(grants(&sheet, OWNS_U), NO_AUTHORITY);
    sheet.warrants[3].holder = OWNS_T;
    assert_eq!(grants(&sheet, OWNS_T), NO_AUTHORITY);
    assert_eq!(grants(&sheet, ADMINISTERS), DONE);
}
