//! The judge in the plainest way: document 01, and Jobs 1 and 3 of document 02, sentence by
//! sentence, with loops over objects, members and operations, and holdings compared before and
//! after. Speed is no concern here.

pub(crate) mod holdings;
mod questions;
mod record;

pub use holdings::Holdings;

use crate::sheet::*;
use holdings::{
    in_use, objects, on_table, rule_in_use, set_of, sort_is, stored_in, warrant_in_use,
};
use record::{read, Request, Request::*};

/// The refusals of "When the board says no", by number.
pub const DONE: u8 = 0;
pub const TORN: u8 = 1;
pub const UNKNOWN: u8 = 2;
pub const MISFIT: u8 = 3;
pub const STRANGER: u8 = 4;
pub const OFF_THE_SHEET: u8 = 5;
pub const ABSENT: u8 = 6;
pub const WRONG_SORT: u8 = 7;
pub const ALREADY_SO: u8 = 8;
pub const NO_AUTHORITY: u8 = 9;
pub const OWN_GAIN: u8 = 10;
pub const HAND_OVER: u8 = 11;
pub const ORPHAN: u8 = 12;

/// "The judge takes a sheet and one record and returns the sheet after, a code and a cited
/// rule: for an accepted USE the lowest permitting place, otherwise 255."
pub fn judge(sheet: &Sheet, record: &[u8]) -> Answer {
    match accept(sheet, record) {
        Ok((after, cited)) => Answer {
            sheet: after,
            code: DONE,
            cited,
        },
        // "The first that applies is returned, cited 255, sheet unchanged."
        Err(code) => Answer {
            sheet: *sheet,
            code,
            cited: NO_RULE,
        },
    }
}

/// The gear and the operation of the first permit that a record would give its sender, if it is
/// refused for own gain and would give one.
pub fn permit_refused(sheet: &Sheet, record: &[u8]) -> Option<(u8, u8)> {
    if judge(sheet, record).code != OWN_GAIN {
        return None;
    }
    let (sender, request) = read(record).expect("an earlier check would apply");
    let before = Holdings::of(*sheet);
    let after = Holdings::of(successor(*sheet, request));
    permit_gained(&before, &after, sender)
}

/// Document 02, Job 3: "the set of all that an object is under, itself too, each of these and no
/// other; for an empty object or a number past the table, the empty set". Bit g is object g.
pub fn above(sheet: &Sheet, x: u8) -> u64 {
    let under = holdings::all_over(sheet, x);
    set_of(|g| under[g as usize])
}

/// The twelve checks in order: the sheet after and the cited rule, or the first refusal.
fn accept(sheet: &Sheet, record: &[u8]) -> Result<(Sheet, u8), u8> {
    let (sender, request) = read(record)?;
    refuse_if(!sort_is(sheet, sender, MEMBER), STRANGER)?;
    refuse_if(off_the_sheet(request), OFF_THE_SHEET)?;
    refuse_if(absent(sheet, request), ABSENT)?;
    refuse_if(wrong_sort(sheet, request), WRONG_SORT)?;
    refuse_if(already_so(sheet, request), ALREADY_SO)?;

    let before = Holdings::of(*sheet);
    refuse_if(!has_authority(&before, sender, request), NO_AUTHORITY)?;
    if let Use { gear, operation } = request {
        // "USE: is permitted. Changes nothing."
        let cited = before.permitting_rule(sender, operation, gear);
        return Ok((*sheet, cited.expect("authority was tested")));
    }

    let next = successor(*sheet, request);
    if let Make { .. } | Withdraw { .. } = request {
        return Ok((next, NO_RULE));
    }
    let after = Holdings::of(next);
    if let Put { .. } | Appoint { .. } | Grant { .. } = request {
        refuse_if(gains(&before, &after, sender), OWN_GAIN)?;
    }
    if let Put { .. } = request {
        refuse_if(hands_over(&before, &after, sender), HAND_OVER)?;
    }
    if let Take { .. } | Dismiss { .. } = request {
        refuse_if(leaves_an_orphan(&after), ORPHAN)?;
    }
    Ok((next, NO_RULE))
}

fn refuse_if(applies: bool, code: u8) -> Result<(), u8> {
    if applies {
        Err(code)
    } else {
        Ok(())
    }
}

// ---- Checks 5 to 8 ----------------------------------------------------------------------

/// 5: "a number outside its table; MAKE sort or APPOINT kind not 1 to 3; B not 0 for kinds
/// 1, 2; operation set 0; operation above 7"
fn off_the_sheet(request: Request) -> bool {
    let no_object = |x| !on_table(x, OBJECTS);
    match request {
        Make { place, sort, group } => {
            no_object(place) || no_object(group) || !(GROUP..=GEAR).contains(&sort)
        }
        Put { object, group } | Take { object, group } => no_object(object) || no_object(group),
        Appoint {
            place,
            kind,
            holder,
            a,
            b,
        } => {
            !on_table(place, WARRANTS)
                || !(OWNER..=ADMINISTRATOR).contains(&kind)
                || no_object(holder)
                || no_object(a)
                || (kind == ADMINISTRATOR && no_object(b))
                || (kind != ADMINISTRATOR && b != 0)
        }
        Dismiss { place } => !on_table(place, WARRANTS),
        Grant { place, u, t, ops } => {
            !on_table(place, RULES) || no_object(u) || no_object(t) || ops == 0
        }
        Withdraw { place } => !on_table(place, RULES),
        Use { gear, operation } => no_object(gear) || operation > 7,
    }
}

/// 6: "a named object is empty (the place to fill excepted), or DISMISS or WITHDRAW names an
/// empty place"
fn absent(sheet: &Sheet, request: Request) -> bool {
    let empty = |x| !in_use(sheet, x);
    match request {
        Make { group, .. } => empty(group),
        Put { object, group } | Take { object, group } => empty(object) || empty(group),
        Appoint {
            kind, holder, a, b, ..
        } => empty(holder) || empty(a) || (kind == ADMINISTRATOR && empty(b)),
        Dismiss { place } => !warrant_in_use(sheet, place),
        Grant { u, t, .. } => empty(u) || empty(t),
        Withdraw { place } => !rule_in_use(sheet, place),
        Use { gear, .. } => empty(gear),
    }
}

/// 7: "a group field that isn't a group (B only for kind 3), a holder that isn't a member,
/// USE on what isn't gear"
fn wrong_sort(sheet: &Sheet, request: Request) -> bool {
    let no_group = |x| !sort_is(sheet, x, GROUP);
    match request {
        Make { group, .. } | Put { group, .. } | Take { group, .. } => no_group(group),
        Appoint {
            kind, holder, a, b, ..
        } => {
            !sort_is(sheet, holder, MEMBER) || no_group(a) || (kind == ADMINISTRATOR && no_group(b))
        }
        Grant { u, t, .. } => no_group(u) || no_group(t),
        Use { gear, .. } => !sort_is(sheet, gear, GEAR),
        Dismiss { .. } | Withdraw { .. } => false,
    }
}

/// 8: "place to fill in use; PUT of a membership that is there; TAKE of one that isn't"
fn already_so(sheet: &Sheet, request: Request) -> bool {
    match request {
        Make { place, .. } => in_use(sheet, place),
        Appoint { place, .. } => warrant_in_use(sheet, place),
        Grant { place, .. } => rule_in_use(sheet, place),
        Put { object, group } => stored_in(sheet, object, group),
        Take { object, group } => !stored_in(sheet, object, group),
        Dismiss { .. } | Withdraw { .. } | Use { .. } => false,
    }
}

// ---- Check 9 and the change -------------------------------------------------------------

/// "Who may send what. All of this is tested on the sheet before the request."
fn has_authority(before: &Holdings, sender: u8, request: Request) -> bool {
    match request {
        // "MAKE: owns or manages the group."
        Make { group, .. } => before.owns_or_manages(sender, group),
        // "PUT, TAKE: owns or manages the object, and owns or manages the group."
        Put { object, group } | Take { object, group } => {
            before.owns_or_manages(sender, object) && before.owns_or_manages(sender, group)
        }
        Appoint { kind, a, b, .. } => may_set_warrant(before, sender, kind, a, b),
        // DISMISS and WITHDRAW read the stored numbers.
        Dismiss { place } => {
            let w = before.sheet.warrants[place as usize];
            may_set_warrant(before, sender, w.kind, w.a, w.b)
        }
        // "GRANT, WITHDRAW: administers (U, T) by one warrant." Document 02, Job 1: "GRANT keeps
        // its condition."
        Grant { u, t, .. } => before.administers(sender, u, t),
        // Job 1: "WITHDRAW is accepted from a member who administers (U, T) or who owns T."
        Withdraw { place } => {
            let r = before.sheet.rules[place as usize];
            before.administers(sender, r.u, r.t) || before.owns(sender, r.t)
        }
        // "USE: is permitted."
        Use { gear, operation } => before.permitted(sender, operation, gear),
    }
}

/// "APPOINT, DISMISS of owner or manager: owns A. Of an administrator: manages A and manages
/// B."
fn may_set_warrant(before: &Holdings, sender: u8, kind: u8, a: u8, b: u8) -> bool {
    if kind == ADMINISTRATOR {
        before.manages(sender, a) && before.manages(sender, b)
    } else {
        before.owns(sender, a)
    }
}

/// The sheet after the request, were it accepted. What it doesn't name stays as it is.
fn successor(mut sheet: Sheet, request: Request) -> Sheet {
    match request {
        Make { place, sort, group } => {
            sheet.sorts[place as usize] = sort;
            // "Every other membership stored for the new number, on either side, is cleared."
            for other in objects() {
                set_membership(&mut sheet, other, place, false);
                set_membership(&mut sheet, place, other, false);
            }
            // "The new object is directly in it."
            set_membership(&mut sheet, place, group, true);
        }
        Put { object, group } => set_membership(&mut sheet, object, group, true),
        Take { object, group } => set_membership(&mut sheet, object, group, false),
        Appoint {
            place,
            kind,
            holder,
            a,
            b,
        } => sheet.warrants[place as usize] = Warrant { kind, holder, a, b },
        // "A place that a request empties holds zeros."
        Dismiss { place } => sheet.warrants[place as usize] = Warrant::default(),
        Grant { place, u, t, ops } => {
            let mark = true;
            sheet.rules[place as usize] = Rule { mark, u, t, ops };
        }
        Withdraw { place } => sheet.rules[place as usize] = Rule::default(),
        Use { .. } => {}
    }
    sheet
}

fn set_membership(sheet: &mut Sheet, x: u8, g: u8, there: bool) {
    let bit = 1u64 << x;
    if there {
        sheet.members[g as usize] |= bit;
    } else {
        sheet.members[g as usize] &= !bit;
    }
}

// ---- Checks 10 to 12 --------------------------------------------------------------------

/// 10: "PUT, APPOINT or GRANT would give its sender a holding." "A request gives a holding if
/// he has it after and lacked it before, where every object in it was in use before."
fn gains(before: &Holdings, after: &Holdings, sender: u8) -> bool {
    gains_ownership_or_management(before, after, sender)
        || gains_administration(before, after, sender)
        || permit_gained(before, after, sender).is_some()
}

fn gains_ownership_or_management(before: &Holdings, after: &Holdings, sender: u8) -> bool {
    before.objects_in_use().any(|x| {
        comes_to_own(before, after, sender, x) || comes_to_manage(before, after, sender, x)
    })
}

fn comes_to_own(before: &Holdings, after: &Holdings, member: u8, x: u8) -> bool {
    after.owns(member, x) && !before.owns(member, x)
}

fn comes_to_manage(before: &Holdings, after: &Holdings, member: u8, x: u8) -> bool {
    after.manages(member, x) && !before.manages(member, x)
}

fn gains_administration(before: &Holdings, after: &Holdings, sender: u8) -> bool {
    before.objects_in_use().any(|a| {
        before
            .objects_in_use()
            .any(|b| after.administers(sender, a, b) && !before.administers(sender, a, b))
    })
}

/// "The search for a permit that the sender would gain goes through gear and operations and
/// stops at the first found."
fn permit_gained(before: &Holdings, after: &Holdings, sender: u8) -> Option<(u8, u8)> {
    for gear in before.of_sort(GEAR) {
        for k in 0..8 {
            if after.permitted(sender, k, gear) && !before.permitted(sender, k, gear) {
                return Some((gear, k));
            }
        }
    }
    None
}

/// 11: "PUT would give some member ownership or management of an object that the sender
/// doesn't own on the sheet before it."
fn hands_over(before: &Holdings, after: &Holdings, sender: u8) -> bool {
    before.objects_in_use().any(|x| {
        !before.owns(sender, x)
            && before
                .of_sort(MEMBER)
                .any(|m| comes_to_own(before, after, m, x) || comes_to_manage(before, after, m, x))
    })
}

/// 12: "TAKE or DISMISS would leave an object in use that no member owns."
fn leaves_an_orphan(after: &Holdings) -> bool {
    after
        .objects_in_use()
        .any(|x| !after.of_sort(MEMBER).any(|m| after.owns(m, x)))
}
