//! The judge with 64-bit sets: for each record that passes checks 1 to 5 it works out once the
//! sorts as sets and the closure, for every object the set of what is under it. All later
//! checks are answered from these. Holdings are sets too, and the checks on gain and on
//! orphans compare them before and after, as document 01 words them. Nothing is kept between
//! records.

mod holdings;
mod reach;

use crate::sheet::*;
use crate::words::{at, bit, has, is_kind, is_sort, refuse_if};
use holdings::Holdings;

/// The cited rule of a request that is done, or the number of the refusal.
type Verdict = Result<u8, u8>;

/// "The judge takes a sheet and one record and returns the sheet after, a code (0 done, else a
/// refusal) and a cited rule."
pub fn judge(sheet: &Sheet, record: &[u8]) -> Answer {
    Answer::of(judge_in_place, sheet, record)
}

/// The same with the sheet after written over the sheet before: the code and the cited rule.
pub fn judge_in_place(sheet: &mut Sheet, record: &[u8]) -> (u8, u8) {
    match decide(sheet, record) {
        Ok(cited) => (0, cited),
        Err(code) => (code, NO_RULE),
    }
}

/// All that an object is under: the numbers in whose rows of the closure it is. An empty object
/// and a number outside the table are in none.
pub fn above(sheet: &Sheet, x: u8) -> u64 {
    let reach = Holdings::on(sheet).reach;
    let over = |&g: &u8| has(reach.under(g), x);
    (0..64).filter(over).fold(0, |set, g| set | bit(g))
}

/// Checks 1 to 4, then the kind's own.
fn decide(sheet: &mut Sheet, record: &[u8]) -> Verdict {
    let &[l0, l1, k0, k1, ref fields @ ..] = record else {
        return Err(1);
    };
    refuse_if(u16::from_le_bytes([l0, l1]) as usize != record.len(), 1)?;
    let kind = u16::from_le_bytes([k0, k1]);
    refuse_if(!(1..=8).contains(&kind), 2)?;
    let lengths = [4, 3, 3, 6, 2, 5, 2, 3];
    refuse_if(fields.len() != lengths[kind as usize - 1], 3)?;
    let sender = fields[0];
    refuse_if(sender > 63 || sheet.sorts[at(sender)] != MEMBER, 4)?;
    match (kind, &fields[1..]) {
        (1, &[place, sort, group]) => make(sheet, sender, place, sort, group),
        (2, &[object, group]) => put(sheet, sender, object, group),
        (3, &[object, group]) => take(sheet, sender, object, group),
        (4, &[place, kind, holder, a, b]) => {
            appoint(sheet, sender, place, Warrant { kind, holder, a, b })
        }
        (5, &[place]) => dismiss(sheet, sender, place),
        (6, &[place, u, t, ops]) => {
            let mark = true;
            grant(sheet, sender, place, Rule { mark, u, t, ops })
        }
        (7, &[place]) => withdraw(sheet, sender, place),
        (8, &[gear, operation]) => using(sheet, sender, gear, operation),
        _ => Err(3),
    }
}

// ---- The eight kinds: checks 5 to 12 of each, then the change ---------------------------

fn make(sheet: &mut Sheet, sender: u8, place: u8, sort: u8, group: u8) -> Verdict {
    refuse_if(place > 63 || group > 63 || !is_sort(sort), 5)?;
    let before = Holdings::on(sheet);
    refuse_if(!has(before.sorts.all, group), 6)?;
    refuse_if(!has(before.sorts.groups, group), 7)?;
    refuse_if(has(before.sorts.all, place), 8)?;
    let (owned, managed) = before.owned_and_managed(sender);
    refuse_if(!has(owned | managed, group), 9)?;

    sheet.sorts[at(place)] = sort;
    for row in &mut sheet.members {
        *row &= !bit(place);
    }
    sheet.members[at(place)] = 0;
    sheet.members[at(group)] |= bit(place);
    Ok(NO_RULE)
}

/// Checks 6 and 7 of PUT and TAKE: the object and the group are there.
fn placed(before: &Holdings, object: u8, group: u8) -> Result<(), u8> {
    let sorts = &before.sorts;
    refuse_if(!has(sorts.all, object), 6)?;
    refuse_if(!has(sorts.all, group), 6)?;
    refuse_if(!has(sorts.groups, group), 7)
}

/// Check 9 of PUT and TAKE: the sender owns or manages both. What he owns, and what he manages.
fn governs_both(before: &Holdings, sender: u8, object: u8, group: u8) -> Result<(u64, u64), u8> {
    let (owned, managed) = before.owned_and_managed(sender);
    refuse_if(!has(owned | managed, object), 9)?;
    refuse_if(!has(owned | managed, group), 9)?;
    Ok((owned, managed))
}

fn put(sheet: &mut Sheet, sender: u8, object: u8, group: u8) -> Verdict {
    refuse_if(object > 63 || group > 63, 5)?;
    let before = Holdings::on(sheet);
    placed(&before, object, group)?;
    refuse_if(has(sheet.members[at(group)], object), 8)?;
    let (owned, managed) = governs_both(&before, sender, object, group)?;

    let after = before.with(object, group);
    let (owns, manages) = after.owned_and_managed(sender);
    refuse_if(owns & !owned | manages & !managed != 0, 10)?;
    refuse_if(after.new_pair(&before, sender), 10)?;
    let permitted = before.permitted(sender);
    refuse_if(grows(permitted, after.permitted(sender)), 10)?;
    refuse_if(after.new_to_some_member(&before, owned), 11)?;

    sheet.members[at(group)] |= bit(object);
    Ok(NO_RULE)
}

/// Has one of the sets something after that it hadn't before?
fn grows(before: [u64; 8], after: [u64; 8]) -> bool {
    let pairs = before.into_iter().zip(after);
    pairs.fold(0, |new, (before, after)| new | after & !before) != 0
}

fn take(sheet: &mut Sheet, sender: u8, object: u8, group: u8) -> Verdict {
    refuse_if(object > 63 || group > 63, 5)?;
    let before = Holdings::on(sheet);
    placed(&before, object, group)?;
    refuse_if(!has(sheet.members[at(group)], object), 8)?;
    governs_both(&before, sender, object, group)?;
    let after = before.without(object, group);
    refuse_if(after.orphans(&sheet.warrants) != 0, 12)?;

    sheet.members[at(group)] &= !bit(object);
    Ok(NO_RULE)
}

fn appoint(sheet: &mut Sheet, sender: u8, place: u8, warrant: Warrant) -> Verdict {
    let Warrant { kind, holder, a, b } = warrant;
    let administrator = kind == ADMINISTRATOR;
    refuse_if(place as usize >= WARRANTS || !is_kind(kind), 5)?;
    refuse_if(holder > 63 || a > 63, 5)?;
    refuse_if(if administrator { b > 63 } else { b != 0 }, 5)?;
    let before = Holdings::on(sheet);
    let sorts = before.sorts;
    // The groups that the record names: B is one for an administrator alone.
    let groups = bit(a) | if administrator { bit(b) } else { 0 };
    refuse_if((groups | bit(holder)) & !sorts.all != 0, 6)?;
    refuse_if(groups & !sorts.groups != 0, 7)?;
    refuse_if(!has(sorts.members, holder), 7)?;
    refuse_if(is_kind(sheet.warrants[place as usize].kind), 8)?;
    let (owned, managed) = before.owned_and_managed(sender);
    let from = if administrator { managed } else { owned };
    refuse_if(groups & !from != 0, 9)?;

    if holder == sender {
        let under_a = before.reach.under(a);
        let gains = match kind {
            OWNER => under_a & !owned != 0,
            MANAGER => under_a & !managed != 0,
            _ => before.lacks_a_pair(sender, under_a, before.reach.under(b)),
        };
        refuse_if(gains, 10)?;
    }

    sheet.warrants[place as usize] = warrant;
    Ok(NO_RULE)
}

fn dismiss(sheet: &mut Sheet, sender: u8, place: u8) -> Verdict {
    refuse_if(place as usize >= WARRANTS, 5)?;
    let before = Holdings::on(sheet);
    let Warrant { kind, a, b, .. } = sheet.warrants[place as usize];
    refuse_if(!is_kind(kind), 6)?;
    let (owned, managed) = before.owned_and_managed(sender);
    let may = if kind == ADMINISTRATOR {
        has(managed, a) && has(managed, b)
    } else {
        has(owned, a)
    };
    refuse_if(!may, 9)?;
    let mut left = sheet.warrants;
    left[place as usize] = Warrant::default();
    refuse_if(before.orphans(&left) != 0, 12)?;

    sheet.warrants = left;
    Ok(NO_RULE)
}

fn grant(sheet: &mut Sheet, sender: u8, place: u8, rule: Rule) -> Verdict {
    let Rule { u, t, ops, .. } = rule;
    refuse_if(place > 63 || u > 63 || t > 63 || ops == 0, 5)?;
    let before = Holdings::on(sheet);
    let groups = bit(u) | bit(t);
    refuse_if(groups & !before.sorts.all != 0, 6)?;
    refuse_if(groups & !before.sorts.groups != 0, 7)?;
    refuse_if(sheet.rules[at(place)].mark, 8)?;
    refuse_if(!before.administers(sender, u, t), 9)?;
    if has(before.reach.under(u), sender) {
        let permitted = before.permitted(sender);
        let mut permits = permitted;
        before.add_permits(&mut permits, &rule);
        refuse_if(grows(permitted, permits), 10)?;
    }

    sheet.rules[at(place)] = rule;
    Ok(NO_RULE)
}

fn withdraw(sheet: &mut Sheet, sender: u8, place: u8) -> Verdict {
    refuse_if(place > 63, 5)?;
    let before = Holdings::on(sheet);
    let Rule { mark, u, t, .. } = sheet.rules[at(place)];
    refuse_if(!mark, 6)?;
    // Job 1: "WITHDRAW is accepted from a member who administers (U, T) or who owns T."
    let (owned, _) = before.owned_and_managed(sender);
    let may = before.administers(sender, u, t) || has(owned, t);
    refuse_if(!may, 9)?;

    sheet.rules[at(place)] = Rule::default();
    Ok(NO_RULE)
}

fn using(sheet: &Sheet, sender: u8, gear: u8, operation: u8) -> Verdict {
    refuse_if(gear > 63 || operation > 7, 5)?;
    let before = Holdings::on(sheet);
    refuse_if(!has(before.sorts.all, gear), 6)?;
    refuse_if(!has(before.sorts.gear, gear), 7)?;
    before.permitting(sender, operation, gear).ok_or(9)
}
