//! The judge for speed: objects are bits of 64-bit sets, and each record that needs reach
//! searches for just the part it needs, upward from an object or downward from several at
//! once. Nothing is kept between records.
//!
//! The checks on gain don't compare holdings before and after, as document 01 words them. What
//! a warrant covers is closed downward: who owns x owns all that is under x. So for owning,
//! managing and administering it is enough to ask about the object that is PUT; for permits
//! the gear under it is compared, operation by operation.

mod view;

use crate::sheet::*;
use crate::wide;
use crate::words::{all_if, at, bit, each, has, is_kind, is_sort, refuse_if};
use view::{Join, View};

/// An accepted request's change of the sheet, and for USE the rule cited.
enum Change {
    Make { place: u8, sort: u8, group: u8 },
    Put { object: u8, group: u8 },
    Take { object: u8, group: u8 },
    SetWarrant { place: u8, warrant: Warrant },
    SetRule { place: u8, rule: Rule },
    Nothing { cited: u8 },
}

/// A change, or the number of the refusal.
type Verdict = Result<Change, u8>;

/// "The judge takes a sheet and one record and returns the sheet after, a code (0 done, else a
/// refusal) and a cited rule."
pub fn judge(sheet: &Sheet, record: &[u8]) -> Answer {
    Answer::of(judge_in_place, sheet, record)
}

/// The same with the sheet after written over the sheet before: the code and the cited rule.
pub fn judge_in_place(sheet: &mut Sheet, record: &[u8]) -> (u8, u8) {
    match decide(sheet, record) {
        Ok(Change::Nothing { cited }) => (0, cited),
        Ok(change) => {
            apply(sheet, change);
            (0, NO_RULE)
        }
        Err(code) => (code, NO_RULE),
    }
}

/// All that an object is under. What isn't in use is under nothing.
pub fn above(sheet: &Sheet, x: u8) -> u64 {
    let [groups, members, gear] = wide::sorts(&sheet.sorts);
    let start = bit(x) & all_if(has(groups | members | gear, x));
    let [over] = wide::over(&sheet.members, groups, [start]);
    over
}

fn apply(sheet: &mut Sheet, change: Change) {
    match change {
        Change::Make { place, sort, group } => {
            sheet.sorts[at(place)] = sort;
            for row in &mut sheet.members {
                *row &= !bit(place);
            }
            sheet.members[at(place)] = 0;
            sheet.members[at(group)] |= bit(place);
        }
        Change::Put { object, group } => sheet.members[at(group)] |= bit(object),
        Change::Take { object, group } => sheet.members[at(group)] &= !bit(object),
        Change::SetWarrant { place, warrant } => {
            sheet.warrants[place as usize % WARRANTS] = warrant
        }
        Change::SetRule { place, rule } => sheet.rules[at(place)] = rule,
        Change::Nothing { .. } => {}
    }
}

/// Checks 1 to 4, then the kind's own.
fn decide(sheet: &Sheet, record: &[u8]) -> Verdict {
    let &[l0, l1, k0, k1, ref fields @ ..] = record else {
        return Err(1);
    };
    if u16::from_le_bytes([l0, l1]) as usize != record.len() {
        return Err(1);
    }
    if k1 != 0 || k0 == 0 || k0 > 8 {
        return Err(2);
    }
    match (k0, fields) {
        (1, &[sender, place, sort, group]) => make(View::of(sheet, sender)?, place, sort, group),
        (2, &[sender, object, group]) => put(View::of(sheet, sender)?, object, group),
        (3, &[sender, object, group]) => take(View::of(sheet, sender)?, object, group),
        (4, &[sender, place, kind, holder, a, b]) => {
            let warrant = Warrant { kind, holder, a, b };
            appoint(View::of(sheet, sender)?, place, warrant)
        }
        (5, &[sender, place]) => dismiss(View::of(sheet, sender)?, place),
        (6, &[sender, place, u, t, ops]) => {
            let mark = true;
            grant(View::of(sheet, sender)?, place, Rule { mark, u, t, ops })
        }
        (7, &[sender, place]) => withdraw(View::of(sheet, sender)?, place),
        (8, &[sender, gear, operation]) => using(View::of(sheet, sender)?, gear, operation),
        _ => Err(3),
    }
}

// ---- The eight kinds: checks 5 to 12 of each --------------------------------------------

fn make(view: View, place: u8, sort: u8, group: u8) -> Verdict {
    refuse_if(place > 63 || group > 63 || !is_sort(sort), 5)?;
    refuse_if(!view.in_use(group), 6)?;
    refuse_if(!view.is(group, GROUP), 7)?;
    refuse_if(view.in_use(place), 8)?;
    let [over] = view.over([group]);
    refuse_if(view.runs_from() & over == 0, 9)?;
    Ok(Change::Make { place, sort, group })
}

fn put(view: View, object: u8, group: u8) -> Verdict {
    view.check_pair(object, group)?;
    refuse_if(view.stored_in(object, group), 8)?;
    let [over_object, over_group, over_sender] = view.over([object, group, view.sender]);
    let (owns_from, manages_from) = (view.held_a(OWNER), view.held_a(MANAGER));
    let owns_object = owns_from & over_object != 0;
    let owns_group = owns_from & over_group != 0;
    let manages_object = manages_from & over_object != 0;
    let manages_group = manages_from & over_group != 0;
    refuse_if(!(owns_object || manages_object), 9)?;
    refuse_if(!(owns_group || manages_group), 9)?;

    // Who owns the group owns after it all that is under the object. He owned all that
    // before just if he owned the object. Managing likewise.
    refuse_if(owns_group && !owns_object, 10)?;
    refuse_if(manages_group && !manages_object, 10)?;
    let join = Join {
        object,
        over_object,
        over_group,
    };
    refuse_if(view.join_gives_administration(&join), 10)?;
    refuse_if(view.join_gives_permit(&join, over_sender), 10)?;
    refuse_if(!owns_object && view.join_gives_others(&join), 11)?;
    Ok(Change::Put { object, group })
}

fn take(view: View, object: u8, group: u8) -> Verdict {
    view.check_pair(object, group)?;
    refuse_if(!view.stored_in(object, group), 8)?;
    let [over_object, over_group] = view.over([object, group]);
    let runs_from = view.runs_from();
    refuse_if(runs_from & over_object == 0, 9)?;
    refuse_if(runs_from & over_group == 0, 9)?;
    let cut = |g: usize, row: u64| {
        if g == at(group) {
            row & !bit(object)
        } else {
            row
        }
    };
    let owned = view.under_all(view.owner_groups(None), view.all, cut);
    refuse_if(view.all & !owned != 0, 12)?;
    Ok(Change::Take { object, group })
}

fn appoint(view: View, place: u8, warrant: Warrant) -> Verdict {
    let Warrant { kind, holder, a, b } = warrant;
    let administrator = kind == ADMINISTRATOR;
    refuse_if(place as usize >= WARRANTS || !is_kind(kind), 5)?;
    refuse_if(holder > 63 || a > 63, 5)?;
    refuse_if(if administrator { b > 63 } else { b != 0 }, 5)?;
    refuse_if(!view.in_use(holder) || !view.in_use(a), 6)?;
    refuse_if(administrator && !view.in_use(b), 6)?;
    refuse_if(!view.is(holder, MEMBER) || !view.is(a, GROUP), 7)?;
    refuse_if(administrator && !view.is(b, GROUP), 7)?;
    refuse_if(is_kind(view.sheet.warrants[place as usize].kind), 8)?;

    let to_sender = holder == view.sender;
    if administrator {
        let [over_a, over_b] = view.over([a, b]);
        let manages_from = view.held_a(MANAGER);
        refuse_if(manages_from & over_a == 0 || manages_from & over_b == 0, 9)?;
        refuse_if(to_sender && !view.administers(over_a, over_b), 10)?;
    } else {
        let [over] = view.over([a]);
        refuse_if(view.held_a(OWNER) & over == 0, 9)?;
        // An owner gains nothing as owner of what he owns.
        let gains = to_sender && kind == MANAGER && view.held_a(MANAGER) & over == 0;
        refuse_if(gains, 10)?;
    }
    Ok(Change::SetWarrant { place, warrant })
}

fn dismiss(view: View, place: u8) -> Verdict {
    refuse_if(place as usize >= WARRANTS, 5)?;
    let Warrant { kind, a, b, .. } = view.sheet.warrants[place as usize];
    refuse_if(!is_kind(kind), 6)?;
    // What isn't in use is under nothing, so nobody owns or manages it.
    refuse_if(!view.in_use(a), 9)?;
    if kind == ADMINISTRATOR {
        refuse_if(!view.in_use(b), 9)?;
        let [over_a, over_b] = view.over([a, b]);
        let manages_from = view.held_a(MANAGER);
        refuse_if(manages_from & over_a == 0 || manages_from & over_b == 0, 9)?;
    } else {
        let [over] = view.over([a]);
        refuse_if(view.held_a(OWNER) & over == 0, 9)?;
    }
    let owned = view.under_all(view.owner_groups(Some(place)), view.all, |_, row| row);
    refuse_if(view.all & !owned != 0, 12)?;
    Ok(Change::SetWarrant {
        place,
        warrant: Warrant::default(),
    })
}

fn grant(view: View, place: u8, rule: Rule) -> Verdict {
    let Rule { u, t, ops, .. } = rule;
    refuse_if(place > 63 || u > 63 || t > 63 || ops == 0, 5)?;
    refuse_if(!view.in_use(u) || !view.in_use(t), 6)?;
    refuse_if(!view.is(u, GROUP) || !view.is(t, GROUP), 7)?;
    refuse_if(view.sheet.rules[at(place)].mark, 8)?;
    let [over_u, over_t, over_sender] = view.over([u, t, view.sender]);
    refuse_if(!view.administers(over_u, over_t), 9)?;
    if has(over_sender, u) {
        let mine = view.rules_with_u_in(over_sender);
        // A rule of his whose T covers this T leaves nothing of its operations to gain.
        let [had] = view.ops_with_t_in(mine, [over_t]);
        refuse_if(view.lacks_under(mine, ops & !had, bit(t)), 10)?;
    }
    Ok(Change::SetRule { place, rule })
}

fn withdraw(view: View, place: u8) -> Verdict {
    refuse_if(place > 63, 5)?;
    let Rule { mark, u, t, .. } = view.sheet.rules[at(place)];
    refuse_if(!mark, 6)?;
    let [over_u, over_t] = view.over_stored([u, t]);
    // Job 1: "WITHDRAW is accepted from a member who administers (U, T) or who owns T."
    let may = view.administers(over_u, over_t) || view.held_a(OWNER) & over_t != 0;
    refuse_if(!may, 9)?;
    let rule = Rule::default();
    Ok(Change::SetRule { place, rule })
}

fn using(view: View, gear: u8, operation: u8) -> Verdict {
    refuse_if(gear > 63 || operation > 7, 5)?;
    refuse_if(!view.in_use(gear), 6)?;
    refuse_if(!view.is(gear, GEAR), 7)?;
    let [over_sender, over_gear] = view.over([view.sender, gear]);
    let rules = &view.sheet.rules;
    let permits =
        |&place: &usize| has(over_sender, rules[place].u) & has(over_gear, rules[place].t);
    match each(wide::rules_with(rules, 1 << operation)).find(permits) {
        Some(place) => Ok(Change::Nothing { cited: place as u8 }),
        None => Err(9),
    }
}
