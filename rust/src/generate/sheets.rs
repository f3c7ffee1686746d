//! Single requests on sheets of any value.

use super::draw::Draw;
use super::streams::{framed_garbage, stream, Profile};
use super::Rng;
use crate::fast;
use crate::sheet::*;

/// A sheet of any value: sensible, with junk strewn in, or pure junk. Small spans of numbers
/// make the tables meet often.
pub fn sheet(rng: &mut Rng) -> Sheet {
    if rng.percent(5) {
        return pure_junk(rng);
    }
    if rng.percent(10) {
        return grown_and_spoilt(rng);
    }
    let span = rng.pick(&[3, 5, 8, 16, 40, 64]);
    let junk = rng.pick(&[0, 0, 2, 10, 40]);
    let mut sheet = Sheet::empty();
    fill_objects(rng, &mut sheet, span, junk);
    fill_warrants(rng, &mut sheet, span, junk);
    fill_rules(rng, &mut sheet, span, junk);
    if rng.percent(50) {
        own_everything(rng, &mut sheet);
    }
    sheet
}

/// A picture of any sheet value, in which the marks of empty rule places are at times other
/// bytes than 0.
pub fn picture(rng: &mut Rng) -> [u8; PICTURE] {
    let sheet = sheet(rng);
    picture_of(rng, &sheet)
}

/// A picture of this sheet, with marks as above.
pub fn picture_of(rng: &mut Rng, sheet: &Sheet) -> [u8; PICTURE] {
    let mut picture = sheet.picture();
    let spoilt = rng.pick(&[0, 20, 100]);
    for rule in picture[PICTURE - 4 * RULES..].chunks_mut(4) {
        if rule[0] == 0 && rng.percent(spoilt) {
            rule[0] = rng.pick(&[2, 3, 128, 129, 255, 254]);
        }
    }
    picture
}

fn pure_junk(rng: &mut Rng) -> Sheet {
    let mut picture = [0; PICTURE];
    for byte in &mut picture {
        *byte = rng.byte();
    }
    Sheet::from_picture(&picture)
}

/// The sheet at the end of a stream, with some bytes of its picture changed.
fn grown_and_spoilt(rng: &mut Rng) -> Sheet {
    let profile = rng.pick(&Profile::ALL);
    let count = rng.below(200);
    let mut sheet = Sheet::founding();
    for record in stream(rng, profile, count, fast::judge) {
        fast::judge_in_place(&mut sheet, &record);
    }
    if rng.percent(50) {
        lift_one_number(rng, &mut sheet);
        return sheet;
    }
    let mut picture = sheet.picture();
    for _ in 0..rng.pick(&[0, 5, 30, 100]) {
        let at = rng.below(PICTURE);
        picture[at] = match rng.below(3) {
            0 => lifted(rng, picture[at]),
            1 => rng.below(5) as u8,
            _ => rng.byte(),
        };
    }
    Sheet::from_picture(&picture)
}

/// The number made too high by 64, 128 or 192.
fn lifted(rng: &mut Rng, number: u8) -> u8 {
    number | rng.pick(&[64, 128, 192])
}

/// One stored number of a warrant or rule in use lifted off its table.
fn lift_one_number(rng: &mut Rng, sheet: &mut Sheet) {
    let mut draw = Draw::new(rng, sheet);
    let (w, r) = (draw.warrant_place(true), draw.rule_place(true));
    let (warrant, rule) = (
        &mut sheet.warrants[w as usize],
        &mut sheet.rules[r as usize],
    );
    let number = match rng.below(5) {
        0 => &mut warrant.holder,
        1 => &mut warrant.a,
        2 => &mut warrant.b,
        3 => &mut rule.u,
        _ => &mut rule.t,
    };
    *number = lifted(rng, *number);
}

/// A number below the span, or now and then one too high by 64, 128 or 192, or any byte.
fn number(rng: &mut Rng, span: usize, junk: usize) -> u8 {
    let number = rng.below(span) as u8;
    if !rng.percent(junk) {
        number
    } else if rng.percent(50) {
        lifted(rng, number)
    } else {
        rng.byte()
    }
}

/// Most often an object of this sort, else a number as above.
fn named(rng: &mut Rng, sheet: &Sheet, sort: u8, span: usize, junk: usize) -> u8 {
    if rng.percent(75) {
        Draw::new(rng, sheet).of_sort(sort)
    } else {
        number(rng, span, junk)
    }
}

fn fill_objects(rng: &mut Rng, sheet: &mut Sheet, span: usize, junk: usize) {
    let sort_weights = rng.pick(&[[1, 4, 4, 4], [4, 4, 4, 4], [1, 8, 2, 2], [0, 3, 3, 1]]);
    for sort in &mut sheet.sorts[..span] {
        *sort = rng.weighted(&sort_weights) as u8;
    }
    let one_in = rng.pick(&[1, 2, 4, 8, 16, 32]);
    for row in &mut sheet.members[..span] {
        for x in 0..span {
            *row |= ((rng.below(one_in * span / 4 + 1) == 0) as u64) << x;
        }
    }
    for x in 0..64 {
        if rng.percent(junk) {
            sheet.sorts[x] = number(rng, 6, 20);
        }
        if rng.percent(junk) {
            sheet.members[x] = rng.word() & rng.word();
        }
    }
}

fn fill_warrants(rng: &mut Rng, sheet: &mut Sheet, span: usize, junk: usize) {
    let used = rng.pick(&[10, 30, 60, 100]);
    for place in 0..WARRANTS {
        if !rng.percent(used) {
            continue;
        }
        let kind = number(rng, 4, junk);
        let b_unread = (kind == OWNER || kind == MANAGER) && !rng.percent(junk);
        sheet.warrants[place] = Warrant {
            kind,
            holder: named(rng, sheet, MEMBER, span, junk),
            a: named(rng, sheet, GROUP, span, junk),
            b: if b_unread {
                0
            } else {
                named(rng, sheet, GROUP, span, junk)
            },
        };
    }
}

fn fill_rules(rng: &mut Rng, sheet: &mut Sheet, span: usize, junk: usize) {
    let used = rng.pick(&[3, 10, 50, 100]);
    let narrow = rng.percent(50);
    for place in 0..RULES {
        if !rng.percent(used) {
            continue;
        }
        sheet.rules[place] = Rule {
            mark: !rng.percent(junk),
            u: named(rng, sheet, GROUP, span, junk),
            t: named(rng, sheet, GROUP, span, junk),
            ops: if narrow {
                rng.byte() & rng.byte() & rng.byte()
            } else {
                rng.byte()
            },
        };
    }
}

/// Makes some member owner of a group that holds everything, so that requests get past the
/// checks on authority and orphans.
fn own_everything(rng: &mut Rng, sheet: &mut Sheet) {
    let mut draw = Draw::new(rng, sheet);
    let (holder, a) = (draw.of_sort(MEMBER), draw.of_sort(GROUP));
    let place = rng.below(WARRANTS);
    sheet.members[a as usize] = u64::MAX;
    sheet.warrants[place] = Warrant {
        kind: OWNER,
        holder,
        a,
        b: 0,
    };
}

/// One request of any bytes for this sheet: most often half sensible, at times pure junk, and
/// at times with a length field that lies.
pub fn request(rng: &mut Rng, sheet: &Sheet) -> Vec<u8> {
    if rng.percent(3) {
        return (0..rng.below(14)).map(|_| rng.byte()).collect();
    }
    if rng.percent(3) {
        return framed_garbage(rng);
    }
    let kind = 1 + rng.below(8);
    let code = if rng.percent(80) {
        rng.pick(&[0, 10, 11, 12])
    } else {
        3 + rng.below(6) as u8
    };
    let mut record = Draw::new(rng, sheet).record(kind, code);
    // A few more drafts, to get past the check on authority.
    for _ in 0..rng.pick(&[0, 2, 6]) {
        if code == 0 || code > 9 {
            let reached = fast::judge(sheet, &record).code;
            if (1..=9).contains(&reached) {
                record = Draw::new(rng, sheet).record(kind, code);
            }
        }
    }
    if rng.percent(2) {
        record[0] = rng.byte();
    }
    if rng.percent(3) {
        let at = rng.below(record.len());
        record[at] = rng.byte();
    }
    record
}
