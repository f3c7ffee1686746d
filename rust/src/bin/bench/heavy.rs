//! A policy that is built to be dear: a chain of sixty groups, and all appointments and rules
//! are the sender's, spread over the chain.

use crate::club::{record, NAMES};
use crate::timing::{call, Row, TORN};
use beside::sheet::*;

const ROOT: u8 = 0;
const SENDER: u8 = 1;
/// A gear in the root alone, which no rule covers.
const RADIO: u8 = 2;
/// The groups of the chain; the sender is in the last.
const FIRST: u8 = 3;
const LAST: u8 = 62;

/// The places that are left free.
const OBJECT: u8 = 63;
const WARRANT: u8 = 31;
const RULE: u8 = 63;

fn policy(rules: usize) -> Sheet {
    let mut sheet = Sheet::founding();
    sheet.sorts[RADIO as usize] = GEAR;
    sheet.members[ROOT as usize] = 1 << SENDER | 1 << RADIO | 1 << FIRST;
    for group in FIRST..=LAST {
        sheet.sorts[group as usize] = GROUP;
        sheet.members[group as usize] = 1 << (group + 1);
    }
    sheet.members[LAST as usize] = 1 << SENDER;
    for place in 1..WARRANT {
        let kind = 1 + place % 3;
        let a = if place < 4 { ROOT } else { FIRST + place };
        sheet.warrants[place as usize] = Warrant {
            kind,
            holder: SENDER,
            a,
            b: if kind == ADMINISTRATOR { a } else { 0 },
        };
    }
    for place in 0..rules as u8 {
        let group = FIRST + place % (LAST - FIRST + 1);
        sheet.rules[place as usize] = Rule {
            mark: true,
            u: group,
            t: group,
            ops: 255,
        };
    }
    sheet
}

/// A record of each kind and the code that it gets. No rule permits the USE, but all of them
/// have its operation and the sender under U; all else is done.
fn records() -> [(Vec<u8>, u8); 8] {
    let done = |kind, fields: &[u8]| (record(kind, SENDER, fields), 0);
    [
        done(1, &[OBJECT, MEMBER, LAST]),
        done(2, &[40, 50]),
        done(3, &[SENDER, ROOT]),
        done(4, &[WARRANT, ADMINISTRATOR, SENDER, LAST, LAST]),
        done(5, &[WARRANT - 1]),
        done(6, &[RULE, ROOT, FIRST, 255]),
        done(7, &[0]),
        (record(8, SENDER, &[RADIO, 7]), 9),
    ]
}

/// The chain the other way round, each group in the one of the next number: what goes through the
/// objects from the lowest number on finds one group a round.
fn rising() -> Sheet {
    let mut sheet = policy(0);
    for group in FIRST..=LAST {
        sheet.members[group as usize] = if group == FIRST { 0 } else { 1 << (group - 1) };
    }
    sheet.members[FIRST as usize] = 1 << SENDER;
    sheet.members[ROOT as usize] = 1 << SENDER | 1 << RADIO | 1 << LAST;
    sheet
}

/// An administrator of everything, who has twenty-seven more such appointments, of the groups of
/// the chain and its last one: the object that is put into the last group comes to be under all.
fn pairs() -> Sheet {
    let mut sheet = policy(0);
    for place in 4..WARRANT {
        sheet.warrants[place as usize] = Warrant {
            kind: ADMINISTRATOR,
            holder: SENDER,
            a: FIRST + place,
            b: LAST,
        };
    }
    sheet
}

/// A torn record, a TAKE from the chain the other way round, and a PUT that brings pairs.
pub fn measure_dearest() -> Vec<Row> {
    let row = |name: &str, sheet: Sheet, record: Vec<u8>| Row {
        name: name.into(),
        times: vec![call(&sheet, &TORN, 1), call(&sheet, &record, 0)],
    };
    vec![
        row(
            "TAKE, a chain whose numbers rise",
            rising(),
            record(3, SENDER, &[SENDER, ROOT]),
        ),
        row(
            "PUT, twenty-seven pairs",
            pairs(),
            record(2, SENDER, &[RADIO, LAST]),
        ),
    ]
}

pub fn print_dearest(rows: &[Row]) {
    println!("## The dearest found\n");
    println!("Board / fast on policies that are built for one request each.\n");
    println!("| Request | Time |");
    println!("|---|--:|");
    for row in rows {
        row.print_net();
    }
    println!();
}

/// For each number of rules: a torn record, and one of each kind.
pub fn measure() -> Vec<Row> {
    let row = |rules: usize| {
        let sheet = policy(rules);
        let mut times = vec![call(&sheet, &TORN, 1)];
        times.extend(records().map(|(record, code)| call(&sheet, &record, code)));
        Row {
            name: format!("rules: {rules}"),
            times,
        }
    };
    [1, 8, 16, 32, 63].map(row).into()
}

pub fn print(rows: &[Row]) {
    println!("## A heavy policy\n");
    println!(
        "Board / fast on a policy that is built to be dear: a chain of sixty groups, and 31 \
         appointments and so many rules spread over it, all of them the sender's. No rule permits \
         the USE; all else is done.\n"
    );
    println!("| In use | {} |", NAMES.join(" | "));
    println!("|---|{}", "--:|".repeat(NAMES.len()));
    for row in rows {
        row.print_net();
    }
    println!();
}
