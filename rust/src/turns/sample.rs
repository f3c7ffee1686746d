//! The input that is stored in `crates/queue_run/stdin`: a club and its radio, told record by
//! record.

use super::record_of;
use crate::line::Event::*;
use crate::sheet::*;

// The club's objects besides the founder, 1, and his group, 0.
const OPERATORS: u8 = 2;
const SHACK: u8 = 3;
const RADIO: u8 = 4;
const SPARE: u8 = 5;
const KEEPER: u8 = 6;
const CLERK: u8 = 7;
/// Eleven members, the first ten of them operators.
const ANN: u8 = 10;
const BEN: u8 = 11;
const CLEO: u8 = 12;
const DAN: u8 = 13;
const EVE: u8 = 14;
const FAY: u8 = 15;
const GUS: u8 = 16;
const HAL: u8 = 17;
const IDA: u8 = 18;
const JAN: u8 = 19;
const KIM: u8 = 20;

/// A number on the table at which nothing is made.
const EMPTY: u8 = 40;

/// Operation 2, transmit, as a set.
const TRANSMIT: u8 = 4;

/// Each step of the sample and what it is to show. The last one is torn.
pub fn steps() -> Vec<(&'static str, Vec<u8>)> {
    let mut steps = club();
    steps.extend(before_a_start());
    steps.extend(first_turns());
    steps.extend(a_full_line());
    steps.extend(permits_end());
    steps.extend(a_second_start());
    steps.extend(other_gear());
    steps.extend(the_longest_turn());
    steps.extend(wrong_records());
    steps
}

/// The bytes of the stored input.
pub fn input() -> Vec<u8> {
    let records: Vec<Vec<u8>> = steps().into_iter().map(|(_, record)| record).collect();
    records.concat()
}

fn request(kind: u8, fields: &[u8]) -> Vec<u8> {
    let mut record = vec![4 + fields.len() as u8, 0, kind, 0];
    record.extend(fields);
    record
}

fn make(place: u8, sort: u8, group: u8) -> Vec<u8> {
    request(1, &[1, place, sort, group])
}

fn put(object: u8, group: u8) -> Vec<u8> {
    request(2, &[1, object, group])
}

fn take(object: u8, group: u8) -> Vec<u8> {
    request(3, &[1, object, group])
}

fn appoint(sender: u8, place: u8, kind: u8, holder: u8, a: u8, b: u8) -> Vec<u8> {
    request(4, &[sender, place, kind, holder, a, b])
}

fn start(gear: u8, n: u16) -> Vec<u8> {
    record_of(Start { gear, n })
}

fn join(user: u8) -> Vec<u8> {
    record_of(Join { user })
}

fn leave(user: u8) -> Vec<u8> {
    record_of(Leave { user })
}

fn tick() -> Vec<u8> {
    record_of(Tick)
}

type Steps = Vec<(&'static str, Vec<u8>)>;

fn club() -> Steps {
    let mut steps = vec![
        ("the operators", make(OPERATORS, GROUP, 0)),
        ("the shack", make(SHACK, GROUP, 0)),
        ("the radio stands in it", make(RADIO, GEAR, SHACK)),
        ("a spare stands elsewhere", make(SPARE, GEAR, 0)),
        ("the keeper", make(KEEPER, MEMBER, 0)),
        ("the clerk", make(CLERK, MEMBER, 0)),
    ];
    steps.extend((ANN..=KIM).map(|member| ("a member", make(member, MEMBER, 0))));
    steps.extend((ANN..=JAN).map(|member| ("an operator", put(member, OPERATORS))));
    steps.extend([
        (
            "the keeper manages the club",
            appoint(1, 1, MANAGER, KEEPER, 0, 0),
        ),
        (
            "the clerk administers operators and shack",
            appoint(KEEPER, 2, ADMINISTRATOR, CLERK, OPERATORS, SHACK),
        ),
        ("operators transmit", grant()),
        ("a use is permitted", request(8, &[ANN, RADIO, 2])),
        ("a use that is not permitted", request(8, &[KIM, RADIO, 2])),
    ]);
    steps
}

fn grant() -> Vec<u8> {
    request(6, &[CLERK, 0, OPERATORS, SHACK, TRANSMIT])
}

fn before_a_start() -> Steps {
    vec![
        ("a tick at a free radio", tick()),
        ("nobody leaves", leave(ANN)),
        ("7: the line is that of object 0, a group", join(ANN)),
    ]
}

fn first_turns() -> Steps {
    vec![
        ("turns of three ticks", start(RADIO, 3)),
        ("4: a number past the table", join(64)),
        ("4: an empty object", join(EMPTY)),
        ("4: a group", join(OPERATORS)),
        ("9: no operator", join(KIM)),
        ("the radio is free, so he has it", join(ANN)),
        ("15: he holds it", join(ANN)),
        ("the first to wait", join(BEN)),
        ("the second", join(CLEO)),
        ("15: he waits", join(BEN)),
        ("the first tick of the turn", tick()),
        ("the second", tick()),
        ("the third ends it, and the next has three", tick()),
        ("one more waits", join(DAN)),
        ("a waiter leaves", leave(CLEO)),
        ("he is gone", leave(CLEO)),
        ("no member leaves", leave(255)),
        ("the holder leaves, and the next has it", leave(BEN)),
        ("the last leaves, and it is free", leave(DAN)),
        ("a tick at a free radio", tick()),
    ]
}

fn a_full_line() -> Steps {
    let mut steps: Steps = (ANN..=IDA)
        .map(|user| ("one holds and eight wait", join(user)))
        .collect();
    steps.extend([
        ("16: the line is full", join(JAN)),
        ("15 comes before 16", join(IDA)),
        ("9 comes before 16", join(KIM)),
        ("one of the middle leaves", leave(EVE)),
        ("so there is a place", join(JAN)),
        ("and it is full again", join(EVE)),
    ]);
    steps
}

fn permits_end() -> Steps {
    vec![
        ("the holder is no operator now", take(ANN, OPERATORS)),
        ("he keeps his turn", tick()),
        ("9, and not 15, when he joins again", join(ANN)),
        ("the first waiter is none either", take(BEN, OPERATORS)),
        ("nor is the second", take(CLEO, OPERATORS)),
        ("9 though he waits", join(BEN)),
        ("a tick without a call strikes nobody", tick()),
        ("both are struck, and the third has it", tick()),
        ("one of them is an operator again", put(BEN, OPERATORS)),
        ("he is at the end of the line", join(BEN)),
        ("nobody may transmit", request(7, &[CLERK, 0])),
        (
            "all else operators may",
            request(6, &[CLERK, 1, OPERATORS, SHACK, !TRANSMIT]),
        ),
        ("the holder keeps his turn", tick()),
        ("he leaves: the call finds nobody", leave(DAN)),
        ("9: nobody may", join(EVE)),
        ("operators may transmit again", grant()),
        ("those who were struck are not there", leave(FAY)),
        ("the free radio is taken", join(FAY)),
        ("and one waits", join(GUS)),
    ]
}

fn a_second_start() -> Steps {
    vec![
        ("the line anew; N of 0 counts as 1", start(RADIO, 0)),
        ("one holds", join(FAY)),
        ("one waits", join(GUS)),
        ("another waits", join(HAL)),
        ("each tick ends a turn", tick()),
        ("the radio is out of the shack", put(RADIO, 0)),
        ("and not in it", take(RADIO, SHACK)),
        ("the call at the tick finds nobody", tick()),
        ("9: no rule covers it", join(HAL)),
        ("it is in the shack again", put(RADIO, SHACK)),
    ]
}

fn other_gear() -> Steps {
    vec![
        ("a line for no number of the table", start(64, 5)),
        ("5: gear 64", join(BEN)),
        ("4 comes before 5", join(200)),
        ("a line for an empty object", start(EMPTY, 5)),
        ("6: nothing is there", join(BEN)),
        ("a line for a member", start(KIM, 5)),
        ("7: no gear", join(BEN)),
        ("a line for the spare", start(SPARE, 5)),
        ("9: no rule covers it", join(BEN)),
    ]
}

fn the_longest_turn() -> Steps {
    vec![
        ("N of 601 counts as 600", start(RADIO, 601)),
        ("600 ticks are left", join(HAL)),
        ("599 are left", tick()),
        ("N of 65535 too", start(RADIO, 65535)),
        ("600 ticks are left", join(IDA)),
        ("one waits", join(HAL)),
        ("599 are left", tick()),
    ]
}

fn wrong_records() -> Steps {
    vec![
        ("2: a kind of nobody's", vec![5, 0, 36, 0, ANN]),
        ("2: the kind's high byte counts", vec![4, 0, super::TICK, 1]),
        ("2: kind 0", vec![4, 0, 0, 0]),
        ("3: a TICK with a field", vec![5, 0, super::TICK, 0, 0]),
        ("3: a JOIN without a user", vec![4, 0, super::JOIN, 0]),
        ("3: a LEAVE of two", vec![6, 0, super::LEAVE, 0, IDA, HAL]),
        (
            "3: a START with half an N",
            vec![6, 0, super::START, 0, RADIO, 3],
        ),
        (
            "3: a USE without an operation",
            vec![6, 0, 8, 0, IDA, RADIO],
        ),
        ("none of them altered the line", tick()),
        (
            "torn: a JOIN that lacks its user",
            vec![5, 0, super::JOIN, 0],
        ),
    ]
}
