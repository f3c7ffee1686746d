//! The program for turns at one radio: requests and events, framed as document 01's records, on
//! standard input; a line of text for each on standard output.

pub mod sample;

use crate::line::{self, Event, Line};
use crate::plain;
use crate::report::{Next, Reader, MOST_BYTES};
use crate::sheet::{Sheet, NO_RULE};
use std::fmt::Write;

/// The kinds of the events: START has gear and N (lowest byte first), JOIN and LEAVE have a user.
pub const START: u8 = 32;
pub const JOIN: u8 = 33;
pub const LEAVE: u8 = 34;
pub const TICK: u8 = 35;

/// What is printed as the holder of a free radio.
pub const NOBODY: u8 = 255;

/// The event of a record, if it has the kind and the length of one.
pub fn event_of(record: &[u8]) -> Option<Event> {
    match record[2..] {
        [START, 0, gear, low, high] => Some(Event::Start {
            gear,
            n: u16::from_le_bytes([low, high]),
        }),
        [JOIN, 0, user] => Some(Event::Join { user }),
        [LEAVE, 0, user] => Some(Event::Leave { user }),
        [TICK, 0] => Some(Event::Tick),
        _ => None,
    }
}

/// The record of an event.
pub fn record_of(event: Event) -> Vec<u8> {
    match event {
        Event::Start { gear, n } => {
            let [low, high] = n.to_le_bytes();
            vec![7, 0, START, 0, gear, low, high]
        }
        Event::Join { user } => vec![5, 0, JOIN, 0, user],
        Event::Leave { user } => vec![5, 0, LEAVE, 0, user],
        Event::Tick => vec![4, 0, TICK, 0],
    }
}

/// All that the program prints for this input. Requests are judged from the founding on, each
/// event happens on the sheet as it then is, and until a START the line is that of gear 0 with N
/// 0. A torn place ends it.
pub fn text(input: &[u8]) -> String {
    if input.len() > MOST_BYTES {
        return "too long\n".to_string();
    }
    let mut text = String::new();
    let mut reader = Reader::new(input);
    let mut sheet = Sheet::founding();
    let mut queue = line::start(0, 0);
    for index in 0.. {
        let record = match reader.next_record() {
            Next::End => break,
            Next::Torn => {
                add_answer(&mut text, index, plain::TORN, NO_RULE);
                break;
            }
            Next::Record(record) => record,
        };
        if let Some(event) = event_of(record) {
            let code = line::happen(&mut queue, &sheet, event);
            add_line(&mut text, index, code, &Line::of(&queue));
        } else if let [START..=TICK, 0, ..] = record[2..] {
            // The kind of an event, but another length than it has.
            add_answer(&mut text, index, plain::MISFIT, NO_RULE);
        } else {
            let answer = plain::judge(&sheet, record);
            add_answer(&mut text, index, answer.code, answer.cited);
            sheet = answer.sheet;
        }
    }
    text
}

/// Index, code and cited rule.
fn add_answer(text: &mut String, index: usize, code: u8, cited: u8) {
    writeln!(text, "{index} {code} {cited}").expect("a String takes all text");
}

/// Index, code, holder, ticks left, and the waiters in their order.
fn add_line(text: &mut String, index: usize, code: u8, line: &Line) {
    let (holder, left) = match line.turn {
        Some(turn) => (turn.holder, turn.left),
        None => (NOBODY, 0),
    };
    write!(text, "{index} {code} {holder} {left}").expect("a String takes all text");
    for waiter in &line.waiters {
        write!(text, " {waiter}").expect("a String takes all text");
    }
    text.push('\n');
}
