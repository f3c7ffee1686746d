//! The proved board held against the three judges of this package. Where they differ, the
//! records that show it are cut down to those that it needs.

pub mod cards;
pub mod queues;

use crate::list::{self, Run};
use crate::report::{lines, Next, Reader};
use crate::sheet::{Sheet, PICTURE};
use crate::{board, fast, plain, sets};
use std::fmt::Write;

/// The four answers to one record, in the order of their names.
pub struct Answers(pub [board::Answer; 4]);

/// Who answers, in the order of `Answers`.
const NAMES: [&str; 4] = ["board", "plain", "sets", "fast"];

impl Answers {
    pub fn to(picture: &[u8; PICTURE], record: &[u8]) -> Answers {
        let sheet = Sheet::from_picture(picture);
        Answers([
            board::judge(picture, record),
            plain::judge(&sheet, record).into(),
            sets::judge(&sheet, record).into(),
            fast::judge(&sheet, record).into(),
        ])
    }

    pub fn agree(&self) -> bool {
        all_same(&self.0)
    }

    fn line(&self) -> String {
        let mut line = String::new();
        for (name, answer) in NAMES.iter().zip(&self.0) {
            let sheet = if answer.picture == self.0[0].picture {
                "the board's sheet"
            } else {
                "another sheet"
            };
            let (code, cited) = (answer.code, answer.cited);
            write!(line, "   {name} {code} {cited} {sheet}").expect("a String takes all text");
        }
        line
    }
}

/// The answer of all four to one record on the sheet of a picture, or what shows that they
/// differ.
pub fn single(picture: &[u8; PICTURE], record: &[u8]) -> Result<board::Answer, String> {
    let answers = Answers::to(picture, record);
    if answers.agree() {
        return Ok(answers.0[0]);
    }
    let (sheet, record) = (hex(picture), hex(record));
    Err(format!("on the sheet {sheet}\n{record}{}", answers.line()))
}

/// What all four say that an object is under on the sheet of a picture, or what shows that they
/// differ.
pub fn above(picture: &[u8; PICTURE], x: u8) -> Result<u64, String> {
    let sheet = Sheet::from_picture(picture);
    let sets = [
        board::above(picture, x),
        plain::above(&sheet, x),
        sets::above(&sheet, x),
        fast::above(&sheet, x),
    ];
    if all_same(&sets) {
        return Ok(sets[0]);
    }
    let mut message = format!("on the sheet {}\nwhat {x} is under:", hex(picture));
    for (name, set) in NAMES.iter().zip(sets) {
        write!(message, "   {name} {set:#018x}").expect("a String takes all text");
    }
    Err(message)
}

/// Runs a list from the founding, each record on the picture that the board returned for the
/// one before, and hands each record and the answer of all four to `see`.
pub fn each_record(
    records: &[Vec<u8>],
    mut see: impl FnMut(&[u8], &board::Answer),
) -> Result<(), String> {
    let mut picture = board::founding();
    for (index, record) in records.iter().enumerate() {
        let answers = Answers::to(&picture, record);
        if !answers.agree() {
            let needed = shortest(&records[..=index], differ_at_last);
            return Err(show_list(&needed));
        }
        see(record, &answers.0[0]);
        picture = answers.0[0].picture;
    }
    Ok(())
}

/// Do the four differ on the last record of the list, and only there?
fn differ_at_last(records: &[Vec<u8>]) -> bool {
    let mut picture = board::founding();
    for (index, record) in records.iter().enumerate() {
        let answers = Answers::to(&picture, record);
        if !answers.agree() {
            return index + 1 == records.len();
        }
        picture = answers.0[0].picture;
    }
    false
}

/// The records with their four answers, one line for each.
fn show_list(records: &[Vec<u8>]) -> String {
    let mut text = "from the founding\n".to_string();
    let mut picture = board::founding();
    for record in records {
        let answers = Answers::to(&picture, record);
        writeln!(text, "{}{}", hex(record), answers.line()).expect("a String takes all text");
        picture = answers.0[0].picture;
    }
    text
}

/// The lines of all four for these bytes, or what shows that they differ.
pub fn reports(input: &[u8]) -> Result<Vec<u8>, String> {
    let texts_of_all = texts(input);
    if all_same(&texts_of_all) {
        let [board, ..] = texts_of_all;
        return Ok(board);
    }
    let parts = shortest(&parts(input), |parts| !all_same(&texts(&parts.concat())));
    let mut message = "the reports differ on\n".to_string();
    for part in &parts {
        writeln!(message, "{}", hex(part)).expect("a String takes all text");
    }
    for (name, text) in NAMES.iter().zip(texts(&parts.concat())) {
        let text = String::from_utf8_lossy(&text).into_owned();
        write!(message, "{name}:\n{text}").expect("a String takes all text");
    }
    Err(message)
}

/// The run of a list by all four, or what shows that they differ. Ends are left out, from the
/// last on, as long as it still does.
pub fn runs(bytes: &[u8], ends: &[usize]) -> Result<Run, String> {
    let runs_of_all = runs_by_all(bytes, ends);
    if all_same(&runs_of_all) {
        let [board, ..] = runs_of_all;
        return Ok(board);
    }
    let mut count = ends.len();
    while count > 0 && !all_same(&runs_by_all(bytes, &ends[..count - 1])) {
        count -= 1;
    }
    let ends = &ends[..count];
    let mut message = format!(
        "the runs differ on\n{}\nwith the ends {ends:?}\n",
        hex(bytes)
    );
    for (name, run) in NAMES.iter().zip(runs_by_all(bytes, ends)) {
        writeln!(message, "{name}: {run:?}").expect("a String takes all text");
    }
    Err(message)
}

fn runs_by_all(bytes: &[u8], ends: &[usize]) -> [Run; 4] {
    [
        board::run(bytes, ends),
        list::run(bytes, ends, plain::judge),
        list::run(bytes, ends, sets::judge),
        list::run(bytes, ends, fast::judge),
    ]
}

fn all_same<T: PartialEq>(many: &[T]) -> bool {
    many.iter().all(|one| *one == many[0])
}

fn texts(input: &[u8]) -> [Vec<u8>; 4] {
    [
        board::report(input),
        lines(input, plain::judge).into_bytes(),
        lines(input, sets::judge).into_bytes(),
        lines(input, fast::judge).into_bytes(),
    ]
}

/// The records that stand in the bytes, and as the last part what is torn.
fn parts(input: &[u8]) -> Vec<Vec<u8>> {
    let mut parts = Vec::new();
    let mut reader = Reader::new(input);
    let mut read = 0;
    while let Next::Record(record) = reader.next_record() {
        read += record.len();
        parts.push(record.to_vec());
    }
    if read < input.len() {
        parts.push(input[read..].to_vec());
    }
    parts
}

/// Leaves out parts until what is said of the list needs every one that is left.
pub fn shortest(parts: &[Vec<u8>], said: impl Fn(&[Vec<u8>]) -> bool) -> Vec<Vec<u8>> {
    let mut kept = parts.to_vec();
    loop {
        let length = kept.len();
        for index in (0..length).rev() {
            let mut shorter = kept.clone();
            shorter.remove(index);
            if said(&shorter) {
                kept = shorter;
            }
        }
        if kept.len() == length {
            return kept;
        }
    }
}

pub fn hex(bytes: &[u8]) -> String {
    let pairs: Vec<String> = bytes.iter().map(|b| format!("{b:02x}")).collect();
    pairs.join(" ")
}
