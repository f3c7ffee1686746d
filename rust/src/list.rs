//! A list of byte strings and its run from the founding, by any judge. It is handed in as one
//! byte string and the places in it where the records end.

use crate::sheet::{Answer, Sheet, PICTURE};

/// What a list leaves: the code and the cited rule of each record, and the picture of the sheet
/// after the last one.
#[derive(Clone, Debug, PartialEq, Eq)]
pub struct Run {
    pub codes: Vec<u8>,
    pub cited: Vec<u8>,
    pub picture: [u8; PICTURE],
}

/// The records joined, and where each of them ends.
pub fn hand_in(records: &[Vec<u8>]) -> (Vec<u8>, Vec<usize>) {
    let mut end = 0;
    let ends = records.iter().map(|record| {
        end += record.len();
        end
    });
    (records.concat(), ends.collect())
}

/// The record from where the one before it ends up to its own end. It is empty if that is no
/// part of the bytes.
pub fn part(bytes: &[u8], start: usize, end: usize) -> &[u8] {
    bytes.get(start..end).unwrap_or(&[])
}

/// Each record judged on the sheet that the judge returned for the one before, the first on the
/// founding.
pub fn run(bytes: &[u8], ends: &[usize], judge: impl Fn(&Sheet, &[u8]) -> Answer) -> Run {
    let mut sheet = Sheet::founding();
    let (mut codes, mut cited) = (Vec::new(), Vec::new());
    let mut start = 0;
    for &end in ends {
        let answer = judge(&sheet, part(bytes, start, end));
        codes.push(answer.code);
        cited.push(answer.cited);
        sheet = answer.sheet;
        start = end;
    }
    Run {
        codes,
        cited,
        picture: sheet.picture(),
    }
}
