//! Streams of records from the founding on.

use super::draw::{set_length, Draw, MAKE};
use super::{Rng, CODES};
use crate::sheet::*;

/// What a stream's sheet grows into.
#[derive(Clone, Copy, Debug, PartialEq, Eq)]
pub enum Profile {
    /// A dozen objects, few warrants and rules.
    Sparse,
    /// Some thirty objects.
    Middle,
    /// All tables filled, many memberships and circles.
    Dense,
    /// Long chains of groups.
    Deep,
}

impl Profile {
    pub const ALL: [Profile; 4] = [
        Profile::Sparse,
        Profile::Middle,
        Profile::Dense,
        Profile::Deep,
    ];

    /// How many objects the stream tries to make.
    fn most_objects(self) -> usize {
        match self {
            Profile::Sparse => 14,
            Profile::Middle => 36,
            Profile::Dense => 64,
            Profile::Deep => 62,
        }
    }

    /// How often each kind, 1 to 8, is sent in the hope that it is done.
    fn weights(self) -> [usize; 8] {
        match self {
            Profile::Sparse => [4, 3, 4, 3, 3, 3, 3, 8],
            Profile::Middle => [6, 6, 4, 4, 3, 5, 3, 8],
            Profile::Dense => [9, 12, 3, 6, 2, 10, 2, 8],
            Profile::Deep => [12, 3, 3, 3, 2, 3, 2, 8],
        }
    }
}

/// A stream of well-framed records from the founding on. The judge is asked what each record
/// would get, and the stream follows the sheets that it returns.
pub fn stream(
    rng: &mut Rng,
    profile: Profile,
    count: usize,
    judge: impl Fn(&Sheet, &[u8]) -> Answer,
) -> Vec<Vec<u8>> {
    let mut sheet = Sheet::founding();
    let mut newest_group = 0;
    let mut records = Vec::with_capacity(count);
    while records.len() < count {
        let record = next_record(rng, profile, &sheet, newest_group, &judge);
        let answer = judge(&sheet, &record);
        sheet = answer.sheet;
        if let (0, [8, 0, 1, 0, _, place, GROUP, group]) = (answer.code, &record[..]) {
            if *group == newest_group {
                newest_group = *place;
            }
        }
        records.push(record);
    }
    records
}

/// Garbage now and then; often a record for one pair (kind, code), all pairs alike; otherwise
/// one that should be done. A few drafts are tried, and the last is sent if none fits.
fn next_record(
    rng: &mut Rng,
    profile: Profile,
    sheet: &Sheet,
    newest_group: u8,
    judge: &impl Fn(&Sheet, &[u8]) -> Answer,
) -> Vec<u8> {
    if rng.percent(2) {
        return framed_garbage(rng);
    }
    let (kind, code) = if rng.percent(40) {
        let kind = 1 + rng.below(8);
        (kind, rng.pick(CODES[kind - 1]))
    } else {
        let mut weights = profile.weights();
        if Draw::new(rng, sheet).used().len() >= profile.most_objects() {
            weights[MAKE - 1] = 0;
        }
        (1 + rng.weighted(&weights), 0)
    };
    let mut record = Vec::new();
    for _ in 0..24 {
        let mut draw = Draw::new(rng, sheet);
        if profile == Profile::Deep {
            draw.newest_group = Some(newest_group);
        }
        record = draw.record(kind, code);
        if judge(sheet, &record).code == code {
            break;
        }
    }
    record
}

/// Any bytes after a length field that tells the truth.
pub fn framed_garbage(rng: &mut Rng) -> Vec<u8> {
    let long = rng.percent(3);
    let length = 4 + rng.below(if long { 600 } else { 9 });
    let mut record: Vec<u8> = (0..length).map(|_| rng.byte()).collect();
    match rng.below(4) {
        0 => {}
        1 => record[2] = rng.below(10) as u8,
        _ => {
            record[2] = rng.below(10) as u8;
            record[3] = rng.pick(&[0, 0, 0, 1]);
        }
    }
    set_length(&mut record);
    record
}

/// A torn place: too few bytes left, a length field below 4, or one running past the end.
pub fn torn_tail(rng: &mut Rng) -> Vec<u8> {
    let mut tail: Vec<u8> = (0..1 + rng.below(12)).map(|_| rng.byte()).collect();
    if tail.len() >= 4 {
        let length = if rng.percent(50) {
            rng.below(4)
        } else {
            tail.len() + 1 + rng.below(300)
        };
        tail[..2].copy_from_slice(&(length as u16).to_le_bytes());
    }
    tail
}
