//! Inputs of the program for turns.

use super::{event, turn, Club, Mix, RADIO};
use crate::generate::{framed_garbage, torn_tail, Rng};
use crate::line::{self, Event};
use crate::turns;

/// An input of the program: a club is set up, and then requests and events come mixed, with
/// garbage now and then; at times the end is torn.
pub fn input(rng: &mut Rng, count: usize) -> Vec<u8> {
    let mut club = Club::new(rng);
    let mut bytes = club.records.concat();
    let mix = Mix::draw(rng, 1);
    let mut queue = line::start(0, 0);
    if rng.percent(80) {
        let n = turn(rng);
        queue = line::start(RADIO, n);
        bytes.extend(turns::record_of(Event::Start { gear: RADIO, n }));
    }
    for _ in 0..count {
        match rng.below(20) {
            0 => bytes.extend(strange(rng)),
            1..=4 => bytes.extend(club.change(rng)),
            _ => {
                let event = event(rng, mix, &club.sheet, &queue);
                line::fast::happen(&mut queue, &club.sheet.picture(), event);
                bytes.extend(turns::record_of(event));
            }
        }
    }
    if rng.percent(50) {
        bytes.extend(torn_tail(rng));
    }
    bytes
}

/// A whole record that no event has: of another kind or another length.
fn strange(rng: &mut Rng) -> Vec<u8> {
    let mut record = framed_garbage(rng);
    if rng.percent(60) {
        record[2] = turns::START - 1 + rng.below(6) as u8;
        record[3] = rng.pick(&[0, 0, 0, 1]);
    }
    let alters = matches!(
        record[2..],
        [1..=8 | turns::START, 0, ..] | [turns::JOIN | turns::LEAVE, 0, _] | [turns::TICK, 0]
    );
    if alters {
        record[3] = 2;
    }
    record
}
