//! Cards that no writer produces for a sound sheet.

use super::{of_no_use, sound, spoilt, Fault, Fill, Plan};
use crate::card::{self, record, MEMBERSHIP, OBJECT, RULE, WARRANT};
use crate::generate::draw::Draw;
use crate::generate::Rng;
use crate::report::{Next, Reader};
use crate::sheet::*;

/// What is wrong with a card. Every other record on it is as the writer of a sound sheet has it.
#[derive(Clone, Copy, Debug, PartialEq, Eq)]
pub enum Damage {
    /// A record stands twice, side by side or apart; two neighbours have changed places; the
    /// records of two kinds have.
    Twice,
    TwiceApart,
    Exchanged,
    KindsExchanged,
    /// A record of an empty place: sort 0, sort above 3, kind 0, kind above 3.
    NoSort,
    UnknownSort,
    NoWarrant,
    UnknownWarrant,
    /// A record of no kind that a card has.
    UnknownRecord,
    /// A number or place past its table.
    PastObject,
    PastMembershipOf,
    PastMembershipIn,
    PastWarrant,
    PastRule,
    /// Operation set 0; B of an owner or manager isn't 0.
    NoOperation,
    UnreadB,
    /// A field of the frame is off: the length's high byte, its low byte, the kind's high byte.
    LengthHigh,
    LengthLow,
    KindHigh,
    /// A byte more or less in a record whose length field tells the truth.
    Longer,
    Shorter,
    /// A byte is lost, or one has come in, between the frames.
    Lost,
    Strewn,
    /// The one owner's warrant, or the record of an object that others name, is missing.
    NoOwner,
    NoObject,
    /// A whole file of a sheet that isn't sound.
    Unsound,
    /// A file with a file behind it.
    TwoFiles,
}

impl Damage {
    pub const ALL: [Damage; 27] = [
        Damage::Twice,
        Damage::TwiceApart,
        Damage::Exchanged,
        Damage::KindsExchanged,
        Damage::NoSort,
        Damage::UnknownSort,
        Damage::NoWarrant,
        Damage::UnknownWarrant,
        Damage::UnknownRecord,
        Damage::PastObject,
        Damage::PastMembershipOf,
        Damage::PastMembershipIn,
        Damage::PastWarrant,
        Damage::PastRule,
        Damage::NoOperation,
        Damage::UnreadB,
        Damage::LengthHigh,
        Damage::LengthLow,
        Damage::KindHigh,
        Damage::Longer,
        Damage::Shorter,
        Damage::Lost,
        Damage::Strewn,
        Damage::NoOwner,
        Damage::NoObject,
        Damage::Unsound,
        Damage::TwoFiles,
    ];
}

/// The records of a file.
pub fn records(file: &[u8]) -> Vec<Vec<u8>> {
    let mut records = Vec::new();
    let mut reader = Reader::new(file);
    while let Next::Record(record) = reader.next_record() {
        records.push(record.to_vec());
    }
    records
}

/// A card with this damage. The sheet under it has one owner's warrant, and a place free in each
/// table.
pub fn damaged(rng: &mut Rng, damage: Damage) -> Vec<u8> {
    let large = rng.percent(20);
    let plan = Plan {
        objects: 4 + rng.below(if large { 59 } else { 8 }),
        roots: 1,
        more: rng.pick(&[0, 5, 30]),
        warrants: 1 + rng.below(if large { WARRANTS - 1 } else { 4 }),
        kinds: &[MANAGER, ADMINISTRATOR],
        rules: 1 + rng.below(if large { RULES - 2 } else { 4 }),
    };
    let sheet = plan.sheet(rng);
    let mut records = records(&card::file(&sheet));
    match damage {
        Damage::Unsound => {
            let fault = rng.pick(&Fault::ALL);
            let [_, sheet] = spoilt(rng, fault);
            return card::file(&sheet);
        }
        Damage::TwoFiles => {
            let fill = rng.pick(&[Fill::Sparse, Fill::Grown]);
            return [records.concat(), card::file(&sound(rng, fill))].concat();
        }
        Damage::Lost | Damage::Strewn => {
            let mut card = records.concat();
            // Not the last byte: then the card would be cut short.
            let at = rng.below(card.len() - 1);
            if damage == Damage::Lost {
                card.remove(at);
            } else {
                card.insert(at, rng.byte());
            }
            return card;
        }
        Damage::Twice | Damage::TwiceApart | Damage::Exchanged | Damage::KindsExchanged => {
            disorder(rng, &mut records, damage)
        }
        Damage::NoOwner => records.retain(|r| (r[2], r[5]) != (WARRANT, OWNER)),
        Damage::NoObject => {
            // Each object but the root has a membership; the owner's warrant names the root.
            records.remove(rng.below(plan.objects));
        }
        Damage::LengthHigh
        | Damage::LengthLow
        | Damage::KindHigh
        | Damage::Longer
        | Damage::Shorter => {
            let at = rng.below(records.len());
            misframe(rng, &mut records[at], damage);
        }
        _ => {
            records.push(astray(rng, &sheet, damage));
            // To where it belongs by kind, then by number or place.
            records.sort_by_key(|r| (r[3], r[2], r[4], r[5]));
        }
    }
    records.concat()
}

fn disorder(rng: &mut Rng, records: &mut Vec<Vec<u8>>, damage: Damage) {
    let at = rng.below(records.len());
    match damage {
        Damage::Twice => records.insert(at, records[at].clone()),
        Damage::TwiceApart => {
            let other = rng.below(records.len() + 1);
            records.insert(other, records[at].clone());
        }
        Damage::Exchanged => {
            let at = rng.below(records.len() - 1);
            records.swap(at, at + 1);
        }
        _ => {
            let first = OBJECT + rng.below(3) as u8;
            let then = first + 1 + rng.below((RULE - first) as usize) as u8;
            let place = |kind| match kind {
                kind if kind == first => then,
                kind if kind == then => first,
                kind => kind,
            };
            records.sort_by_key(|r| place(r[2]));
        }
    }
}

fn misframe(rng: &mut Rng, record: &mut Vec<u8>, damage: Damage) {
    match damage {
        Damage::LengthHigh => record[1] = rng.pick(&[1, 1, 2, 128, 255]),
        Damage::LengthLow => {
            let off = 1 + rng.below(255) as u8;
            record[0] = record[0].wrapping_add(off);
        }
        Damage::KindHigh => record[3] = rng.pick(&[1, 1, 2, 128, 255]),
        Damage::Longer => {
            record.push(rng.pick(&[0, 1, 255]));
            record[0] += 1;
        }
        _ => {
            record.pop();
            record[0] -= 1;
        }
    }
}

/// A record of what no sound sheet has in use. Its other fields are right ones.
fn astray(rng: &mut Rng, sheet: &Sheet, damage: Damage) -> Vec<u8> {
    let mut draw = Draw::new(rng, sheet);
    let (empty, used) = (draw.not_in_use(), draw.in_use());
    let (place, rule) = (draw.warrant_place(false), draw.rule_place(false));
    let (member, group) = (draw.of_sort(MEMBER), draw.of_sort(GROUP));
    let past = |rng: &mut Rng, right: u8, places: u8| match rng.below(3) {
        0 => rng.pick(&[places, 255]),
        1 => right | rng.pick(&[64, 128, 192]),
        _ => places + rng.below(256 - places as usize) as u8,
    };
    let unknown = loop {
        let unknown = of_no_use(rng);
        if unknown != 0 {
            break unknown;
        }
    };
    match damage {
        Damage::NoSort => record(OBJECT, &[empty, 0]),
        Damage::UnknownSort => record(OBJECT, &[empty, unknown]),
        Damage::NoWarrant => record(WARRANT, &[place, 0, member, group, 0]),
        Damage::UnknownWarrant => record(WARRANT, &[place, unknown, member, group, 0]),
        Damage::UnknownRecord => {
            let kind = rng.pick(&[0, 1, 8, 15, 20, 21, 32, 255]);
            let lengths = [
                &[used, group][..],
                &[place, MANAGER, member, group, 0],
                &[rule, group, group, 1],
            ];
            let fields = rng.pick(&lengths);
            record(kind, fields)
        }
        Damage::PastObject => record(
            OBJECT,
            &[past(rng, empty, 64), rng.pick(&[GROUP, MEMBER, GEAR])],
        ),
        Damage::PastMembershipOf => record(MEMBERSHIP, &[past(rng, used, 64), group]),
        Damage::PastMembershipIn => record(MEMBERSHIP, &[used, past(rng, group, 64)]),
        Damage::PastWarrant => record(WARRANT, &[past(rng, place, 32), MANAGER, member, group, 0]),
        Damage::PastRule => record(RULE, &[past(rng, rule, 64), group, group, 1]),
        Damage::NoOperation => record(RULE, &[rule, group, group, 0]),
        _ => {
            let (kind, b) = (rng.pick(&[OWNER, MANAGER]), 1 + rng.below(255) as u8);
            record(WARRANT, &[place, kind, member, group, b])
        }
    }
}

/// A card with a few of its bytes and records changed, lost or moved. It may be a file all the
/// same.
pub fn changed_card(rng: &mut Rng, card: &[u8]) -> Vec<u8> {
    let mut card = card.to_vec();
    for _ in 0..1 + rng.below(3) {
        if rng.percent(40) {
            let mut records = records(&card);
            if records.is_empty() {
                records.push(record(OBJECT, &[rng.below(64) as u8, GROUP]));
            }
            match rng.below(3) {
                0 => drop(records.remove(rng.below(records.len()))),
                1 if records.len() > 1 => disorder(rng, &mut records, Damage::Exchanged),
                _ => disorder(rng, &mut records, Damage::TwiceApart),
            }
            card = records.concat();
        } else if !card.is_empty() {
            let at = rng.below(card.len());
            match rng.below(4) {
                0 => card.truncate(at),
                1 => card.insert(at, rng.below(20) as u8),
                2 => card[at] = rng.byte(),
                _ => card[at] = card[at].wrapping_add(rng.pick(&[1, 255])),
            }
        }
    }
    card
}
