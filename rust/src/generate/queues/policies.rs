//! Policies that change from one event to the next.

use crate::fast;
use crate::generate::{picture_of, sheet, stream, Profile, Rng};
use crate::sheet::*;

// The objects of a club that takes turns, besides the founder, 1, and his group, 0.
const KEEPER: u8 = 2;
const CLERK: u8 = 3;
const OPERATORS: u8 = 4;
const SHACK: u8 = 5;
pub const RADIO: u8 = 6;
const FIRST: u8 = 10;
const LAST: u8 = 23;

/// A club with one radio and many who may use it, and the requests that set it up.
pub struct Club {
    pub sheet: Sheet,
    pub records: Vec<Vec<u8>>,
}

impl Club {
    /// The club, all of whose members from the first to the last are operators but a few.
    pub fn new(rng: &mut Rng) -> Club {
        let mut club = Club {
            sheet: Sheet::founding(),
            records: Vec::new(),
        };
        for (place, sort) in [(KEEPER, MEMBER), (CLERK, MEMBER), (OPERATORS, GROUP)] {
            club.send(1, &[1, place, sort, 0]);
        }
        club.send(1, &[1, SHACK, GROUP, 0]);
        club.send(1, &[1, RADIO, GEAR, SHACK]);
        club.send(2, &[1, RADIO, 0]);
        club.send(4, &[1, 1, MANAGER, KEEPER, 0, 0]);
        club.send(4, &[KEEPER, 2, ADMINISTRATOR, CLERK, OPERATORS, SHACK]);
        for member in FIRST..=LAST {
            club.send(1, &[1, member, MEMBER, 0]);
            if rng.percent(90) {
                club.send(2, &[1, member, OPERATORS]);
            }
        }
        club.send(6, &[CLERK, 0, OPERATORS, SHACK, 4]);
        club
    }

    /// Sends a request of this kind with these fields, the sender first.
    fn send(&mut self, kind: u8, fields: &[u8]) -> Vec<u8> {
        let mut record = vec![4 + fields.len() as u8, 0, kind, 0];
        record.extend(fields);
        fast::judge_in_place(&mut self.sheet, &record);
        self.records.push(record.clone());
        record
    }

    /// A request that gives or takes a permit, of one member or of all: most often one that is
    /// done.
    pub fn change(&mut self, rng: &mut Rng) -> Vec<u8> {
        let member = FIRST + rng.below((LAST - FIRST + 1) as usize) as u8;
        let operator = self.sheet.members[OPERATORS as usize] >> member & 1 == 1;
        let in_shack = self.sheet.members[SHACK as usize] >> RADIO & 1 == 1;
        let ruled = self.sheet.rules[0].mark;
        // What ends the permits of all is soon mended.
        if !in_shack && rng.percent(70) {
            return self.send(2, &[1, RADIO, SHACK]);
        }
        if !ruled && rng.percent(70) {
            let operations = rng.pick(&[4, 4, 6, 255, 3]);
            return self.send(6, &[CLERK, 0, OPERATORS, SHACK, operations]);
        }
        let no_use = ruled && self.sheet.rules[0].ops & 4 == 0;
        match rng.below(if no_use { 100 } else { 1000 }) {
            0..=29 => self.send(7, &[CLERK, 0]),
            30..=49 => self.send(3, &[1, RADIO, SHACK]),
            _ if operator && rng.percent(60) => self.send(3, &[1, member, OPERATORS]),
            _ if operator => self.send(8, &[member, RADIO, 2]),
            _ => self.send(2, &[1, member, OPERATORS]),
        }
    }
}

/// Where the policies of a list of events come from.
pub enum Policies {
    /// A club whose operators change.
    Club(Box<Club>),
    /// A list of requests of any kind, from the founding on.
    List(Box<Sheet>, std::vec::IntoIter<Vec<u8>>),
    /// Any sheets, each for a few events.
    Any(Box<Sheet>),
}

impl Policies {
    pub fn draw(rng: &mut Rng) -> Policies {
        match rng.below(10) {
            0..=5 => Policies::Club(Box::new(Club::new(rng))),
            6..=7 => {
                let profile = rng.pick(&Profile::ALL);
                let mut records = stream(rng, profile, 700, fast::judge).into_iter();
                let mut sheet = Sheet::founding();
                for record in records.by_ref().take(500) {
                    fast::judge_in_place(&mut sheet, &record);
                }
                Policies::List(Box::new(sheet), records)
            }
            _ => Policies::Any(Box::new(sheet(rng))),
        }
    }

    /// The policy as it is.
    pub fn sheet(&self) -> &Sheet {
        match self {
            Policies::Club(club) => &club.sheet,
            Policies::List(sheet, _) | Policies::Any(sheet) => sheet,
        }
    }

    /// Goes on to the next policy, at times to the same, and gives a picture of it. Now and then
    /// that is of any sheet, for one event.
    pub fn next(&mut self, rng: &mut Rng) -> [u8; PICTURE] {
        if rng.percent(1) {
            let any = sheet(rng);
            return picture_of(rng, &any);
        }
        for _ in 0..rng.pick(&[0, 0, 1, 1, 2, 4]) {
            match self {
                Policies::Club(club) => {
                    club.change(rng);
                }
                Policies::List(sheet, records) => {
                    if let Some(record) = records.next() {
                        fast::judge_in_place(sheet, &record);
                    }
                }
                Policies::Any(kept) if rng.percent(10) => **kept = sheet(rng),
                Policies::Any(_) => {}
            }
        }
        picture_of(rng, self.sheet())
    }
}
