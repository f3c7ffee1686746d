//! The fields of one request, drawn with a sheet in view.

use super::Rng;
use crate::sheet::*;

pub const MAKE: usize = 1;
const PUT: usize = 2;
const TAKE: usize = 3;
const APPOINT: usize = 4;
const DISMISS: usize = 5;
const GRANT: usize = 6;
const WITHDRAW: usize = 7;
const USE: usize = 8;

/// Draws the fields of requests with a sheet in view.
pub struct Draw<'a> {
    rng: &'a mut Rng,
    sheet: &'a Sheet,
    /// Where new objects go, to make long chains.
    pub newest_group: Option<u8>,
}

impl<'a> Draw<'a> {
    pub fn new(rng: &'a mut Rng, sheet: &'a Sheet) -> Draw<'a> {
        Draw {
            rng,
            sheet,
            newest_group: None,
        }
    }

    fn numbers(&self, wanted: impl Fn(u8) -> bool) -> Vec<u8> {
        (0..64)
            .filter(|&x| wanted(self.sheet.sorts[x as usize]))
            .collect()
    }

    pub fn used(&self) -> Vec<u8> {
        self.numbers(|sort| (GROUP..=GEAR).contains(&sort))
    }

    /// One of these, or any number if there is none.
    fn one_of(&mut self, numbers: &[u8]) -> u8 {
        if numbers.is_empty() {
            self.rng.below(64) as u8
        } else {
            self.rng.pick(numbers)
        }
    }

    pub fn of_sort(&mut self, sort: u8) -> u8 {
        let numbers = self.numbers(|s| s == sort);
        self.one_of(&numbers)
    }

    pub fn in_use(&mut self) -> u8 {
        let numbers = self.used();
        self.one_of(&numbers)
    }

    pub fn not_in_use(&mut self) -> u8 {
        let numbers = self.numbers(|sort| !(GROUP..=GEAR).contains(&sort));
        self.one_of(&numbers)
    }

    /// A warrant place in use or not, as asked.
    pub fn warrant_place(&mut self, used: bool) -> u8 {
        let places: Vec<u8> = (0..WARRANTS as u8)
            .filter(|&p| (1..=3).contains(&self.sheet.warrants[p as usize].kind) == used)
            .collect();
        if places.is_empty() {
            self.rng.below(WARRANTS) as u8
        } else {
            self.rng.pick(&places)
        }
    }

    pub fn rule_place(&mut self, used: bool) -> u8 {
        let places: Vec<u8> = (0..RULES as u8)
            .filter(|&p| self.sheet.rules[p as usize].mark == used)
            .collect();
        self.one_of(&places)
    }

    /// Some warrant of one of these kinds that a member holds.
    fn warrant(&mut self, kinds: &[u8]) -> Option<Warrant> {
        let holds = |w: &Warrant| w.holder < 64 && self.sheet.sorts[w.holder as usize] == MEMBER;
        let fitting: Vec<Warrant> = self
            .sheet
            .warrants
            .iter()
            .copied()
            .filter(|w| kinds.contains(&w.kind) && holds(w))
            .collect();
        (!fitting.is_empty()).then(|| self.rng.pick(&fitting))
    }

    /// Most often the holder of a warrant of one of these kinds, else some member.
    fn sender(&mut self, kinds: &[u8]) -> u8 {
        if self.rng.percent(80) {
            if let Some(w) = self.warrant(kinds) {
                return w.holder;
            }
        }
        self.of_sort(MEMBER)
    }

    /// An object and a group; if so asked, a membership that is stored.
    fn pair(&mut self, stored: bool) -> (u8, u8) {
        let group = self.of_sort(GROUP);
        if !stored {
            return (self.in_use(), group);
        }
        let row = self.sheet.members[group as usize];
        let inside: Vec<u8> = (0..64).filter(|&x| row >> x & 1 == 1).collect();
        (self.one_of(&inside), group)
    }

    /// A record of this kind, drawn in the hope that it gets this code.
    pub fn record(&mut self, kind: usize, code: u8) -> Vec<u8> {
        let mut fields = self.fields(kind, code);
        match code {
            4 => fields[0] = self.no_member(),
            5..=7 => self.spoil(kind, code, &mut fields),
            _ => {}
        }
        let mut record = vec![0, 0, kind as u8, 0];
        record.extend(fields);
        if code == 3 {
            let length = 4 + self.rng.below(10);
            record.resize(length, 0);
        }
        set_length(&mut record);
        record
    }

    fn no_member(&mut self) -> u8 {
        match self.rng.below(3) {
            0 => 64 + self.rng.below(192) as u8,
            1 => self.not_in_use(),
            _ => {
                let sort = self.rng.pick(&[GROUP, GEAR]);
                self.of_sort(sort)
            }
        }
    }

    /// The sender and the fields after him: sensible ones, but for code 8.
    fn fields(&mut self, kind: usize, code: u8) -> Vec<u8> {
        let again = code == 8;
        match kind {
            MAKE => self.make(again),
            PUT | TAKE => self.put_or_take((kind == TAKE) != again),
            APPOINT => self.appoint(again, code),
            DISMISS => self.dismiss(),
            GRANT => self.grant(again, code),
            WITHDRAW => self.withdraw(),
            USE => self.using(),
            _ => (0..5).map(|_| self.rng.byte()).collect(),
        }
    }

    fn make(&mut self, again: bool) -> Vec<u8> {
        let sender = self.sender(&[OWNER, MANAGER]);
        let place = if again {
            self.in_use()
        } else {
            self.not_in_use()
        };
        let (group, sort) = match self.newest_group {
            Some(newest) if self.rng.percent(85) => (newest, self.rng.weighted(&[0, 8, 1, 1])),
            _ => (self.of_sort(GROUP), 1 + self.rng.below(3)),
        };
        vec![sender, place, sort as u8, group]
    }

    fn put_or_take(&mut self, stored: bool) -> Vec<u8> {
        let sender = self.sender(&[OWNER, MANAGER, MANAGER]);
        let (mut object, mut group) = self.pair(stored);
        // A chain of groups stays long if groups are seldom put elsewhere or taken out.
        for _ in 0..4 {
            if self.newest_group.is_some() && self.sheet.sorts[object as usize] == GROUP {
                (object, group) = self.pair(stored);
            }
        }
        vec![sender, object, group]
    }

    fn appoint(&mut self, again: bool, code: u8) -> Vec<u8> {
        let place = self.warrant_place(again);
        let kind = 1 + self.rng.weighted(&[1, 3, 3]) as u8;
        let sender = self.sender(&[if kind == ADMINISTRATOR {
            MANAGER
        } else {
            OWNER
        }]);
        let to_self = self.rng.percent(if code == 10 { 80 } else { 15 });
        let holder = if to_self {
            sender
        } else {
            self.of_sort(MEMBER)
        };
        let a = self.of_sort(GROUP);
        let b = if kind == ADMINISTRATOR {
            self.of_sort(GROUP)
        } else {
            0
        };
        vec![sender, place, kind, holder, a, b]
    }

    fn dismiss(&mut self) -> Vec<u8> {
        let place = self.warrant_place(true);
        let kind = self.sheet.warrants[place as usize].kind;
        let sender = self.sender(&[if kind == ADMINISTRATOR {
            MANAGER
        } else {
            OWNER
        }]);
        vec![sender, place]
    }

    fn grant(&mut self, again: bool, code: u8) -> Vec<u8> {
        let place = self.rule_place(again);
        let (mut sender, mut u, mut t) = (
            self.of_sort(MEMBER),
            self.of_sort(GROUP),
            self.of_sort(GROUP),
        );
        if self.rng.percent(85) {
            if let Some(w) = self.warrant(&[ADMINISTRATOR]) {
                sender = w.holder;
                if self.rng.percent(60) {
                    u = w.a;
                }
                if self.rng.percent(60) {
                    t = w.b;
                }
            }
        }
        let narrow = self.rng.percent(50);
        let ops = if code == 5 && self.rng.percent(30) {
            0
        } else if narrow {
            1 << self.rng.below(8)
        } else {
            1 + self.rng.below(255) as u8
        };
        vec![sender, place, u, t, ops]
    }

    fn withdraw(&mut self) -> Vec<u8> {
        let place = self.rule_place(true);
        vec![self.sender(&[ADMINISTRATOR, OWNER]), place]
    }

    fn using(&mut self) -> Vec<u8> {
        let place = self.rule_place(true);
        let rule = self.sheet.rules[place as usize];
        let has: Vec<u8> = (0..8).filter(|&k| rule.ops >> k & 1 == 1).collect();
        let operation = if has.is_empty() || self.rng.percent(20) {
            self.rng.below(8) as u8
        } else {
            self.rng.pick(&has)
        };
        vec![self.of_sort(MEMBER), self.of_sort(GEAR), operation]
    }

    /// One field made wrong: for code 5 a number off its table, for 6 an empty object or
    /// place, for 7 an object of some other sort.
    fn spoil(&mut self, kind: usize, code: u8, fields: &mut [u8]) {
        let field = 1 + self.rng.below(fields.len() - 1);
        fields[field] = match (code, kind) {
            (5, _) => match self.rng.below(4) {
                0 => 0,
                1 => self.rng.pick(&[4, 8, 32, 64, 255]),
                _ => self.rng.byte(),
            },
            (6, DISMISS) => self.warrant_place(false),
            (6, WITHDRAW) => self.rule_place(false),
            (6, _) => self.not_in_use(),
            _ => self.in_use(),
        };
    }
}

/// Makes the length field tell the truth.
pub fn set_length(record: &mut [u8]) {
    let length = record.len() as u16;
    record[..2].copy_from_slice(&length.to_le_bytes());
}
