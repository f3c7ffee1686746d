//! The writer and the reader for speed. The writer counts the file's bytes before it writes the
//! first, and turns the memberships from sets of objects into sets of groups, which is their order
//! on a card. The reader goes through the card once and asks of each record to be higher than the
//! one before; so no file has to be written to compare. Neither allocates.

use super::*;
use crate::wide;
use crate::words::{all_if, at, bit, each, has, is_kind, is_sort, turned};

/// As `write`.
pub fn write_fast(sheet: &Sheet, lent: &mut [u8]) -> (u8, usize) {
    let used = Used::on(sheet);
    if !used.sound(sheet) {
        return (DAMAGED, 0);
    }
    let rows = sheet.members.iter();
    let memberships = rows.map(|row| row.count_ones() as usize).sum::<usize>();
    let lengths = [
        OBJECT_LENGTH * used.all.count_ones() as usize,
        MEMBERSHIP_LENGTH * memberships,
        WARRANT_LENGTH * used.warrants.count_ones() as usize,
        RULE_LENGTH * used.rules.count_ones() as usize,
    ];
    let length = lengths.iter().sum();
    let Some(file) = lent.get_mut(..length) else {
        return (SHORT_CARD, 0);
    };
    let (objects, file) = file.split_at_mut(lengths[0]);
    let (memberships, file) = file.split_at_mut(lengths[1]);
    let (warrants, rules) = file.split_at_mut(lengths[2]);

    let records = objects.chunks_exact_mut(OBJECT_LENGTH);
    for (x, out) in each(used.all).zip(records) {
        out.copy_from_slice(&framed::<2, 6>(OBJECT, [x as u8, sheet.sorts[x]]));
    }
    let mut records = memberships.chunks_exact_mut(MEMBERSHIP_LENGTH);
    for (x, groups) in turned(sheet.members).into_iter().enumerate() {
        for (g, out) in each(groups).zip(&mut records) {
            out.copy_from_slice(&framed::<2, 6>(MEMBERSHIP, [x as u8, g as u8]));
        }
    }
    let records = warrants.chunks_exact_mut(WARRANT_LENGTH);
    for (place, out) in each(used.warrants as u64).zip(records) {
        let Warrant { kind, holder, a, b } = sheet.warrants[place % WARRANTS];
        let fields = [place as u8, kind, holder, a, b];
        out.copy_from_slice(&framed::<5, 9>(WARRANT, fields));
    }
    let records = rules.chunks_exact_mut(RULE_LENGTH);
    for (place, out) in each(used.rules).zip(records) {
        let Rule { u, t, ops, .. } = sheet.rules[place % RULES];
        out.copy_from_slice(&framed::<4, 8>(RULE, [place as u8, u, t, ops]));
    }
    (DONE, length)
}

/// A record of `L` bytes with `N` fields.
#[inline(always)]
fn framed<const N: usize, const L: usize>(kind: u8, fields: [u8; N]) -> [u8; L] {
    let mut record = [0; L];
    record[0] = L as u8;
    record[2] = kind;
    record[4..].copy_from_slice(&fields);
    record
}

/// As `read`.
pub fn read_fast(kept: &Sheet, card: &[u8]) -> (u8, Sheet) {
    match rising(card) {
        Some(sheet) if Used::on(&sheet).sound(&sheet) => (DONE, sheet),
        _ => (DAMAGED, *kept),
    }
}

/// The sheet of a card whose records are whole and rise, each for a place on its table and of a
/// sort or kind that is in use.
fn rising(mut card: &[u8]) -> Option<Sheet> {
    let mut sheet = Sheet::empty();
    let mut lowest = 0;
    while let Some([x, sort]) = next_fields(&mut card, OBJECT) {
        if x < lowest || x > 63 || !is_sort(sort) {
            return None;
        }
        lowest = x + 1;
        sheet.sorts[at(x)] = sort;
    }
    let mut lowest = 0;
    while let Some([x, g]) = next_fields(&mut card, MEMBERSHIP) {
        let pair = u16::from_be_bytes([x, g]);
        if pair < lowest || x > 63 || g > 63 {
            return None;
        }
        lowest = pair + 1;
        sheet.members[at(g)] |= bit(x);
    }
    let mut lowest = 0;
    while let Some([place, kind, holder, a, b]) = next_fields(&mut card, WARRANT) {
        if place < lowest || place as usize >= WARRANTS || !is_kind(kind) {
            return None;
        }
        lowest = place + 1;
        sheet.warrants[place as usize] = Warrant { kind, holder, a, b };
    }
    let mut lowest = 0;
    while let Some([place, u, t, ops]) = next_fields(&mut card, RULE) {
        if place < lowest || place as usize >= RULES {
            return None;
        }
        lowest = place + 1;
        let mark = true;
        sheet.rules[place as usize] = Rule { mark, u, t, ops };
    }
    card.is_empty().then_some(sheet)
}

/// The fields of the next record, if it is a whole one of this kind; the card is then what is
/// left behind it.
#[inline(always)]
fn next_fields<const N: usize>(card: &mut &[u8], kind: u8) -> Option<[u8; N]> {
    let (head, left) = card.split_first_chunk::<4>()?;
    let (fields, left) = left.split_first_chunk::<N>()?;
    if u32::from_le_bytes(*head) != u32::from_le_bytes([4 + N as u8, 0, kind, 0]) {
        return None;
    }
    *card = left;
    Some(*fields)
}

/// What is in use on a sheet, as sets.
struct Used {
    groups: u64,
    members: u64,
    all: u64,
    warrants: u32,
    rules: u64,
}

impl Used {
    fn on(sheet: &Sheet) -> Used {
        let [groups, members, gear] = wide::sorts(&sheet.sorts);
        let of_kind = |kind| wide::of_kind(&sheet.warrants, kind);
        Used {
            groups,
            members,
            all: groups | members | gear,
            warrants: of_kind(OWNER) | of_kind(MANAGER) | of_kind(ADMINISTRATOR),
            rules: wide::rules_with(&sheet.rules, 0),
        }
    }

    /// As `sound`.
    fn sound(&self, sheet: &Sheet) -> bool {
        let rows = sheet.members.iter().enumerate();
        let astray = rows.fold(0, |astray, (g, row)| {
            astray | row & !(self.all & all_if(self.groups >> g & 1 == 1))
        });
        let mut right = astray == 0;
        let mut owned = 0;
        for place in each(self.warrants as u64) {
            let Warrant { kind, holder, a, b } = sheet.warrants[place % WARRANTS];
            let b_fits = if kind == ADMINISTRATOR {
                has(self.groups, b)
            } else {
                b == 0
            };
            right &= has(self.members, holder) & has(self.groups, a) & b_fits;
            owned |= bit(a) & all_if(kind == OWNER);
        }
        for place in each(self.rules) {
            let Rule { u, t, ops, .. } = sheet.rules[place % RULES];
            right &= has(self.groups, u) & has(self.groups, t) & (ops != 0);
        }
        right && self.under(owned, &sheet.members) == self.all
    }

    /// All that is under some group of `from`, level by level. Every row lies within what is in
    /// use.
    fn under(&self, from: u64, members: &[u64; OBJECTS]) -> u64 {
        let mut found = from;
        let mut level = from;
        while level != 0 && found != self.all {
            let below = each(level).fold(0, |below, g| below | members[g]);
            level = below & self.groups & !found;
            found |= below;
        }
        found
    }
}

#[cfg(test)]
mod tests {
    use super::*;
    use crate::generate::cards::{self, Damage, Fault, Fill};
    use crate::generate::{self, Rng};

    const PAINT: u8 = 0xa5;

    /// The two writers give the same into a buffer of this length, and leave it the same.
    fn assert_written_alike(sheet: &Sheet, length: usize) -> (u8, usize) {
        let mut buffers = [vec![PAINT; length], vec![PAINT; length]];
        let result = write(sheet, &mut buffers[0]);
        assert_eq!(write_fast(sheet, &mut buffers[1]), result, "{sheet:?}");
        assert!(buffers[0] == buffers[1], "{sheet:?}");
        result
    }

    fn assert_read_alike(kept: &Sheet, card: &[u8]) -> u8 {
        let answer = read(kept, card);
        assert!(read_fast(kept, card) == answer, "{card:?}");
        answer.0
    }

    /// The fast pair does what the plain one does: on sound sheets, on sheets with one fault and
    /// of any value, in buffers that fit and that don't, and on cards whole and damaged.
    #[test]
    fn the_fast_pair_means_the_plain_one() {
        let mut rng = Rng::new(21);
        let mut codes = [0; 15];
        let kept = Sheet::founding();
        for _ in 0..150 {
            for fill in Fill::ALL {
                let sheet = cards::sound_with_junk(&mut rng, fill);
                let length = file(&sheet).len();
                for room in [0, length.saturating_sub(1), length, length + 9] {
                    codes[assert_written_alike(&sheet, room).0 as usize] += 1;
                }
                codes[assert_read_alike(&kept, &file(&sheet)) as usize] += 1;
                let card = cards::changed_card(&mut rng, &file(&sheet));
                codes[assert_read_alike(&kept, &card) as usize] += 1;
            }
            for fault in Fault::ALL {
                let [_, sheet] = cards::spoilt(&mut rng, fault);
                codes[assert_written_alike(&sheet, LARGEST).0 as usize] += 1;
                codes[assert_read_alike(&kept, &file(&sheet)) as usize] += 1;
            }
            for damage in Damage::ALL {
                let card = cards::damaged(&mut rng, damage);
                codes[assert_read_alike(&kept, &card) as usize] += 1;
            }
            let any = generate::sheet(&mut rng);
            codes[assert_written_alike(&any, LARGEST).0 as usize] += 1;
            codes[assert_read_alike(&any, &file(&any)) as usize] += 1;
        }
        println!("codes {codes:?}");
        assert!(codes[0] >= 2000 && codes[13] >= 10_000 && codes[14] >= 500);
    }
}
