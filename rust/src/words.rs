//! Small words for sets: a number below 64 is a bit of a 64-bit set.

use crate::sheet::{ADMINISTRATOR, GEAR, GROUP, OBJECTS, OWNER};

#[inline(always)]
pub fn refuse_if(applies: bool, code: u8) -> Result<(), u8> {
    if applies {
        Err(code)
    } else {
        Ok(())
    }
}

/// An object's number as an index; callers have it below 64.
#[inline(always)]
pub fn at(x: u8) -> usize {
    x as usize % 64
}

#[inline(always)]
pub fn bit(x: u8) -> u64 {
    1 << (x % 64)
}

/// Is the number in the set? A number outside the table is in none.
#[inline(always)]
pub fn has(set: u64, x: u8) -> bool {
    (x < 64) & (set >> (x % 64) & 1 == 1)
}

/// Every number if so, and none if not.
#[inline(always)]
pub fn all_if(so: bool) -> u64 {
    (so as u64).wrapping_neg()
}

#[inline(always)]
pub fn is_sort(sort: u8) -> bool {
    (GROUP..=GEAR).contains(&sort)
}

#[inline(always)]
pub fn is_kind(kind: u8) -> bool {
    (OWNER..=ADMINISTRATOR).contains(&kind)
}

/// The numbers in a set, lowest first.
#[inline(always)]
pub fn each(mut set: u64) -> impl Iterator<Item = usize> {
    std::iter::from_fn(move || {
        if set == 0 {
            return None;
        }
        let lowest = set.trailing_zeros() as usize;
        set &= set - 1;
        Some(lowest)
    })
}

/// The same bits with rows and columns exchanged: bit g of row x is bit x of row g. Square blocks
/// off the diagonal change places, from the largest to single bits.
pub fn turned(mut rows: [u64; OBJECTS]) -> [u64; OBJECTS] {
    let mut width = OBJECTS / 2;
    let mut low = u64::MAX >> width;
    while width > 0 {
        for first in (0..OBJECTS).step_by(2 * width) {
            for upper in first..first + width {
                let lower = upper + width;
                let differ = (rows[upper] >> width ^ rows[lower]) & low;
                rows[upper] ^= differ << width;
                rows[lower] ^= differ;
            }
        }
        width /= 2;
        low ^= low << width;
    }
    rows
}

#[cfg(test)]
mod tests {
    use super::*;
    use crate::generate::Rng;

    /// Turned, a set of objects for each group is a set of groups for each object.
    #[test]
    fn rows_are_turned() {
        let mut rng = Rng::new(22);
        for _ in 0..200 {
            let rows = std::array::from_fn(|_| rng.word());
            for (x, groups) in turned(rows).into_iter().enumerate() {
                for (g, objects) in rows.iter().enumerate() {
                    assert_eq!(groups >> g & 1, objects >> x & 1);
                }
            }
        }
    }
}
