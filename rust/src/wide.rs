//! The few loops of the fast judge that look at a whole table at once. `loops` says what they
//! mean, one entry after the other, and is what other machines run; on x86-64 the same is done
//! with wide registers. The test below holds the two against each other.
//!
//! The one danger of the `unsafe` here is an instruction that the machine doesn't have: no
//! pointer is used, and every load goes through a checked index or a whole chunk.

use crate::sheet::{Rule, Warrant, OBJECTS, RULES, WARRANTS};

/// All that each start is under: the start itself, and the groups that a chain leads up to.
/// Each start is a set of objects in use; `groups` is the set of groups in use.
#[inline(always)]
pub fn over<const N: usize>(members: &[u64; OBJECTS], groups: u64, starts: [u64; N]) -> [u64; N] {
    #[cfg(target_arch = "x86_64")]
    if std::arch::is_x86_feature_detected!("avx512f") {
        // SAFETY: the machine was asked just now.
        return unsafe { avx512::over(members, groups, starts) };
    }
    climb(groups, starts, |set| touched(members, set))
}

/// Level by level upward until nothing is added; `touched` tells the rows that have something
/// of a set.
#[inline(always)]
fn climb<const N: usize>(groups: u64, starts: [u64; N], touched: impl Fn(u64) -> u64) -> [u64; N] {
    let mut found = starts;
    loop {
        let mut grew = 0;
        for set in &mut found {
            let next = *set | (touched(*set) & groups);
            grew |= next ^ *set;
            *set = next;
        }
        if grew == 0 {
            return found;
        }
    }
}

#[cfg(not(target_arch = "x86_64"))]
use loops::touched;
#[cfg(not(target_arch = "x86_64"))]
pub use loops::{held, of_kind, rules_with, sorts};

#[cfg(target_arch = "x86_64")]
use sse2::safe::touched;
#[cfg(target_arch = "x86_64")]
pub use sse2::safe::{held, of_kind, rules_with, sorts};

/// What the loops mean.
#[cfg(any(test, not(target_arch = "x86_64")))]
mod loops {
    use super::*;

    /// The numbers of the rows that have something of the set.
    pub fn touched(rows: &[u64; OBJECTS], set: u64) -> u64 {
        let mut numbers = 0;
        for (number, row) in rows.iter().enumerate() {
            numbers |= ((row & set != 0) as u64) << number;
        }
        numbers
    }

    /// The objects of sort 1, 2 and 3, each as a set.
    pub fn sorts(sorts: &[u8; OBJECTS]) -> [u64; 3] {
        let mut sets = [0; 3];
        for (x, &sort) in sorts.iter().enumerate() {
            for (set, wanted) in sets.iter_mut().zip(1..) {
                *set |= ((sort == wanted) as u64) << x;
            }
        }
        sets
    }

    /// The places of the warrants of this kind and holder, as a set.
    pub fn held(warrants: &[Warrant; WARRANTS], kind: u8, holder: u8) -> u32 {
        let mut places = 0;
        for (place, w) in warrants.iter().enumerate() {
            places |= ((w.kind == kind && w.holder == holder) as u32) << place;
        }
        places
    }

    /// The places of the warrants of this kind, as a set.
    pub fn of_kind(warrants: &[Warrant; WARRANTS], kind: u8) -> u32 {
        let mut places = 0;
        for (place, w) in warrants.iter().enumerate() {
            places |= ((w.kind == kind) as u32) << place;
        }
        places
    }

    /// The places of the rules in use that have all of these operations, as a set.
    pub fn rules_with(rules: &[Rule; RULES], ops: u8) -> u64 {
        let mut places = 0;
        for (place, r) in rules.iter().enumerate() {
            places |= ((r.mark && r.ops & ops == ops) as u64) << place;
        }
        places
    }
}

/// The same on 128-bit registers, which every x86-64 has.
#[cfg(target_arch = "x86_64")]
mod sse2 {
    use super::*;
    use std::arch::x86_64::*;

    /// A call of a function that names its instructions counts as unsafe wherever they are not
    /// named. SAFETY, of all five: SSE2 is part of x86-64.
    pub mod safe {
        use super::*;

        #[inline(always)]
        pub fn touched(rows: &[u64; OBJECTS], set: u64) -> u64 {
            unsafe { super::touched(rows, set) }
        }

        #[inline(always)]
        pub fn sorts(sorts: &[u8; OBJECTS]) -> [u64; 3] {
            unsafe { super::sorts(sorts) }
        }

        #[inline(always)]
        pub fn held(warrants: &[Warrant; WARRANTS], kind: u8, holder: u8) -> u32 {
            unsafe { super::held(warrants, kind, holder) }
        }

        #[inline(always)]
        pub fn of_kind(warrants: &[Warrant; WARRANTS], kind: u8) -> u32 {
            unsafe { super::of_kind(warrants, kind) }
        }

        #[inline(always)]
        pub fn rules_with(rules: &[Rule; RULES], ops: u8) -> u64 {
            unsafe { super::rules_with(rules, ops) }
        }
    }

    /// Sixteen rows at a time: the halves of each row's part in the set are joined, compared
    /// with zero, and packed to a byte each.
    #[inline]
    #[target_feature(enable = "sse2")]
    fn touched(rows: &[u64; OBJECTS], set: u64) -> u64 {
        let wanted = _mm_set1_epi64x(set as i64);
        let mut missed = 0;
        for block in 0..4 {
            let four = |quarter: usize| four_missed(rows, 16 * block + 4 * quarter, wanted);
            let low = _mm_packs_epi32(four(0), four(1));
            let high = _mm_packs_epi32(four(2), four(3));
            let sixteen = _mm_movemask_epi8(_mm_packs_epi16(low, high));
            missed |= (sixteen as u16 as u64) << (16 * block);
        }
        !missed
    }

    /// All ones in the lane of each of four rows that has nothing of the set. SSE2 compares no
    /// more than 32 bits at once: the low halves of the four rows go to one register, the high
    /// halves to another, and a row has nothing of the set if both halves together are zero.
    #[inline]
    #[target_feature(enable = "sse2")]
    fn four_missed(rows: &[u64; OBJECTS], from: usize, wanted: __m128i) -> __m128i {
        let two = |from: usize| {
            let pair = _mm_set_epi64x(rows[from + 1] as i64, rows[from] as i64);
            _mm_castsi128_ps(_mm_and_si128(pair, wanted))
        };
        let (first, second) = (two(from), two(from + 2));
        let low = _mm_castps_si128(_mm_shuffle_ps::<0b10_00_10_00>(first, second));
        let high = _mm_castps_si128(_mm_shuffle_ps::<0b11_01_11_01>(first, second));
        _mm_cmpeq_epi32(_mm_or_si128(low, high), _mm_setzero_si128())
    }

    #[inline]
    #[target_feature(enable = "sse2")]
    fn sorts(sorts: &[u8; OBJECTS]) -> [u64; 3] {
        let mut sets = [0; 3];
        for (block, sixteen) in sorts.chunks_exact(16).enumerate() {
            let bytes = sixteen_bytes(sixteen);
            for (set, sort) in sets.iter_mut().zip(1..) {
                let equal = _mm_cmpeq_epi8(bytes, _mm_set1_epi8(sort));
                *set |= (_mm_movemask_epi8(equal) as u16 as u64) << (16 * block);
            }
        }
        sets
    }

    #[inline]
    #[target_feature(enable = "sse2")]
    fn sixteen_bytes(bytes: &[u8]) -> __m128i {
        let eight = |from: usize| {
            let part = bytes[from..from + 8].try_into().expect("eight bytes");
            i64::from_le_bytes(part)
        };
        _mm_set_epi64x(eight(8), eight(0))
    }

    #[inline]
    #[target_feature(enable = "sse2")]
    fn held(warrants: &[Warrant; WARRANTS], kind: u8, holder: u8) -> u32 {
        warrants_with(warrants, [255, 255, 0, 0], [kind, holder, 0, 0])
    }

    #[inline]
    #[target_feature(enable = "sse2")]
    fn of_kind(warrants: &[Warrant; WARRANTS], kind: u8) -> u32 {
        warrants_with(warrants, [255, 0, 0, 0], [kind, 0, 0, 0])
    }

    /// The places of the warrants that are as wanted in what the mask leaves of them.
    #[inline]
    #[target_feature(enable = "sse2")]
    fn warrants_with(warrants: &[Warrant; WARRANTS], mask: [u8; 4], wanted: [u8; 4]) -> u32 {
        let lane = |w: &Warrant| i32::from_le_bytes([w.kind, w.holder, w.a, w.b]);
        let mask = _mm_set1_epi32(i32::from_le_bytes(mask));
        let wanted = _mm_set1_epi32(i32::from_le_bytes(wanted));
        let mut places = 0;
        for (block, four) in warrants.chunks_exact(4).enumerate() {
            places |= equal_lanes(four_lanes(four, lane), mask, wanted) << (4 * block);
        }
        places
    }

    #[inline]
    #[target_feature(enable = "sse2")]
    fn rules_with(rules: &[Rule; RULES], ops: u8) -> u64 {
        let lane = |r: &Rule| i32::from_le_bytes([r.mark as u8, r.u, r.t, r.ops]);
        let wanted = _mm_set1_epi32(i32::from_le_bytes([1, 0, 0, ops]));
        let mut places = 0;
        for (block, four) in rules.chunks_exact(4).enumerate() {
            let equal = equal_lanes(four_lanes(four, lane), wanted, wanted);
            places |= (equal as u64) << (4 * block);
        }
        places
    }

    #[inline]
    #[target_feature(enable = "sse2")]
    fn four_lanes<T>(four: &[T], lane: impl Fn(&T) -> i32) -> __m128i {
        _mm_set_epi32(
            lane(&four[3]),
            lane(&four[2]),
            lane(&four[1]),
            lane(&four[0]),
        )
    }

    /// Four bits: which lanes, of what the mask leaves of them, are as wanted.
    #[inline]
    #[target_feature(enable = "sse2")]
    fn equal_lanes(lanes: __m128i, mask: __m128i, wanted: __m128i) -> u32 {
        let equal = _mm_cmpeq_epi32(_mm_and_si128(lanes, mask), wanted);
        _mm_movemask_ps(_mm_castsi128_ps(equal)) as u32
    }
}

/// The upward search on 512-bit registers: the rows are loaded once, eight to a register.
#[cfg(target_arch = "x86_64")]
mod avx512 {
    use super::*;
    use std::arch::x86_64::*;

    #[inline]
    #[target_feature(enable = "avx512f")]
    pub fn over<const N: usize>(
        members: &[u64; OBJECTS],
        groups: u64,
        starts: [u64; N],
    ) -> [u64; N] {
        let rows: [__m512i; 8] = std::array::from_fn(|block| {
            let row = |number: usize| members[8 * block + number] as i64;
            _mm512_setr_epi64(
                row(0),
                row(1),
                row(2),
                row(3),
                row(4),
                row(5),
                row(6),
                row(7),
            )
        });
        climb(groups, starts, |set| {
            let wanted = _mm512_set1_epi64(set as i64);
            let mut numbers = 0;
            for (block, eight) in rows.iter().enumerate() {
                numbers |= (_mm512_test_epi64_mask(*eight, wanted) as u64) << (8 * block);
            }
            numbers
        })
    }
}

#[cfg(test)]
mod tests {
    use super::*;
    use crate::generate::{self, Rng};

    /// Each wide loop does what the plain one says, on the tables of sheets of any value.
    #[test]
    fn wide_loops_mean_the_plain_ones() {
        let mut rng = Rng::new(8);
        for _ in 0..20_000 {
            let sheet = generate::sheet(&mut rng);
            let set = rng.word() & rng.word() & rng.word();
            let (kind, holder) = (rng.below(5) as u8, rng.below(8) as u8);
            let ops = 1 << rng.below(8);
            let rows = &sheet.members;
            assert_eq!(touched(rows, set), loops::touched(rows, set));
            assert_eq!(sorts(&sheet.sorts), loops::sorts(&sheet.sorts));
            assert_eq!(
                held(&sheet.warrants, kind, holder),
                loops::held(&sheet.warrants, kind, holder)
            );
            assert_eq!(
                of_kind(&sheet.warrants, kind),
                loops::of_kind(&sheet.warrants, kind)
            );
            assert_eq!(
                rules_with(&sheet.rules, ops),
                loops::rules_with(&sheet.rules, ops)
            );
            let [groups, ..] = sorts(&sheet.sorts);
            let starts = [1 << rng.below(64), 1 << rng.below(64)];
            assert_eq!(
                over(rows, groups, starts),
                climb(groups, starts, |set| loops::touched(rows, set))
            );
        }
    }
}
