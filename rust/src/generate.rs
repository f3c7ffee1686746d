//! Requests and sheets for the tests, the same ones for the same seed: streams of records that
//! follow the sheet as they go, so that every pair (kind, code) comes often, and single
//! requests on sheets of any value, from sensible to pure junk. `cards` has cards, and `queues`
//! the events at a radio.

pub mod cards;
mod draw;
pub mod queues;
mod sheets;
mod streams;

pub use sheets::{picture, picture_of, request, sheet};
pub use streams::{framed_garbage, stream, torn_tail, Profile};

/// Splitmix64: small, and the same on every machine.
pub struct Rng(u64);

impl Rng {
    pub fn new(seed: u64) -> Rng {
        Rng(seed)
    }

    pub fn word(&mut self) -> u64 {
        self.0 = self.0.wrapping_add(0x9e37_79b9_7f4a_7c15);
        let mut z = self.0;
        z = (z ^ (z >> 30)).wrapping_mul(0xbf58_476d_1ce4_e5b9);
        z = (z ^ (z >> 27)).wrapping_mul(0x94d0_49bb_1331_11eb);
        z ^ (z >> 31)
    }

    /// A number below `n`, which isn't 0.
    pub fn below(&mut self, n: usize) -> usize {
        (self.word() >> 11) as usize % n
    }

    pub fn percent(&mut self, p: usize) -> bool {
        self.below(100) < p
    }

    pub fn byte(&mut self) -> u8 {
        self.below(256) as u8
    }

    pub fn pick<T: Copy>(&mut self, from: &[T]) -> T {
        from[self.below(from.len())]
    }

    /// An index, each as likely as its weight says.
    fn weighted(&mut self, weights: &[usize]) -> usize {
        let mut left = self.below(weights.iter().sum());
        for (index, &weight) in weights.iter().enumerate() {
            if left < weight {
                return index;
            }
            left -= weight;
        }
        unreachable!("left is below the sum")
    }
}

/// The codes that each kind, 1 to 8, can get on a list from the founding.
pub const CODES: [&[u8]; 8] = [
    &[0, 3, 4, 5, 6, 7, 8, 9],
    &[0, 3, 4, 5, 6, 7, 8, 9, 10, 11],
    &[0, 3, 4, 5, 6, 7, 8, 9, 12],
    &[0, 3, 4, 5, 6, 7, 8, 9, 10],
    &[0, 3, 4, 5, 6, 9, 12],
    &[0, 3, 4, 5, 6, 7, 8, 9, 10],
    &[0, 3, 4, 5, 6, 9],
    &[0, 3, 4, 5, 6, 7, 9],
];
