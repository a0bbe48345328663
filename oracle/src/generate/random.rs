//! A small generator of random numbers: the same seed gives the same cases.

use crate::packet::answer::domain::MOST_FIELDS;
use std::ops::RangeInclusive;

/// Lengths that no message has, beside the longest that one has.
pub const TOO_LONG: RangeInclusive<usize> = 65_535..=65_556;

/// Numbers of fields near the most that there is room for.
pub const NEAR_MOST_FIELDS: RangeInclusive<usize> = MOST_FIELDS - 2..=MOST_FIELDS + 2;

/// The same near 64, which was the most before request (vi): it must not be a limit any more.
pub const NEAR_FORMER_MOST_FIELDS: RangeInclusive<usize> = 63..=66;

/// splitmix64.
pub struct Random(u64);

impl Random {
    pub fn new(seed: u64) -> Self {
        Self(seed)
    }

    pub fn next(&mut self) -> u64 {
        self.0 = self.0.wrapping_add(0x9E37_79B9_7F4A_7C15);
        let mut mixed = self.0;
        mixed = (mixed ^ (mixed >> 30)).wrapping_mul(0xBF58_476D_1CE4_E5B9);
        mixed = (mixed ^ (mixed >> 27)).wrapping_mul(0x94D0_49BB_1331_11EB);
        mixed ^ (mixed >> 31)
    }

    /// A number below the limit.
    pub fn below(&mut self, limit: usize) -> usize {
        (self.next() % limit as u64) as usize
    }

    /// A number between the two, both included.
    pub fn between(&mut self, low: usize, high: usize) -> usize {
        low + self.below(high - low + 1)
    }

    /// True once in so many times.
    pub fn one_in(&mut self, times: usize) -> bool {
        self.below(times) == 0
    }

    pub fn pick<T: Copy>(&mut self, from: &[T]) -> T {
        from[self.below(from.len())]
    }

    pub fn byte(&mut self) -> u8 {
        self.next() as u8
    }

    pub fn bytes(&mut self, count: usize) -> Vec<u8> {
        (0..count).map(|_| self.byte()).collect()
    }

    /// Bytes of which none is zero, to fill an output with: then a byte that
    /// was cleared shows as well as one that was not touched.
    pub fn filling(&mut self, count: usize) -> Vec<u8> {
        let start = self.below(255);
        let byte = |place: usize| 1 + ((start + 7 * place) % 255) as u8;
        (0..count).map(byte).collect()
    }

    /// A protocol version.
    pub fn version(&mut self) -> u8 {
        self.pick(&[4, 5])
    }

    /// The length of a message: short mostly, and often one at which some rule
    /// changes its mind.
    pub fn length(&mut self) -> usize {
        match self.below(64) {
            0..36 => self.between(0, 8),
            36..48 => self.between(9, 22),
            48..56 => self.between(23, 29),
            56..60 => self.between(30, 49),
            60..63 => self.pick(&[64, 100, 104]),
            _ => self.pick(&[511, 512, 513, 1024]),
        }
    }

    /// A number of fields: mostly near the most, else near what was the most once.
    pub fn many(&mut self) -> usize {
        let near = if self.one_in(3) {
            NEAR_FORMER_MOST_FIELDS
        } else {
            NEAR_MOST_FIELDS
        };
        self.between(*near.start(), *near.end())
    }

    /// A length that no message has.
    pub fn too_long(&mut self) -> usize {
        self.pick(&[65_536, 65_537, 65_540, 66_000, 70_000])
    }
}
