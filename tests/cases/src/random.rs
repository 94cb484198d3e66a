//! The random source: splitmix64. Every seed is a good one and seeding is one addition, which matters since each case has its own.

use std::cell::Cell;
use std::ops::RangeInclusive;

const STEP: u64 = 0x9e37_79b9_7f4a_7c15;

fn mixed(mut z: u64) -> u64 {
    z = (z ^ (z >> 30)).wrapping_mul(0xbf58_476d_1ce4_e5b9);
    z = (z ^ (z >> 27)).wrapping_mul(0x94d0_49bb_1331_11eb);
    z ^ (z >> 31)
}

/// The state is in a cell, so that one draw can be an argument of another.
#[derive(Clone, Debug)]
pub struct Random {
    state: Cell<u64>,
}

impl Random {
    pub fn new(seed: u64) -> Self {
        Random {
            state: Cell::new(seed),
        }
    }

    /// The source of one case. Mixed twice, so that neighbouring cases and neighbouring seeds share no stretch of numbers.
    pub fn of_case(seed: u64, case: u64) -> Self {
        Random::new(mixed(
            mixed(seed.wrapping_add(STEP)) ^ case.wrapping_mul(STEP),
        ))
    }

    pub fn bits(&self) -> u64 {
        self.state.set(self.state.get().wrapping_add(STEP));
        mixed(self.state.get())
    }

    pub fn word(&self) -> u32 {
        (self.bits() >> 32) as u32
    }

    pub fn byte(&self) -> u8 {
        (self.bits() >> 56) as u8
    }

    /// A number below `bound`, which is not 0.
    pub fn below(&self, bound: usize) -> usize {
        ((u128::from(self.bits()) * bound as u128) >> 64) as usize
    }

    pub fn byte_below(&self, bound: u8) -> u8 {
        self.below(usize::from(bound)) as u8
    }

    pub fn within(&self, range: RangeInclusive<usize>) -> usize {
        range.start() + self.below(range.end() - range.start() + 1)
    }

    pub fn one_in(&self, n: usize) -> bool {
        self.below(n) == 0
    }

    pub fn pick<T: Copy>(&self, from: &[T]) -> T {
        from[self.below(from.len())]
    }

    /// One of several things, each as likely as its weight says.
    pub fn weighted<T: Copy>(&self, from: &[(usize, T)]) -> T {
        let mut left = self.below(from.iter().map(|(weight, _)| weight).sum());
        for &(weight, thing) in from {
            if left < weight {
                return thing;
            }
            left -= weight;
        }
        unreachable!("the weights add up to more than what was drawn")
    }

    /// The place of a bit of `mask` that stands, where any does.
    pub fn bit_of(&self, mask: u64) -> Option<u8> {
        if mask == 0 {
            return None;
        }
        let turn = self.below(64) as u32;
        let place = mask.rotate_right(turn).trailing_zeros() + turn;
        Some((place % 64) as u8)
    }

    pub fn fill_bytes(&self, bytes: &mut [u8]) {
        for chunk in bytes.chunks_mut(8) {
            chunk.copy_from_slice(&self.bits().to_le_bytes()[..chunk.len()]);
        }
    }

    pub fn fill_words(&self, words: &mut [u32]) {
        for chunk in words.chunks_mut(2) {
            let bits = self.bits();
            chunk.copy_from_slice(&[bits as u32, (bits >> 32) as u32][..chunk.len()]);
        }
    }
}

#[cfg(test)]
mod tests {
    use super::*;

    #[test]
    fn the_same_seed_gives_the_same_numbers() {
        // The first numbers of splitmix64 from seed 1234567, as its authors publish them.
        let random = Random::new(1_234_567);
        assert_eq!(random.bits(), 6_457_827_717_110_365_317);
        assert_eq!(random.bits(), 3_203_168_211_198_807_973);
        assert_eq!(random.bits(), 9_817_491_932_198_370_423);
    }

    #[test]
    fn draws_stay_within_their_bounds() {
        let random = Random::new(1);
        let mut seen = [false; 7];
        for _ in 0..1000 {
            seen[random.below(7)] = true;
            assert!((3..=5).contains(&random.within(3..=5)));
            assert_eq!(random.weighted(&[(0, 'a'), (2, 'b'), (0, 'c')]), 'b');
        }
        assert_eq!(seen, [true; 7]);
    }

    #[test]
    fn a_bit_is_one_that_stands() {
        let random = Random::new(1);
        assert_eq!(random.bit_of(0), None);
        for _ in 0..1000 {
            let mask = random.bits() & random.bits();
            let place = random.bit_of(mask).expect("a bit stands");
            assert_eq!(mask >> place & 1, 1);
        }
    }
}
