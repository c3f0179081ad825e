//! A small deterministic generator of numbers, and the loop over seeds that names the one that
//! failed.

use std::thread;

/// The xorshift generator with 64 bits of state.
pub struct Random(u64);

impl Random {
    fn new(seed: u64) -> Self {
        // The state must not be 0, and seeds that lie close together must not give like numbers.
        let mut random = Random(seed.wrapping_mul(0x9E37_79B9_7F4A_7C15) | 1);
        for _ in 0..8 {
            random.next();
        }
        random
    }

    fn next(&mut self) -> u64 {
        self.0 ^= self.0 << 13;
        self.0 ^= self.0 >> 7;
        self.0 ^= self.0 << 17;
        self.0
    }

    /// A number below the limit, which is not 0.
    pub fn below(&mut self, limit: usize) -> usize {
        (self.next() >> 11) as usize % limit
    }

    pub fn one_in(&mut self, chances: usize) -> bool {
        self.below(chances) == 0
    }

    pub fn byte(&mut self) -> u8 {
        self.below(256) as u8
    }

    pub fn pick<T: Copy>(&mut self, choices: &[T]) -> T {
        choices[self.below(choices.len())]
    }
}

/// Runs a check under each seed. Where it fails, the seed is printed.
pub fn for_seeds(count: u64, mut check: impl FnMut(&mut Random)) {
    for seed in 0..count {
        let _told = TellSeed(seed);
        check(&mut Random::new(seed));
    }
}

struct TellSeed(u64);

impl Drop for TellSeed {
    fn drop(&mut self) {
        if thread::panicking() {
            eprintln!("failed with seed {}", self.0);
        }
    }
}
