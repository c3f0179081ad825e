//! Numbers that look random and are the same for the same seed.

/// A generator (xorshift64*).
pub struct Random(u64);

/// The seed: `WAKEMIONO_SEED`, or one that is always the same.
pub fn seed() -> u64 {
    const USUAL: u64 = 0x9E37_79B9_7F4A_7C15;
    let seed = match std::env::var("WAKEMIONO_SEED") {
        Ok(text) => text
            .parse()
            .expect("WAKEMIONO_SEED must be a number in decimal"),
        Err(_) => USUAL,
    };
    println!("seed {seed}: run again with WAKEMIONO_SEED={seed}");
    seed
}

impl Random {
    /// A generator for a seed; 0 is no seed of this kind of generator.
    pub fn new(seed: u64) -> Random {
        Random(seed.max(1))
    }

    /// The next number.
    pub fn number(&mut self) -> u64 {
        self.0 ^= self.0 >> 12;
        self.0 ^= self.0 << 25;
        self.0 ^= self.0 >> 27;
        self.0.wrapping_mul(0x2545_F491_4F6C_DD1D)
    }

    /// A number below a bound.
    pub fn below(&mut self, bound: usize) -> usize {
        (self.number() % bound as u64) as usize
    }

    /// True once in so many times.
    pub fn once_in(&mut self, times: usize) -> bool {
        self.below(times) == 0
    }

    /// One of these.
    pub fn one_of<T: Copy>(&mut self, choices: &[T]) -> T {
        choices[self.below(choices.len())]
    }
}
