//! A small random generator of its own: the same seed gives the same files.

/// The seed of a test: the usual one, or the number in the environment variable GIVENDRA_SEED. It is printed.
pub fn seed(test: &str, usual: u64) -> u64 {
    let seed = match std::env::var("GIVENDRA_SEED") {
        Ok(text) => text.parse().expect("GIVENDRA_SEED is a whole number"),
        Err(_) => usual,
    };
    println!("{test}: seed {seed}");
    seed
}

pub struct Random(u64);

impl Random {
    pub fn new(seed: u64) -> Random {
        Random(seed ^ 0x9e37_79b9_7f4a_7c15)
    }

    /// Any number of 64 bits.
    pub fn any(&mut self) -> u64 {
        // splitmix64
        self.0 = self.0.wrapping_add(0x9e37_79b9_7f4a_7c15);
        let mut z = self.0;
        z = (z ^ (z >> 30)).wrapping_mul(0xbf58_476d_1ce4_e5b9);
        z = (z ^ (z >> 27)).wrapping_mul(0x94d0_49bb_1331_11eb);
        z ^ (z >> 31)
    }

    /// A whole number from `from` to `to`, both included.
    pub fn from_to(&mut self, from: i64, to: i64) -> i64 {
        assert!(from <= to);
        from + (self.any() % (to - from + 1) as u64) as i64
    }

    /// True once in `n` times.
    pub fn one_in(&mut self, n: i64) -> bool {
        self.from_to(1, n) == 1
    }

    /// One of them.
    pub fn pick<T: Copy>(&mut self, from: &[T]) -> T {
        from[self.from_to(0, from.len() as i64 - 1) as usize]
    }
}
