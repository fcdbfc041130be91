//! Pseudo-random numbers (splitmix64). Each block has its own, from the seed and the block's index.

pub struct Random(u64);

impl Random {
    pub fn new(seed: u64, stream: u64, index: u64) -> Random {
        let mut random = Random(seed);
        random.0 = random.next() ^ stream;
        random.0 = random.next() ^ index;
        random
    }

    pub fn next(&mut self) -> u64 {
        self.0 = self.0.wrapping_add(0x9E37_79B9_7F4A_7C15);
        let mut z = self.0;
        z = (z ^ (z >> 30)).wrapping_mul(0xBF58_476D_1CE4_E5B9);
        z = (z ^ (z >> 27)).wrapping_mul(0x94D0_49BB_1331_11EB);
        z ^ (z >> 31)
    }

    /// A number from 0 to `n` less one.
    pub fn below(&mut self, n: u64) -> u64 {
        ((self.next() as u128 * n as u128) >> 64) as u64
    }

    /// A number from `low` to `high`, both included.
    pub fn between(&mut self, low: i64, high: i64) -> i64 {
        low + self.below((high - low + 1) as u64) as i64
    }

    pub fn one_in(&mut self, n: u64) -> bool {
        self.below(n) == 0
    }

    pub fn pick<T: Copy>(&mut self, from: &[T]) -> T {
        from[self.below(from.len() as u64) as usize]
    }

    /// A number from `low` to `high`, the ends and their neighbours often.
    pub fn at_edges(&mut self, low: i64, high: i64) -> i64 {
        match self.below(8) {
            0 | 1 => low,
            2 | 3 => high,
            4 => (low + 1).min(high),
            5 => (high - 1).max(low),
            _ => self.between(low, high),
        }
    }
}
