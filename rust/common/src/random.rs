//! Random numbers from a seed, the same on every machine.

pub struct Random {
    state: u64,
    dropped: u32,
}

impl Random {
    pub fn new(seed: u64) -> Random {
        Random::dropping(seed, 11)
    }

    /// Drops that many low bits of each number. Recorded inputs depend on it.
    pub fn dropping(seed: u64, dropped: u32) -> Random {
        assert_ne!(seed, 0);
        Random { state: seed, dropped }
    }

    pub fn number(&mut self) -> u64 {
        self.state ^= self.state << 13;
        self.state ^= self.state >> 7;
        self.state ^= self.state << 17;
        self.state >> self.dropped
    }

    pub fn below(&mut self, n: u64) -> u64 {
        self.number() % n
    }

    /// A number in low..=high.
    pub fn within(&mut self, low: i64, high: i64) -> i64 {
        low + self.below((high - low + 1) as u64) as i64
    }

    pub fn pick<T: Copy>(&mut self, from: &[T]) -> T {
        from[self.below(from.len() as u64) as usize]
    }

    pub fn chance(&mut self, one_in: u64) -> bool {
        self.below(one_in) == 0
    }
}

/// `count` samples below `below`, by the linear congruential generator that the tables of known sets go by.
pub fn congruential(seed: u32, below: u32, count: usize) -> Vec<u16> {
    let mut x = seed;
    let mut next = || {
        x = x.wrapping_mul(1_664_525).wrapping_add(1_013_904_223);
        ((x >> 8) % below) as u16
    };
    (0..count).map(|_| next()).collect()
}
