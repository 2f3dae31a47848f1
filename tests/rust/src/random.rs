//! Numbers that look random and are the same on every run.

pub struct Random(u64);

impl Random {
    pub fn new(seed: u64) -> Self {
        Random(seed)
    }

    /// SplitMix64.
    pub fn word(&mut self) -> u64 {
        self.0 = self.0.wrapping_add(0x9e37_79b9_7f4a_7c15);
        let mut z = self.0;
        z = (z ^ (z >> 30)).wrapping_mul(0xbf58_476d_1ce4_e5b9);
        z = (z ^ (z >> 27)).wrapping_mul(0x94d0_49bb_1331_11eb);
        z ^ (z >> 31)
    }

    /// A number below `n`.
    pub fn below(&mut self, n: u64) -> u64 {
        self.word() % n
    }

    pub fn one_in(&mut self, n: u64) -> bool {
        self.below(n) == 0
    }

    pub fn pick<T: Copy>(&mut self, from: &[T]) -> T {
        from[self.below(from.len() as u64) as usize]
    }

    /// A number that is at most one away from `n`.
    pub fn near(&mut self, n: u64) -> u64 {
        n.saturating_add(self.below(3)).saturating_sub(1)
    }

    /// A word with few bits set, or few clear, or any.
    pub fn uneven_word(&mut self) -> u64 {
        match self.word() % 4 {
            0 => self.word() & self.word() & self.word(),
            1 => self.word() | self.word() | self.word(),
            2 => self.word() >> (self.word() % 64),
            _ => self.word(),
        }
    }
}
