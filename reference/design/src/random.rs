//! Chance from fixed seeds.

/// A small generator (splitmix64): the same seed gives the same tables everywhere.
pub struct Random {
    state: u64,
}

impl Random {
    pub fn new(seed: u64) -> Self {
        Random { state: seed }
    }

    pub fn number(&mut self) -> u64 {
        self.state = self.state.wrapping_add(0x9e37_79b9_7f4a_7c15);
        let mut mixed = self.state;
        mixed = (mixed ^ (mixed >> 30)).wrapping_mul(0xbf58_476d_1ce4_e5b9);
        mixed = (mixed ^ (mixed >> 27)).wrapping_mul(0x94d0_49bb_1331_11eb);
        mixed ^ (mixed >> 31)
    }

    /// Below `end`, which is not 0.
    pub fn below(&mut self, end: usize) -> usize {
        (self.number() % end as u64) as usize
    }

    /// From `start` to `last`, both included.
    pub fn within(&mut self, start: usize, last: usize) -> usize {
        start + self.below(last - start + 1)
    }

    /// True in one of `times` cases.
    pub fn once_in(&mut self, times: usize) -> bool {
        self.below(times) == 0
    }

    pub fn pick<T: Copy>(&mut self, from: &[T]) -> T {
        from[self.below(from.len())]
    }

    /// A value; small ones, the ends, powers of two and what is below them are frequent.
    pub fn word(&mut self) -> u32 {
        match self.below(6) {
            0..=2 => self.below(9) as u32,
            3 => u32::MAX - self.below(3) as u32,
            4 => (1 << self.below(32)) - self.below(2) as u32,
            _ => self.number() as u32,
        }
    }

    /// Any bytes.
    pub fn bytes(&mut self, length: usize) -> Vec<u8> {
        (0..length).map(|_| self.number() as u8).collect()
    }

    /// Splits a total into parts of at least 1; no parts take nothing. Deep, one part gets nearly everything.
    pub fn split(&mut self, total: usize, parts: usize, deep: bool) -> Vec<usize> {
        if parts == 0 {
            return Vec::new();
        }
        let mut sizes = vec![1; parts];
        let heavy = self.below(parts);
        for _ in parts..total {
            let part = if deep && !self.once_in(60) { heavy } else { self.below(parts) };
            sizes[part] += 1;
        }
        sizes
    }
}
