//! A small seeded generator (splitmix64), so that every case can be replayed.

pub struct Random(u64);

impl Random {
    pub fn new(seed: u64) -> Random {
        Random(seed)
    }

    /// One for each name, so that nothing drawn by it depends on the others.
    pub fn named(seed: u64, name: &str) -> Random {
        let seed = name.bytes().fold(seed, |seed, byte| {
            seed.wrapping_mul(31).wrapping_add(byte.into())
        });
        Random(seed)
    }

    /// One beside this, which is left as it was: what it draws changes nothing
    /// that is drawn later.
    pub fn beside(&self, name: &str) -> Random {
        Random::named(self.0, name)
    }

    pub fn draw(&mut self) -> u64 {
        self.0 = self.0.wrapping_add(0x9e37_79b9_7f4a_7c15);
        let mut z = self.0;
        z = (z ^ (z >> 30)).wrapping_mul(0xbf58_476d_1ce4_e5b9);
        z = (z ^ (z >> 27)).wrapping_mul(0x94d0_49bb_1331_11eb);
        z ^ (z >> 31)
    }

    /// From low to high, both included.
    pub fn between(&mut self, low: i64, high: i64) -> i64 {
        let span = (high - low) as u64 + 1;
        low + (self.draw() % span) as i64
    }

    pub fn index(&mut self, length: usize) -> usize {
        (self.draw() % length as u64) as usize
    }

    pub fn pick<T: Copy>(&mut self, from: &[T]) -> T {
        from[self.index(from.len())]
    }

    /// True once in so many times.
    pub fn once_in(&mut self, times: u64) -> bool {
        self.draw() % times == 0
    }
}
