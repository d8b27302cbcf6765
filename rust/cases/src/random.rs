//! A small seeded source of numbers (splitmix64).

#[derive(Clone, Debug)]
pub struct Random(u64);

impl Random {
    /// The source of one case: the same seed and index give the same numbers.
    pub fn new(seed: u64, index: u64) -> Random {
        let mut random = Random(seed ^ index.wrapping_mul(0xd6e8_feb8_6659_fd93));
        random.word();
        random
    }

    pub fn word(&mut self) -> u64 {
        self.0 = self.0.wrapping_add(0x9e37_79b9_7f4a_7c15);
        let mut z = self.0;
        z = (z ^ (z >> 30)).wrapping_mul(0xbf58_476d_1ce4_e5b9);
        z = (z ^ (z >> 27)).wrapping_mul(0x94d0_49bb_1331_11eb);
        z ^ (z >> 31)
    }

    /// Below `limit`, which is not 0.
    pub fn below(&mut self, limit: usize) -> usize {
        (self.word() % limit as u64) as usize
    }

    /// From `low` to `high`, both included.
    pub fn between(&mut self, low: usize, high: usize) -> usize {
        low + self.below(high - low + 1)
    }

    /// The same, but `low` itself half of the time.
    pub fn near(&mut self, low: usize, high: usize) -> usize {
        let high = if self.chance(50) { low } else { high };
        self.between(low, high)
    }

    pub fn byte(&mut self) -> u8 {
        self.word() as u8
    }

    pub fn chance(&mut self, percent: usize) -> bool {
        self.below(100) < percent
    }

    pub fn pick<T: Copy>(&mut self, from: &[T]) -> T {
        from[self.below(from.len())]
    }

    /// Picks by weight.
    pub fn weighted<T: Copy>(&mut self, from: &[(usize, T)]) -> T {
        let mut at = self.below(from.iter().map(|(weight, _)| weight).sum());
        for (weight, thing) in from {
            if at < *weight {
                return *thing;
            }
            at -= weight;
        }
        unreachable!("the weights were summed")
    }

    pub fn shuffle<T>(&mut self, things: &mut [T]) {
        for last in (1..things.len()).rev() {
            things.swap(last, self.below(last + 1));
        }
    }

    /// A number, often one near a limit; never the mark.
    pub fn number(&mut self) -> i32 {
        const EDGES: [i32; 22] = [
            i32::MAX,
            i32::MAX,
            -i32::MAX,
            i32::MAX - 1,
            1 - i32::MAX,
            0,
            1,
            -1,
            2,
            -2,
            3,
            10,
            15,
            16,
            46_340,
            46_341,
            -46_341,
            65_536,
            32_768,
            -32_768,
            1_000_000,
            1_000_001,
        ];
        match self.below(10) {
            0..=4 => self.between(0, 6) as i32 - 2,
            5..=7 => self.pick(&EDGES),
            8 => self.between(0, 2_000) as i32 - 1_000,
            _ => (self.word() as i32).max(-i32::MAX),
        }
    }
}
