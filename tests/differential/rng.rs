//! A small seeded source of numbers (splitmix64), so that every run can be repeated.

pub struct Rng(u64);

impl Rng {
    /// A source of its own for each pair of numbers under one seed.
    pub fn new(seed: u64, kind: usize, turn: usize) -> Rng {
        let mut rng = Rng(seed);
        rng.0 = rng.next() ^ (kind as u64) << 40 ^ turn as u64;
        rng.next();
        rng
    }

    pub fn next(&mut self) -> u64 {
        self.0 = self.0.wrapping_add(0x9e37_79b9_7f4a_7c15);
        let mut z = self.0;
        z = (z ^ z >> 30).wrapping_mul(0xbf58_476d_1ce4_e5b9);
        z = (z ^ z >> 27).wrapping_mul(0x94d0_49bb_1331_11eb);
        z ^ z >> 31
    }

    /// A number below `end`.
    pub fn below(&mut self, end: usize) -> usize {
        (self.next() % end as u64) as usize
    }

    /// A number from `low` to `high`, both included.
    pub fn within(&mut self, low: usize, high: usize) -> usize {
        low + self.below(high - low + 1)
    }

    /// True `part` times in `whole`.
    pub fn chance(&mut self, part: usize, whole: usize) -> bool {
        self.below(whole) < part
    }

    pub fn flag(&mut self) -> bool {
        self.chance(1, 2)
    }

    pub fn pick<T: Copy>(&mut self, from: &[T]) -> T {
        from[self.below(from.len())]
    }

    /// The place of one weight, drawn by its size.
    pub fn weighted(&mut self, weights: &[usize]) -> usize {
        let mut left = self.below(weights.iter().sum());
        for (place, &weight) in weights.iter().enumerate() {
            if left < weight {
                return place;
            }
            left -= weight;
        }
        unreachable!()
    }

    /// A mask over `n` masters in which each bit is high `part` times in 16.
    pub fn mask(&mut self, n: usize, part: usize) -> u16 {
        (0..n).fold(0, |mask, i| mask | u16::from(self.chance(part, 16)) << i)
    }

    /// One of `n` masters, the first and the last a little more often.
    pub fn master(&mut self, n: usize) -> usize {
        match self.below(6) {
            0 => 0,
            1 => n - 1,
            _ => self.below(n),
        }
    }

    pub fn byte(&mut self) -> u8 {
        self.next() as u8
    }
}
