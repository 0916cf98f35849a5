// Numbers that a seed repeats.

pub struct Random(pub u64);

impl Random {
    pub fn seeded(seed: u64) -> Random {
        let mut random = Random((seed ^ 0x9E3779B97F4A7C15).wrapping_mul(0xBF58476D1CE4E5B9) | 1);
        for _ in 0..8 {
            random.below(2);
        }
        random
    }

    pub fn below(&mut self, n: usize) -> usize {
        self.0 ^= self.0 << 13;
        self.0 ^= self.0 >> 7;
        self.0 ^= self.0 << 17;
        ((self.0.wrapping_mul(0x2545F4914F6CDD1D) >> 32) as usize) % n
    }

    pub fn pick<T: Copy>(&mut self, from: &[T]) -> T {
        from[self.below(from.len())]
    }
}
