//! A small generator of numbers (xorshift64*), the same on every machine for the same seed.

pub struct Random(u64);

impl Random {
    /// The seed is any number but 0.
    pub fn new(seed: u64) -> Random {
        assert!(seed != 0, "the seed is 0");
        Random(seed)
    }

    pub fn word(&mut self) -> u32 {
        self.0 ^= self.0 >> 12;
        self.0 ^= self.0 << 25;
        self.0 ^= self.0 >> 27;
        (self.0.wrapping_mul(0x2545_F491_4F6C_DD1D) >> 32) as u32
    }

    /// A number below n.
    pub fn below(&mut self, n: u32) -> u32 {
        ((self.word() as u64 * n as u64) >> 32) as u32
    }

    /// True once in n times.
    pub fn once_in(&mut self, n: u32) -> bool {
        self.below(n) == 0
    }

    pub fn pick<T: Copy>(&mut self, from: &[T]) -> T {
        from[self.below(from.len() as u32) as usize]
    }

    /// A number over `most`: next to it, the largest there is, or any.
    pub fn over(&mut self, most: u32) -> u32 {
        match self.below(4) {
            0 => most + 1,
            1 => most + 1 + self.below(8),
            2 => u32::MAX,
            _ => most + 1 + self.below(u32::MAX - most),
        }
    }
}
