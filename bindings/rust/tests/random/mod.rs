//! Random numbers that a seed repeats (xorshift64*), for the tests that draw them.

pub struct Random(pub u64);

impl Random {
    pub fn next(&mut self) -> u64 {
        self.0 ^= self.0 >> 12;
        self.0 ^= self.0 << 25;
        self.0 ^= self.0 >> 27;
        self.0.wrapping_mul(0x2545_f491_4f6c_dd1d) >> 16
    }

    pub fn below(&mut self, bound: usize) -> usize {
        (self.next() % bound as u64) as usize
    }

    /// A number of up to 32 bits, at times at their ends.
    pub fn number(&mut self) -> i32 {
        match self.below(8) {
            0 => i32::MIN,
            1 => i32::MAX,
            _ => (self.next() as i32) >> self.below(32),
        }
    }

    pub fn numbers(&mut self, length: usize) -> Vec<i32> {
        (0..length).map(|_| self.number()).collect()
    }
}
