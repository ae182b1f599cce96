//! Numbers that look random, the same in each run.

pub struct Numbers(u64);

impl Numbers {
    pub fn new(seed: u64) -> Numbers {
        Numbers(seed.wrapping_mul(0x9e37_79b9_7f4a_7c15) | 1)
    }

    pub fn next(&mut self) -> u64 {
        self.0 ^= self.0 << 13;
        self.0 ^= self.0 >> 7;
        self.0 ^= self.0 << 17;
        self.0.wrapping_mul(0x2545_f491_4f6c_dd1d) >> 16
    }

    pub fn below(&mut self, n: u64) -> u64 {
        self.next() % n
    }

    /// A draw; every fourth one gives a high level.
    pub fn draw(&mut self) -> u32 {
        let draw = self.next() as u32;
        if self.below(4) == 0 {
            draw >> self.below(32)
        } else {
            draw
        }
    }
}
