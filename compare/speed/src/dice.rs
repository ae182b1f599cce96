//! The generator of the measured work, the same as on the other side.
pub struct Dice(u32);

impl Dice {
    pub fn new() -> Dice {
        Dice(0x1234_5679)
    }

    pub fn roll(&mut self) -> u32 {
        self.0 ^= self.0 << 13;
        self.0 ^= self.0 >> 17;
        self.0 ^= self.0 << 5;
        self.0
    }

    pub fn below(&mut self, n: u32) -> u32 {
        self.roll() % n
    }
}
