//! A small generator, so that the stored scripts come out the same everywhere.

pub struct Xorshift(u64);

impl Xorshift {
    /// The seed must not be 0, from which the generator never moves.
    pub fn new(seed: u64) -> Self {
        assert_ne!(seed, 0, "the seed of a xorshift generator must not be 0");
        Xorshift(seed)
    }

    /// A number from 0 up to, but not reaching, the bound.
    pub fn below(&mut self, bound: usize) -> usize {
        (self.step() % bound as u64) as usize
    }

    /// One chance in so many.
    pub fn one_in(&mut self, many: usize) -> bool {
        self.below(many) == 0
    }

    pub fn byte(&mut self) -> u8 {
        self.below(256) as u8
    }

    fn step(&mut self) -> u64 {
        self.0 ^= self.0 << 13;
        self.0 ^= self.0 >> 7;
        self.0 ^= self.0 << 17;
        self.0
    }
}
