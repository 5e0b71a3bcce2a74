//! Numbers that look random, the same for the same seed (splitmix64).
pub struct Rng {
    state: u64,
    /// What is made of each value and coordinate that is drawn for a subtable.
    pub value: fn(i16) -> i16,
    /// Is a glyph left out of a coverage, by a number that is drawn for it?
    pub left_out: fn(u64) -> bool,
}

impl Rng {
    pub fn new(seed: u64) -> Self {
        Self { state: seed, value: |v| v, left_out: |n| n % 5 == 0 }
    }
    pub fn next(&mut self) -> u64 {
        self.state = self.state.wrapping_add(0x9E37_79B9_7F4A_7C15);
        let mut z = self.state;
        z = (z ^ (z >> 30)).wrapping_mul(0xBF58_476D_1CE4_E5B9);
        z = (z ^ (z >> 27)).wrapping_mul(0x94D0_49BB_1331_11EB);
        z ^ (z >> 31)
    }
    /// From 0 up to n, n not included; 0 where n is 0.
    pub fn below(&mut self, n: usize) -> usize {
        if n == 0 {
            0
        } else {
            (self.next() % n as u64) as usize
        }
    }
    /// Once in n.
    pub fn once_in(&mut self, n: usize) -> bool {
        self.below(n) == 0
    }
    pub fn pick<T: Copy>(&mut self, from: &[T]) -> T {
        from[self.below(from.len())]
    }
}
