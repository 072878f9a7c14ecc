//! Numbers that depend on a seed only.

/// A source of numbers: splitmix64.
#[derive(Clone)]
pub struct Random(u64);

impl Random {
    /// The source that belongs to a seed and a number.
    pub fn new(seed: u64, index: u64) -> Random {
        let begun = Random(seed).draw() ^ index.wrapping_mul(0xd134_2543_de82_ef95);
        Random(Random(begun).draw())
    }

    /// Any number.
    pub fn draw(&mut self) -> u64 {
        self.0 = self.0.wrapping_add(0x9e37_79b9_7f4a_7c15);
        let mut z = self.0;
        z = (z ^ z >> 30).wrapping_mul(0xbf58_476d_1ce4_e5b9);
        z = (z ^ z >> 27).wrapping_mul(0x94d0_49bb_1331_11eb);
        z ^ z >> 31
    }

    /// A number from 0, below the bound.
    pub fn below(&mut self, bound: u64) -> u64 {
        self.draw() % bound
    }

    /// A number from the least to the most, both included.
    pub fn within(&mut self, least: u8, most: u8) -> u8 {
        least + self.below(u64::from(most - least) + 1) as u8
    }

    /// True once in n times.
    pub fn one_in(&mut self, n: u64) -> bool {
        self.below(n) == 0
    }

    /// One of these.
    pub fn pick<T: Copy>(&mut self, from: &[T]) -> T {
        from[self.below(from.len() as u64) as usize]
    }

    /// Any bytes.
    pub fn bytes(&mut self, count: usize) -> Vec<u8> {
        (0..count).map(|_| self.draw() as u8).collect()
    }
}
