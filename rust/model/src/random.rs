//! A seeded source of numbers (splitmix64): the same seed gives the same run.

pub struct Random(u64);

impl Random {
    pub fn new(seed: u64) -> Self {
        Random(seed)
    }

    /// The source of a part of a run, so that parts give the same numbers in any order.
    pub fn part(seed: u64, number: u64) -> Self {
        Random(Random(Random(seed).number() ^ number).number())
    }

    pub fn number(&mut self) -> u64 {
        self.0 = self.0.wrapping_add(0x9e37_79b9_7f4a_7c15);
        let mut z = self.0;
        z = (z ^ (z >> 30)).wrapping_mul(0xbf58_476d_1ce4_e5b9);
        z = (z ^ (z >> 27)).wrapping_mul(0x94d0_49bb_1331_11eb);
        z ^ (z >> 31)
    }

    /// A number below `n`.
    pub fn below(&mut self, n: usize) -> usize {
        (self.number() % n as u64) as usize
    }

    pub fn block(&mut self) -> [u8; 16] {
        let mut block = [0; 16];
        block[..8].copy_from_slice(&self.number().to_le_bytes());
        block[8..].copy_from_slice(&self.number().to_le_bytes());
        block
    }
}
