//! Blocks of all kinds by a fixed rule, and channels bit for bit.

use astc::Channel;

/// Numbers by a fixed rule.
pub struct Random(u64);

impl Random {
    pub fn new(seed: u64) -> Random {
        Random(seed)
    }

    pub fn byte(&mut self) -> u8 {
        self.0 = self
            .0
            .wrapping_mul(6364136223846793005)
            .wrapping_add(1442695040888963407);
        (self.0 >> 33) as u8
    }
}

/// Blocks in turn legal with LDR endpoints, legal with any endpoint mode, void of bytes or halves, and of any bytes.
pub fn blocks(random: &mut Random, count: usize) -> Vec<u8> {
    let mut data = Vec::with_capacity(16 * count);
    for n in 0..count {
        let mut block: [u8; 16] = std::array::from_fn(|_| random.byte());
        [block[0], block[1]] = match n % 4 {
            0 => [0x42, 0],
            1 => [0x42, block[1] & 0xe0],
            2 => [0xfc, 0xfd | block[1] & 2],
            _ => [block[0], block[1]],
        };
        data.extend(block);
    }
    data
}

/// Whether each channel is a float, and its number bit for bit.
pub fn bits(texel: &[Channel; 4]) -> [(bool, u32); 4] {
    texel.map(|channel| match channel {
        Channel::Byte(byte) => (false, byte.into()),
        Channel::Float(float) => (true, float.to_bits()),
    })
}
