//! Which blocks are legal, and where a legal block's fields lie.

pub const FOOTPRINTS: [(usize, usize); 14] = [
    (4, 4),
    (5, 4),
    (5, 5),
    (6, 5),
    (6, 6),
    (8, 5),
    (8, 6),
    (8, 8),
    (10, 5),
    (10, 6),
    (10, 8),
    (10, 10),
    (12, 10),
    (12, 12),
];

/// The answers that a block of sixteen bytes can get at a listed footprint, with room for its words.
pub const ANSWERS: [u8; 9] = [0, 1, 10, 11, 12, 13, 14, 15, 16];

/// The word of a reserved or refused block.
pub const MAGENTA: u32 = 0xffff_00ff;

/// The endpoint modes with HDR colour.
pub const HDR_MODES: [usize; 6] = [2, 3, 7, 11, 14, 15];

/// The largest value of each range, the narrowest first. Weights have the first twelve.
pub const TOPS: [usize; 21] = [
    1, 2, 3, 4, 5, 7, 9, 11, 15, 19, 23, 31, 39, 47, 63, 79, 95, 127, 159, 191, 255,
];

/// The narrowest range of endpoints, whose largest value is 5.
const NARROWEST: usize = 4;

/// The bits of `n` values of range `q`: the fewest that hold so many trits, quints and bits.
pub fn cost(q: usize, n: usize) -> usize {
    let levels = TOPS[q] + 1;
    let (digit, extra) = if levels % 3 == 0 {
        (3, (8 * n).div_ceil(5))
    } else if levels % 5 == 0 {
        (5, (7 * n).div_ceil(3))
    } else {
        (1, 0)
    };
    n * (levels / digit).ilog2() as usize + extra
}

/// The number in `len` bits of a block from bit `start` on.
pub fn bits(block: &[u8], start: usize, len: usize) -> usize {
    let all = u128::from_le_bytes(block.try_into().expect("a block has sixteen bytes"));
    (all >> start) as usize & ((1 << len) - 1)
}

pub struct Mode {
    pub width: usize,
    pub height: usize,
    pub range: usize,
    pub dual: bool,
}

/// The grid, the weights' range and the planes of a block that is neither void nor reserved.
pub fn mode(block: &[u8]) -> Mode {
    let bit = |k| bits(block, k, 1);
    let (a, b) = (bits(block, 5, 2), bits(block, 7, 2));
    let low = bits(block, 0, 2);
    let r = bit(4) + 2 * if low == 0 { bits(block, 2, 2) } else { low };
    let mut high = true;
    let (width, height) = if low != 0 {
        match bits(block, 2, 2) {
            0 => (b + 4, a + 2),
            1 => (b + 8, a + 2),
            2 => (a + 2, b + 8),
            _ if bit(8) == 0 => (a + 2, bit(7) + 6),
            _ => (bit(7) + 2, a + 2),
        }
    } else {
        match b {
            0 => (12, a + 2),
            1 => (a + 2, 12),
            2 => {
                high = false;
                (a + 6, bits(block, 9, 2) + 6)
            }
            _ if bit(5) == 0 => (6, 10),
            _ => (10, 6),
        }
    };
    Mode {
        width,
        height,
        range: r - 2 + if high { 6 * bit(9) } else { 0 },
        dual: high && bit(10) == 1,
    }
}

/// What a block that is neither void nor reserved asks for, legal or not.
pub struct Layout {
    pub mode: Mode,
    pub weights: usize,
    pub weight_bits: usize,
    pub parts: usize,
    /// 0 where all partitions have one mode in common, or one more than the least class of their own modes.
    pub base: usize,
    /// The class of each partition's endpoint mode, which is a fourth of it.
    pub classes: [usize; 4],
    /// The endpoint values of all partitions.
    pub values: usize,
    /// The bits of the low configuration, and of all configuration.
    pub low: usize,
    pub config: usize,
}

impl Layout {
    pub fn of(block: &[u8]) -> Self {
        let mode = mode(block);
        let weights = mode.width * mode.height * if mode.dual { 2 } else { 1 };
        let parts = bits(block, 11, 2) + 1;
        let base = if parts == 1 { 0 } else { bits(block, 23, 2) };
        let mut classes = [0; 4];
        for (i, class) in classes[..parts].iter_mut().enumerate() {
            *class = match (parts, base) {
                (1, _) => bits(block, 15, 2),
                (_, 0) => bits(block, 27, 2),
                _ => base - 1 + bits(block, 25 + i, 1),
            };
        }
        let low = if parts == 1 { 17 } else { 29 };
        let config = if base == 0 { low } else { 25 + 3 * parts };
        Layout {
            weight_bits: cost(mode.range, weights),
            weights,
            parts,
            base,
            classes,
            values: classes[..parts].iter().map(|c| 2 * (c + 1)).sum(),
            low,
            config: config + if mode.dual { 2 } else { 0 },
            mode,
        }
    }

    /// The bits left for endpoints, which may be fewer than none.
    pub fn room(&self) -> i64 {
        128 - (self.config + self.weight_bits) as i64
    }

    /// The bits that the endpoint values need at the least.
    pub fn need(&self) -> i64 {
        (13 * self.values).div_ceil(5) as i64
    }

    /// The bits directly below a legal block's weights: of its modes, and below them of its channel.
    pub fn extra(&self) -> usize {
        self.config - self.low
    }

    /// The range of a legal block's endpoints: the widest that fits.
    pub fn ends(&self) -> usize {
        (NARROWEST..TOPS.len())
            .rev()
            .find(|&q| cost(q, self.values) as i64 <= self.room())
            .expect("a legal block has room for its endpoints")
    }

    /// The endpoint modes of a legal block's partitions. The last two bits of partitions' own modes are one row of bits, which
    /// starts in the low configuration and goes on below the weights.
    pub fn modes(&self, block: &[u8]) -> Vec<usize> {
        let p = self.parts;
        let ends = if p == 1 {
            vec![bits(block, 13, 2)]
        } else if self.base == 0 {
            vec![bits(block, 25, 2); p]
        } else {
            let above = 3 * p - 4;
            let row = bits(block, 25 + p, 4 - p)
                + (bits(block, 128 - self.weight_bits - above, above) << (4 - p));
            (0..p).map(|i| row >> (2 * i) & 3).collect()
        };
        ends.iter()
            .zip(self.classes)
            .map(|(end, class)| 4 * class + end)
            .collect()
    }

    /// The channel that a legal block's second plane weighs, where it has two.
    pub fn channel(&self, block: &[u8]) -> Option<usize> {
        self.mode
            .dual
            .then(|| bits(block, 128 - self.weight_bits - self.extra(), 2))
    }
}

/// The answer of a block at a listed footprint.
pub fn answer(block: &[u8], bw: usize, bh: usize) -> u8 {
    if block[0] == 0xfc && block[1] & 1 == 1 {
        return 1;
    }
    if bits(block, 0, 4) == 0 || bits(block, 0, 2) == 0 && bits(block, 6, 3) == 7 {
        return 10;
    }
    let l = Layout::of(block);
    if l.mode.width > bw || l.mode.height > bh {
        11
    } else if l.weights > 64 {
        12
    } else if !(24..=96).contains(&l.weight_bits) {
        13
    } else if l.mode.dual && l.parts == 4 {
        14
    } else if l.values > 18 {
        15
    } else if l.room() < l.need() {
        16
    } else {
        0
    }
}

/// The map of a block at a listed footprint: the largest endpoint value, and start and length of low configuration, endpoints,
/// extra and weights; nothing but zeros for an answer other than 0.
pub fn map(block: &[u8], bw: usize, bh: usize) -> [u32; 9] {
    if answer(block, bw, bh) != 0 {
        return [0; 9];
    }
    let l = Layout::of(block);
    let weights = 128 - l.weight_bits;
    let fields = [
        TOPS[l.ends()],
        0,
        l.low,
        l.low,
        cost(l.ends(), l.values),
        weights - l.extra(),
        l.extra(),
        weights,
        l.weight_bits,
    ];
    fields.map(|n| n as u32)
}

/// The refusal of a call by its sizes alone, if there is one: 20, 21 or 22, in this order. The output has room for `room` numbers,
/// and `wanted` would be written.
pub fn refusal(block_len: usize, bw: usize, bh: usize, room: usize, wanted: usize) -> Option<u32> {
    if block_len != 16 {
        Some(20)
    } else if !FOOTPRINTS.contains(&(bw, bh)) {
        Some(21)
    } else if room < wanted {
        Some(22)
    } else {
        None
    }
}

#[cfg(test)]
mod tests {
    use super::*;

    /// The block P1 of docs/SCOPE.md.
    const P1: [u8; 16] = [0x42, 0, 0, 0xfe, 1, 0, 0, 0, 0, 0, 0, 0, 0, 0, 0, 0xe0];

    /// A block with a first byte and a second, which hold the block mode, and zeros.
    fn of_mode(first: u8, second: u8) -> [u8; 16] {
        let mut block = [0; 16];
        block[..2].copy_from_slice(&[first, second]);
        block
    }

    #[test]
    fn the_block_p1_and_its_map() {
        assert_eq!(answer(&P1, 4, 4), 0);
        assert_eq!(map(&P1, 4, 4), [255, 0, 17, 17, 16, 96, 0, 96, 32]);
    }

    #[test]
    fn void_and_reserved_blocks() {
        let p3 = [
            0xfc, 0xfd, 0xff, 0xff, 0xff, 0xff, 0xff, 0xff, 0, 0, 0, 0x80, 0, 0x40, 0xff, 0xff,
        ];
        assert_eq!(answer(&p3, 4, 4), 1);
        assert_eq!(answer(&[0; 16], 4, 4), 10);
        assert_eq!(answer(&of_mode(0xf8, 1), 12, 12), 10);
        assert_eq!(map(&p3, 4, 4), [0; 9]);
    }

    #[test]
    fn the_limits_of_weights() {
        let answer_of = |first, second, side| answer(&of_mode(first, second), side, side);
        // 64 weights pass and 9x8 do not; 8x8 of 0..2 take 103 bits
        assert_eq!(answer_of(0x44, 5, 12), 0);
        assert_eq!(answer_of(0x64, 5, 12), 12);
        assert_eq!(answer_of(0x54, 5, 12), 13);
        // 4x6 weights of one bit take 24 bits, 4x5 take 20, and neither grid is a grid of 4x4
        assert_eq!(answer_of(0x4d, 0, 6), 0);
        assert_eq!(answer_of(0x61, 0, 6), 13);
        assert_eq!(answer_of(0x61, 0, 4), 11);
    }

    #[test]
    fn the_bits_of_values() {
        assert_eq!(cost(0, 24), 24);
        assert_eq!(cost(2, 48), 96);
        assert_eq!(cost(1, 64), 103);
        assert_eq!(cost(NARROWEST, 18), 47);
    }

    #[test]
    fn sizes_are_refused_in_order() {
        assert_eq!(refusal(15, 4, 5, 0, 20), Some(20));
        assert_eq!(refusal(16, 4, 5, 0, 20), Some(21));
        assert_eq!(refusal(16, 5, 4, 19, 20), Some(22));
        assert_eq!(refusal(16, 5, 4, 20, 20), None);
    }

    #[test]
    fn own_modes_are_one_row_of_bits() {
        // two partitions with base 1: classes 1 and 0, ends 2 and 3, and 32 bits of weights
        let block = (0x42u128 | 1 << 11 | 1 << 23 | 1 << 25 | 2 << 27 | 3 << 94).to_le_bytes();
        let l = Layout::of(&block);
        assert_eq!(l.weight_bits, 32);
        assert_eq!(l.modes(&block), [6, 3]);
        assert_eq!(answer(&block, 4, 4), 0);
    }
}
