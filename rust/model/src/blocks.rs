//! Sources of blocks: what decides a block's answer, held fixed; and blocks of several kinds.

use crate::random::Random;
use crate::{answer, Layout, HDR_MODES};
use std::collections::BTreeMap;

/// The bits that decide a block's answer, with a value: first bits, partitions, base, and classes of endpoint modes.
#[derive(Clone, Copy)]
pub struct Configuration {
    value: u32,
    mask: u32,
}

impl Configuration {
    /// Every configuration.
    pub fn all() -> impl Iterator<Item = Self> {
        (0..1 << 13).flat_map(|first: u32| {
            let parts = (first >> 11) + 1;
            classes(parts).into_iter().map(move |(value, mask)| Self {
                value: first | value,
                mask: 0x1fff | mask,
            })
        })
    }

    /// The block of this configuration whose other bits are those of `rest`.
    pub fn over(self, rest: u128) -> [u8; 16] {
        (rest & !u128::from(self.mask) | u128::from(self.value)).to_le_bytes()
    }

    /// A block of this configuration whose other bits are random.
    pub fn fill(self, random: &mut Random) -> [u8; 16] {
        self.over(u128::from_le_bytes(random.block()))
    }

    pub fn answer(self, bw: usize, bh: usize) -> u8 {
        answer(&self.over(0), bw, bh)
    }

    /// What a block of this configuration asks for, if it is neither void nor reserved.
    pub fn layout(self) -> Layout {
        Layout::of(&self.over(0))
    }
}

/// Each value of the bits that hold the classes of so many partitions' modes, and which bits those are.
fn classes(parts: u32) -> Vec<(u32, u32)> {
    if parts == 1 {
        return (0..4).map(|class| (class << 15, 3 << 15)).collect();
    }
    let common = (0..4).map(|class| (class << 27, 3 << 27 | 3 << 23));
    let each = (1 << parts) - 1;
    let own = (1..4)
        .flat_map(|base| (0..=each).map(move |c| (base << 23 | c << 25, 3 << 23 | each << 25)));
    common.chain(own).collect()
}

/// The legal configurations of a footprint, in groups by partitions, base, classes, planes and range of weights; those of a group
/// differ in the grid.
pub struct Legal(Vec<Vec<Configuration>>);

impl Legal {
    pub fn at(bw: usize, bh: usize) -> Self {
        let mut groups = BTreeMap::<_, Vec<_>>::new();
        for c in Configuration::all().filter(|c| c.answer(bw, bh) == 0) {
            let mode = c.layout().mode;
            let key = (c.value >> 11, mode.dual, mode.range);
            groups.entry(key).or_default().push(c);
        }
        Legal(groups.into_values().collect())
    }

    pub fn configurations(&self) -> impl Iterator<Item = Configuration> + '_ {
        self.0.iter().flatten().copied()
    }

    /// A random configuration of each group.
    pub fn of_each_group(&self, random: &mut Random) -> Vec<Configuration> {
        let groups = self.0.iter();
        groups
            .map(|group| group[random.below(group.len())])
            .collect()
    }

    /// A configuration of a random group: rare ones come as often as common ones.
    pub fn pick(&self, random: &mut Random) -> Configuration {
        let group = &self.0[random.below(self.0.len())];
        group[random.below(group.len())]
    }
}

/// Halves at the edges of their kinds: zeros, subnormals, around 1, the largest, infinities, NaNs, negative ones.
pub const HALVES: [u16; 23] = [
    0x0000, 0x8000, 0x0001, 0x03ff, 0x0400, 0x3800, 0x3bff, 0x3c00, 0x3c01, 0x7bff, 0x7c00, 0xfc00,
    0x7c01, 0x7e00, 0x7fff, 0xfc01, 0xfe00, 0xffff, 0x8001, 0x83ff, 0xb800, 0xbc00, 0xfbff,
];

/// A void block: halves or 16-bit numbers, the special ones among them, and any extents.
pub fn void(random: &mut Random) -> [u8; 16] {
    let mut block = random.block();
    block[0] = 0xfc;
    block[1] |= 1;
    for channel in block[8..].chunks_exact_mut(2) {
        if random.below(2) == 0 {
            channel.copy_from_slice(&HALVES[random.below(HALVES.len())].to_le_bytes());
        }
    }
    block
}

/// A block of a random mode, with its low bits as a legal block may have them.
pub fn likely(random: &mut Random, bw: usize, bh: usize) -> [u8; 16] {
    let mut block = random.block();
    for _ in 0..64 {
        if answer(&block, bw, bh) == 0 {
            break;
        }
        let fresh = random.number().to_le_bytes();
        block[..4].copy_from_slice(&fresh[..4]);
    }
    block
}

/// A block of a configuration, drawn some times until its partitions are all HDR: every class of modes has HDR ones.
fn hdr(random: &mut Random, legal: &Legal) -> [u8; 16] {
    let configuration = legal.pick(random);
    let mut block = configuration.fill(random);
    for _ in 0..16 {
        let modes = Layout::of(&block).modes(&block);
        if modes.iter().all(|mode| HDR_MODES.contains(mode)) {
            break;
        }
        block = configuration.fill(random);
    }
    block
}

/// A block with the given first eleven bits, and random ones after them.
pub fn with_first_bits(first: u16, random: &mut Random) -> [u8; 16] {
    let mut block = random.block();
    block[0] = first as u8;
    block[1] = block[1] & 0xf8 | (first >> 8) as u8;
    block
}

/// A block with one bit changed.
pub fn flipped(mut block: [u8; 16], bit: usize) -> [u8; 16] {
    block[bit / 8] ^= 1 << (bit % 8);
    block
}

/// One to eight bits at random places.
fn few_bits(random: &mut Random) -> u128 {
    (0..=random.below(8)).fold(0, |all, _| all | 1 << random.below(128))
}

/// Few bits set, or all but few, in a whole block or beside a legal configuration.
fn sparse(random: &mut Random, legal: &Legal) -> [u8; 16] {
    let few = few_bits(random);
    match random.below(4) {
        0 => few.to_le_bytes(),
        1 => (!few).to_le_bytes(),
        2 => legal.pick(random).over(few),
        _ => legal.pick(random).over(!few),
    }
}

/// The kinds of blocks that a long run makes.
#[derive(Clone, Copy, PartialEq, Eq)]
pub enum Kind {
    Any,
    Sparse,
    Likely,
    Legal,
    Damaged,
    Void,
    Hdr,
}

impl Kind {
    /// The kinds of a run for words and maps.
    pub const ALL: [Kind; 6] = [
        Kind::Any,
        Kind::Sparse,
        Kind::Likely,
        Kind::Legal,
        Kind::Damaged,
        Kind::Void,
    ];

    /// The kind of the block of this number: of each eight one is of a kind, and three are legal.
    pub fn of(number: u64) -> Kind {
        *Kind::ALL.get((number % 8) as usize).unwrap_or(&Kind::Legal)
    }

    /// The same where channels are asked for: of the three legal ones two are mostly HDR.
    pub fn for_channels(number: u64) -> Kind {
        *Kind::ALL.get((number % 8) as usize).unwrap_or(&Kind::Hdr)
    }

    pub fn name(self) -> &'static str {
        match self {
            Kind::Any => "any bits",
            Kind::Sparse => "few bits set, or few not set",
            Kind::Likely => "first bits drawn until legal",
            Kind::Legal => "legal, spread over all configurations",
            Kind::Damaged => "legal with one bit changed",
            Kind::Void => "void, with special halves",
            Kind::Hdr => "legal, mostly HDR in all partitions",
        }
    }

    /// A block of this kind for a footprint that has these legal configurations.
    pub fn block(self, random: &mut Random, (bw, bh): (usize, usize), legal: &Legal) -> [u8; 16] {
        match self {
            Kind::Any => random.block(),
            Kind::Sparse => sparse(random, legal),
            Kind::Likely => likely(random, bw, bh),
            Kind::Legal => legal.pick(random).fill(random),
            Kind::Damaged => {
                let block = legal.pick(random).fill(random);
                flipped(block, random.below(128))
            }
            Kind::Void => void(random),
            Kind::Hdr => hdr(random, legal),
        }
    }
}

#[cfg(test)]
mod tests {
    use super::*;

    #[test]
    fn a_configuration_decides_the_answer() {
        let mut random = Random::new(1);
        let all: Vec<_> = Configuration::all().collect();
        assert_eq!(all.len(), 2048 * 100);
        for (i, c) in all.iter().enumerate() {
            let (bw, bh) = crate::FOOTPRINTS[i % 14];
            assert_eq!(answer(&c.fill(&mut random), bw, bh), c.answer(bw, bh));
        }
    }

    #[test]
    fn kinds_keep_their_word() {
        let mut random = Random::new(2);
        for (bw, bh) in [(4, 4), (12, 12)] {
            let legal = Legal::at(bw, bh);
            for _ in 0..1000 {
                let mut of =
                    |kind: Kind| answer(&kind.block(&mut random, (bw, bh), &legal), bw, bh);
                assert_eq!(of(Kind::Legal), 0);
                assert_eq!(of(Kind::Hdr), 0);
                assert_eq!(of(Kind::Void), 1);
            }
        }
    }

    #[test]
    fn one_bit_is_changed() {
        let block = [0xa5; 16];
        let both = (0..16).map(|i| (block[i] ^ flipped(block, 77)[i]).count_ones());
        assert_eq!(both.sum::<u32>(), 1);
    }
}
