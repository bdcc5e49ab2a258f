//! A block's channels: which of them are floats, what a float is, and the word that four of them come to.

use crate::{bits, refusal, HDR_MODES};
use std::array;

/// The endpoint modes with HDR alpha.
pub const HDR_ALPHAS: [usize; 5] = [2, 3, 7, 11, 15];

/// The largest finite half, which stands for infinity and NaN in a block that is not void.
const LARGEST: u16 = 0x7bff;

/// The channels of a texel: red, green, blue and alpha.
pub const CHANNELS: usize = 4;

/// Which channels of a texel are floats, by the endpoint mode of its partition: 1 red, 2 green, 4 blue, 8 alpha.
pub fn floats(mode: usize) -> u8 {
    let colour = if HDR_MODES.contains(&mode) { 7 } else { 0 };
    let alpha = if HDR_ALPHAS.contains(&mode) { 8 } else { 0 };
    colour | alpha
}

/// The 32 bits of the f32 that equals a half. Every NaN becomes the same one, with its own sign.
pub fn single(half: u16) -> u32 {
    let sign = u32::from(half >> 15) << 31;
    let (exponent, fraction) = (u32::from(half >> 10 & 31), u32::from(half & 0x3ff));
    let rest = match (exponent, fraction) {
        (0, 0) => 0,
        // a subnormal half is so many times 2^-24, of which the highest bit is not written down in an f32
        (0, _) => {
            let top = fraction.ilog2();
            (top + 103) << 23 | (fraction << (23 - top) & 0x7f_ffff)
        }
        (31, 0) => 0x7f80_0000,
        (31, _) => 0x7fc0_0000,
        _ => (exponent + 112) << 23 | fraction << 13,
    };
    sign | rest
}

/// The byte that docs/SCOPE.md makes of a float: 255 times it, rounded down, at least 0 and at most 255; 0 of a NaN, and 255 of minus
/// infinity. That is `f32_to_u8`, its rule for void blocks; its rule for others is the same for all floats that they have.
fn reduced(float: u32) -> u8 {
    let float = f32::from_bits(float);
    if float == f32::NEG_INFINITY {
        return 255;
    }
    (255.0 * f64::from(float)).floor() as u8
}

/// A texel's channels, red, green, blue and alpha: each a number of 0 to 255, or the 32 bits of an f32 where its bit in `floats` is
/// set.
#[derive(Clone, Copy, Debug, PartialEq, Eq)]
pub struct Texel {
    pub numbers: [u32; CHANNELS],
    pub floats: u8,
}

impl Texel {
    /// A texel of a block that breaks a rule.
    pub const MAGENTA: Texel = Texel {
        numbers: [255, 0, 255, 255],
        floats: 0,
    };

    /// Any texel of a void block.
    pub fn void(block: &[u8]) -> Self {
        let halves = bits(block, 9, 1) == 1;
        let number = |k| {
            let number = bits(block, 64 + 16 * k, 16) as u16;
            if halves {
                single(number)
            } else {
                u32::from(number >> 8)
            }
        };
        Texel {
            numbers: array::from_fn(number),
            floats: if halves { 15 } else { 0 },
        }
    }

    /// A texel in a partition of this endpoint mode, by the half of each HDR channel and the byte of each other.
    pub fn blended(mode: usize, channels: [u16; CHANNELS]) -> Self {
        let floats = floats(mode);
        let number = |k: usize| match floats >> k & 1 {
            1 => single(channels[k].min(LARGEST)),
            _ => channels[k].into(),
        };
        Texel {
            numbers: array::from_fn(number),
            floats,
        }
    }

    /// The word that the channels come to.
    pub fn word(self) -> u32 {
        let byte = |k| match self.floats >> k & 1 {
            1 => reduced(self.numbers[k]),
            _ => self.numbers[k] as u8,
        };
        let [red, green, blue, alpha] = array::from_fn(byte);
        u32::from_le_bytes([blue, green, red, alpha])
    }
}

/// The refusal of a call for channels by its options and sizes alone, if there is one: 23, 20, 21 or 22, in this order. The outputs
/// have room for so many numbers and for the marks of so many texels. No option is known yet.
pub fn channels_refusal(
    options: u32,
    block_len: usize,
    (bw, bh): (usize, usize),
    (numbers, floats): (usize, usize),
) -> Option<u32> {
    if options != 0 {
        return Some(23);
    }
    let texels = floats.min(numbers / CHANNELS);
    refusal(block_len, bw, bh, texels, bw.saturating_mul(bh))
}

#[cfg(test)]
mod tests {
    use super::*;
    use crate::FOOTPRINTS;

    /// The number that a finite half is.
    fn value(half: u16) -> f64 {
        let (exponent, fraction) = (i32::from(half >> 10 & 31), f64::from(half & 0x3ff));
        let sign = if half >> 15 == 1 { -1.0 } else { 1.0 };
        sign * match exponent {
            0 => fraction * 2f64.powi(-24),
            _ => (1024.0 + fraction) * 2f64.powi(exponent - 25),
        }
    }

    #[test]
    fn a_half_is_the_equal_float() {
        for half in (0..=u16::MAX).filter(|half| half & 0x7c00 != 0x7c00) {
            let float = f32::from_bits(single(half));
            assert_eq!(f64::from(float), value(half), "{half:04x}");
            assert_eq!(float.is_sign_negative(), half >> 15 == 1, "{half:04x}");
        }
        let others = [0x7c00, 0xfc00, 0x7c01, 0xfc01, 0x7e00, 0xffff].map(single);
        let signed = |bits: u32| [bits, bits | 1 << 31];
        assert_eq!(others[..2], signed(0x7f80_0000));
        assert_eq!(others[2..4], signed(0x7fc0_0000));
        assert_eq!(others[4..], signed(0x7fc0_0000));
    }

    #[test]
    fn floats_are_reduced_to_words() {
        let texel = |numbers: [u32; 4], floats| Texel { numbers, floats };
        let halves = |halves: [u16; 4]| texel(halves.map(single), 15);
        assert_eq!(texel([1, 2, 3, 4], 0).word(), 0x0401_0203);
        assert_eq!(halves([0x3800, 0x3c00, 0x7bff, 0x7c00]).word(), 0xff7f_ffff);
        assert_eq!(halves([0xfc00, 0xfe00, 0x7e00, 0xb800]).word(), 0x00ff_0000);
        assert_eq!(texel([7, 8, single(0x3800), 9], 4).word(), 0x0907_087f);
        assert_eq!(Texel::MAGENTA.word(), crate::MAGENTA);
    }

    #[test]
    fn modes_mark_colour_and_alpha() {
        assert_eq!([0, 2, 7, 11, 13].map(floats), [0, 15, 15, 15, 0]);
        assert_eq!(
            Texel::blended(14, [0x7c00, 0x7fff, 0x3c00, 200]),
            Texel {
                numbers: [0x477f_e000, 0x477f_e000, 0x3f80_0000, 200],
                floats: 7
            }
        );
    }

    #[test]
    fn void_blocks_are_bytes_or_floats() {
        let mut block = [0xff; 16];
        block[..2].copy_from_slice(&[0xfc, 0xfd]);
        block[8..].copy_from_slice(&[1, 2, 3, 0xfc, 0, 0x80, 0, 0x3c]);
        let bytes = Texel::void(&block);
        assert_eq!((bytes.numbers, bytes.floats), ([2, 252, 128, 60], 0));
        block[1] = 0xff;
        let halves = Texel::void(&block);
        let numbers = [0x3800_4000, 0xffc0_0000, 0x8000_0000, 0x3f80_0000];
        assert_eq!((halves.numbers, halves.floats), (numbers, 15));
    }

    #[test]
    fn channels_are_refused_in_order() {
        let unlisted = (4, 5);
        assert_eq!(channels_refusal(1, 15, unlisted, (0, 0)), Some(23));
        assert_eq!(channels_refusal(0, 15, unlisted, (0, 0)), Some(20));
        assert_eq!(channels_refusal(0, 16, unlisted, (0, 0)), Some(21));
        for (bw, bh) in FOOTPRINTS {
            let texels = bw * bh;
            let refusal = |room| channels_refusal(0, 16, (bw, bh), room);
            assert_eq!(refusal((4 * texels - 1, texels)), Some(22));
            assert_eq!(refusal((4 * texels, texels - 1)), Some(22));
            assert_eq!(refusal((4 * texels, texels)), None);
        }
    }
}
