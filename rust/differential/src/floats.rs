//! The archive's channels against astcenc's floats, in its profile that knows HDR modes.
//!
//! An HDR channel of a legal block is astcenc's float bit for bit, and so is a void half that is no NaN. An LDR channel is a byte
//! here and a float there, both of one 16-bit number. Three things are apart: an offset of the modes 11, 14 and 15 that the standard
//! takes for a negative one, here makes the first endpoint 0; astcenc keeps what a NaN has beside its sign; and it judges the extents
//! of void blocks.

use crate::run::Tally;
use crate::shim::Context;
use judge::channels::Outputs;
use judge::Sample;
use model::{bits, Layout, Texel, CHANNELS, FOOTPRINTS};
use original::astc::probe::{self, Channel};

/// The endpoint modes whose offsets have another reading in the standard.
const OFFSETS: [usize; 3] = [11, 14, 15];

/// How a channel was held to astcenc's.
#[derive(Clone, Copy)]
enum Held {
    Ldr,
    Hdr,
    /// An HDR channel whose first endpoint is 0, where the standard may have a larger one, that is astcenc's all the same.
    Alike,
    /// Such a channel that is lower.
    Lower,
    Half,
    Nan,
    Sixteen,
}

/// The words for each of them, in the same order.
const NAMES: [&str; 7] = [
    "astcenc: LDR channels of the same 16-bit number",
    "astcenc: HDR channels bit for bit",
    "astcenc: HDR channels where the readings may part, bit for bit",
    "astcenc: HDR channels where the readings part, ours lower",
    "astcenc: void halves bit for bit",
    "astcenc: void NaNs of the same sign",
    "astcenc: void 16-bit numbers",
];

/// The float that astcenc makes of a 16-bit number: 1 of the largest, and of others a 65,536th of the first eleven bits.
fn of_sixteen(number: u32) -> f32 {
    if number == 0xffff {
        return 1.0;
    }
    let low = (32 - number.leading_zeros()).saturating_sub(11);
    (number >> low << low) as f32 / 65536.0
}

/// The 16-bit number between an LDR channel's endpoints.
fn sixteen(channel: Channel) -> u32 {
    let (v0, v1, weight) = (channel.v0, channel.v1, channel.weight);
    (257 * (v0 * (64 - weight) + v1 * weight) + 32) as u32 / 64
}

/// How a channel of a legal block is held to astcenc's, if it is; `offset` is whether its first endpoint has an offset.
fn legal(channel: Channel, offset: bool, ours: u32, theirs: f32) -> Option<Held> {
    let alike = ours == theirs.to_bits();
    if !channel.hdr {
        let number = sixteen(channel);
        let byte = (255 * number + 32768) / 65536;
        (ours == byte && theirs == of_sixteen(number)).then_some(Held::Ldr)
    } else if !offset || channel.v0 != 0 {
        alike.then_some(Held::Hdr)
    } else if alike {
        Some(Held::Alike)
    } else {
        (f32::from_bits(ours) < theirs).then_some(Held::Lower)
    }
}

/// How a channel of a void block is held to astcenc's, if it is.
fn void(number: u32, halves: bool, ours: u32, theirs: f32) -> Option<Held> {
    if !halves {
        let same = ours == number >> 8 && theirs == of_sixteen(number);
        same.then_some(Held::Sixteen)
    } else if f32::from_bits(ours).is_nan() {
        let same = theirs.is_nan() && ours >> 31 == theirs.to_bits() >> 31;
        same.then_some(Held::Nan)
    } else {
        (ours == theirs.to_bits()).then_some(Held::Half)
    }
}

/// astcenc's state for each footprint.
pub struct Astcenc(Vec<Context>);

impl Astcenc {
    pub fn new() -> Self {
        Astcenc(FOOTPRINTS.iter().map(|&f| Context::new(f, true)).collect())
    }

    /// Holds the channels of a block, which are written, to astcenc's.
    pub fn judge(
        &mut self,
        sample: &Sample,
        outputs: &mut Outputs,
        tally: &mut Tally,
    ) -> Result<(), String> {
        let footprint = (sample.bw, sample.bh);
        let place = FOOTPRINTS.iter().position(|&f| f == footprint).unwrap();
        let context = &mut self.0[place];
        let refused = match sample.answer {
            0 => None,
            1 => (context.findings(&sample.block).error != 0)
                .then_some("astcenc: void blocks whose extents it refuses"),
            _ => Some("astcenc: magenta blocks, NaNs there"),
        };
        let theirs = context.paint_block_floats(&sample.block);
        if let Some(what) = refused {
            tally.count(what);
            return match theirs.iter().all(|float| float.is_nan()) {
                true => Ok(()),
                false => Err(format!("astcenc has {theirs:?}")),
            };
        }
        let held = match sample.answer {
            0 => legal_channels(sample, outputs.texels(), &theirs),
            _ => void_channels(sample, outputs.texels(), &theirs),
        }?;
        for (what, count) in NAMES.into_iter().zip(held) {
            tally.add(what, count);
        }
        Ok(())
    }
}

/// How many channels were held in each way.
type Counts = [usize; NAMES.len()];

/// Holds all channels to astcenc's, each in the way that `hold` finds by the texel, the channel and the two.
fn channels(
    ours: impl Iterator<Item = Texel>,
    theirs: &[f32],
    hold: impl Fn(usize, usize, u32, f32) -> Option<Held>,
) -> Result<Counts, String> {
    let mut counts = Counts::default();
    for (i, (ours, theirs)) in ours.zip(theirs.chunks(CHANNELS)).enumerate() {
        for (k, (&number, &float)) in ours.numbers.iter().zip(theirs).enumerate() {
            match hold(i, k, number, float) {
                Some(held) => counts[held as usize] += 1,
                None => {
                    return Err(format!(
                        "channel {k} of texel {i}: ours {number:08x}, astcenc's {:08x}",
                        float.to_bits()
                    ))
                }
            }
        }
    }
    Ok(counts)
}

fn legal_channels(
    sample: &Sample,
    ours: impl Iterator<Item = Texel>,
    theirs: &[f32],
) -> Result<Counts, String> {
    let modes = Layout::of(&sample.block).modes(&sample.block);
    let texels = probe::texels(&sample.block, sample.bw, sample.bh);
    channels(ours, theirs, |i, k, number, float| {
        let texel = &texels[i];
        let offset = k < 3 && OFFSETS.contains(&modes[texel.partition]);
        legal(texel.channels[k], offset, number, float)
    })
}

fn void_channels(
    sample: &Sample,
    ours: impl Iterator<Item = Texel>,
    theirs: &[f32],
) -> Result<Counts, String> {
    let halves = bits(&sample.block, 9, 1) == 1;
    channels(ours, theirs, |_, k, number, float| {
        let sixteen = bits(&sample.block, 64 + 16 * k, 16) as u32;
        void(sixteen, halves, number, float)
    })
}
