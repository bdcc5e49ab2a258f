//! Texels channel by channel: bytes, and floats where a block is HDR.

use crate::image::check;
use crate::{surface, Answer, Footprint};
use core::array;

/// A channel of a texel. A texel is four of them: red, green, blue, alpha.
///
/// In a block with endpoints a channel is a float where its pair of endpoints is HDR. Such a float is neither infinite nor a
/// NaN, and at most 65504. In a void-extent block all four channels are floats, or none: the block's halves, of any value.
#[derive(Clone, Copy, Debug, PartialEq)]
pub enum Channel {
    /// An LDR channel, the same as in the texel's word: 255 stands for 1.0.
    Byte(u8),
    /// An HDR channel. Its bits are those that the C surface gives: a NaN is 0x7fc00000 or, with its sign, 0xffc00000.
    Float(f32),
}

impl Channel {
    /// The channel as a float, with 1.0 for white: a byte divided by 255, a float as it is.
    ///
    /// ```
    /// use astc::Channel;
    /// assert_eq!(Channel::Byte(255).to_f32(), 1.0);
    /// assert_eq!(Channel::Byte(51).to_f32(), 0.2);
    /// assert_eq!(Channel::Float(6.5).to_f32(), 6.5);
    /// ```
    pub const fn to_f32(self) -> f32 {
        match self {
            Channel::Byte(byte) => byte as f32 / 255.0,
            Channel::Float(float) => float,
        }
    }

    /// Whether the channel is a float.
    ///
    /// ```
    /// use astc::Channel;
    /// assert!(Channel::Float(0.5).is_float());
    /// assert!(!Channel::Byte(128).is_float());
    /// ```
    pub const fn is_float(self) -> bool {
        matches!(self, Channel::Float(_))
    }
}

/// The texels of the largest footprint.
const TEXELS: usize = 144;

/// A block's texels as the archive writes them.
struct Texels {
    /// Four numbers a texel.
    numbers: [u32; 4 * TEXELS],
    /// Which of a texel's numbers are the bits of a float: red by 1, green by 2, blue by 4, alpha by 8.
    floats: [u8; TEXELS],
}

impl Texels {
    const fn new() -> Texels {
        Texels {
            numbers: [0; 4 * TEXELS],
            floats: [0; TEXELS],
        }
    }

    /// Reads a block's texels, with room for so many of them; or the archive refuses it.
    fn read(&mut self, block: &[u8], footprint: Footprint, room: usize) -> Result<Answer, Answer> {
        let room = room.min(TEXELS);
        let (numbers, floats) = (&mut self.numbers[..4 * room], &mut self.floats[..room]);
        surface::block_channels(block, footprint, numbers, floats).carried_out()
    }

    /// The channels of a texel that was read.
    fn texel(&self, i: usize) -> [Channel; 4] {
        array::from_fn(|k| {
            let number = self.numbers[4 * i + k];
            if self.floats[i] >> k & 1 == 1 {
                Channel::Float(f32::from_bits(number))
            } else {
                // at most 255
                Channel::Byte(number as u8)
            }
        })
    }
}

/// Writes the channels of a block's texels to the first places of `out`, and gives the block's answer.
///
/// Blocks that break a rule are magenta, in bytes. The call is refused, and `out` left as it was, by [`Answer::BlockLength`] or
/// [`Answer::OutputTooShort`]; places after the block's texels never change.
///
/// A block whose colour is HDR and whose alpha is not; its first texel has the second endpoint, the others the first:
///
/// ```
/// use astc::{block_channels, Answer, Channel, Footprint};
/// use Channel::{Byte, Float};
/// let block = [0x42, 0xc0, 0xf1, 0x20, 1, 0x31, 0x89, 0xa1, 1, 0xff, 1, 0, 0, 0, 0, 0xc0];
/// let mut texels = [[Byte(0); 4]; 16];
/// let answer = block_channels(&block, Footprint::new(4, 4).unwrap(), &mut texels);
/// assert_eq!(answer, Ok(Answer::Legal));
/// assert_eq!(texels[0], [Float(8.0), Float(16.0), Float(32.0), Byte(255)]);
/// assert_eq!(texels[1..], [[Float(1.0), Float(2.0), Float(4.0), Byte(128)]; 15]);
/// ```
///
/// A void-extent block of the halves 1.0, 2.0, -1.0 and infinity:
///
/// ```
/// use astc::{block_channels, Answer, Channel, Footprint};
/// let block = [0xfc, 0xff, 0xff, 0xff, 0xff, 0xff, 0xff, 0xff, 0, 0x3c, 0, 0x40, 0, 0xbc, 0, 0x7c];
/// let mut texels = [[Channel::Byte(0); 4]; 16];
/// let answer = block_channels(&block, Footprint::new(4, 4).unwrap(), &mut texels);
/// assert_eq!(answer, Ok(Answer::VoidExtent));
/// assert_eq!(texels, [[1.0, 2.0, -1.0, f32::INFINITY].map(Channel::Float); 16]);
/// ```
pub fn block_channels(
    block: &[u8],
    footprint: Footprint,
    out: &mut [[Channel; 4]],
) -> Result<Answer, Answer> {
    let mut texels = Texels::new();
    let answer = texels.read(block, footprint, out.len())?;
    for (i, texel) in out.iter_mut().take(footprint.texels()).enumerate() {
        *texel = texels.texel(i);
    }
    Ok(answer)
}

/// Writes the channels of an image's pixels to the first `width * height` places of `out`, row by row.
///
/// Blocks that break a rule are magenta, in bytes. The image is refused, and `out` left as it was, as by
/// [`decode_image`](crate::decode_image).
///
/// ```
/// use astc::{image_channels, Channel, Footprint};
/// let light = [0xfc, 0xff, 0xff, 0xff, 0xff, 0xff, 0xff, 0xff, 0, 0x3c, 0, 0x40, 0, 0x44, 0, 0x3c];
/// let reserved = [0; 16];
/// let data = [light, reserved].concat();
/// let mut pixels = [[Channel::Byte(0); 4]; 6];
/// image_channels(&data, 6, 1, Footprint::new(5, 4).unwrap(), &mut pixels)?;
/// assert_eq!(pixels[4], [1.0, 2.0, 4.0, 1.0].map(Channel::Float));
/// assert_eq!(pixels[5], [255, 0, 255, 255].map(Channel::Byte));
/// # Ok::<(), astc::Answer>(())
/// ```
pub fn image_channels(
    data: &[u8],
    width: usize,
    height: usize,
    footprint: Footprint,
    out: &mut [[Channel; 4]],
) -> Result<(), Answer> {
    check(data, width, height, footprint, out.len())?;
    let (bw, bh) = (footprint.width(), footprint.height());
    let blocks = data.chunks(16 * width.div_ceil(bw));
    let mut texels = Texels::new();
    for (blocks, rows) in blocks.zip(out[..width * height].chunks_mut(width * bh)) {
        for (column, block) in blocks.chunks(16).enumerate() {
            // never refused: the image was checked, and each of its blocks has 16 bytes
            let _ = texels.read(block, footprint, TEXELS)?;
            for (y, row) in rows.chunks_mut(width).enumerate() {
                for (x, pixel) in row[column * bw..].iter_mut().take(bw).enumerate() {
                    *pixel = texels.texel(y * bw + x);
                }
            }
        }
    }
    Ok(())
}
