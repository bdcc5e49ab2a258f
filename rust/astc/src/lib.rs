//! Safe Rust over a proved ASTC decoder.
//!
//! Every function takes any slices and sizes and always ends. A word holds blue in its bits 0 to 7, green in 8 to 15, red in 16
//! to 23 and alpha in 24 to 31. There is no state and no global, and nothing is allocated but what threads take.
//!
//! Every call that can fail gives a `Result`. `Ok` means that it was carried out. `Err` holds the [`Answer`] by which it was
//! refused, and then nothing was written. A block that breaks a rule is carried out too: it is painted magenta, and the `Ok` of
//! [`decode_block`] and [`block_channels`] holds the rule's answer ([`Answer::is_bad`]) where a legal block has
//! [`Answer::Legal`] and a void-extent block [`Answer::VoidExtent`]. [`block_map`] alone has an `Err` for these too, since they
//! have no map.
//!
//! Words end at 1.0. [`block_channels`] and [`image_channels`] give what lies above it too: each channel as a byte or, where
//! the block is HDR, as an `f32`.
//!
//! The build script links the archive of the decoder. It is `libastc.a` in the folder that the variable `ASTC_ARCHIVE` names, or in
//! `target/native` of the repository, where the script has `tools/archive` prove and write it, which takes some minutes the first
//! time and needs the Rattle kit.
//!
//! ```
//! use astc::{decode_block, Answer, Footprint};
//! let block = [0x42, 0, 0, 0xfe, 1, 0, 0, 0, 0, 0, 0, 0, 0, 0, 0, 0xe0];
//! let footprint = Footprint::new(4, 4).unwrap();
//! let mut words = [0; 16];
//! assert_eq!(decode_block(&block, footprint, &mut words), Ok(Answer::Legal));
//! assert_eq!(words[..3], [0xffff_ffff, 0xff54_5454, 0xff00_0000]);
//! assert_eq!(decode_block(&block[1..], footprint, &mut words), Err(Answer::BlockLength));
//! ```
#![no_std]
#![deny(missing_docs)]

#[cfg(any(feature = "std", test))]
extern crate std;

const _: () = assert!(
    usize::BITS == 64,
    "the proofs of the decoder are for machines whose usize has 64 bits"
);

mod answer;
#[cfg(feature = "std")]
mod bands;
mod channels;
mod footprint;
mod image;
pub mod raw;
mod surface;

pub use answer::{Answer, UnknownAnswer};
#[cfg(feature = "std")]
pub use bands::{decode_image_by_threads, image_channels_by_threads};
pub use channels::{block_channels, image_channels, Channel};
pub use footprint::{Footprint, NotAFootprint};
pub use image::{decode_image, Cursor, Step};

/// Where a field of a block stands.
#[derive(Clone, Copy, Debug, PartialEq, Eq, Hash)]
pub struct Field {
    /// Its first bit.
    pub start: u32,
    /// How many bits it has.
    pub length: u32,
}

/// Where the fields of a legal block stand. No bit outside them changes its words.
#[derive(Clone, Copy, Debug, PartialEq, Eq, Hash)]
pub struct Map {
    /// The largest value of the endpoints' range.
    pub largest: u32,
    /// The low configuration.
    pub low: Field,
    /// The endpoints.
    pub endpoints: Field,
    /// The mode bits and channel bits directly below the weights.
    pub extra: Field,
    /// The weights, which end at bit 127.
    pub weights: Field,
}

/// Paints the first words of `out` with a block's texels, and gives the block's answer.
///
/// A block that breaks a rule is magenta. The call is refused, and `out` left as it was, by [`Answer::BlockLength`] or
/// [`Answer::OutputTooShort`]; words after the painted ones never change.
pub fn decode_block(block: &[u8], footprint: Footprint, out: &mut [u32]) -> Result<Answer, Answer> {
    surface::decode_block(block, footprint, out).carried_out()
}

/// The map of a legal block, or the answer of any other, which has none.
///
/// ```
/// use astc::{block_map, Answer, Field, Footprint};
/// let block = [0x42, 0, 0, 0xfe, 1, 0, 0, 0, 0, 0, 0, 0, 0, 0, 0, 0xe0];
/// let map = block_map(&block, Footprint::new(4, 4).unwrap()).unwrap();
/// assert_eq!(map.largest, 255);
/// assert_eq!(map.endpoints, Field { start: 17, length: 16 });
/// assert_eq!(block_map(&[0; 16], Footprint::ALL[0]), Err(Answer::ReservedMode));
/// ```
pub fn block_map(block: &[u8], footprint: Footprint) -> Result<Map, Answer> {
    let mut numbers = [0; 9];
    let answer = surface::block_map(block, footprint, &mut numbers);
    if answer != Answer::Legal {
        return Err(answer);
    }
    let field = |i| Field {
        start: numbers[i],
        length: numbers[i + 1],
    };
    Ok(Map {
        largest: numbers[0],
        low: field(1),
        endpoints: field(3),
        extra: field(5),
        weights: field(7),
    })
}
