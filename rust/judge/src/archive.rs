//! The functions of the archive, over slices.

use astc::raw::{
    astc_block_channels, astc_block_map, astc_decode_block, astc_decode_image, astc_image_step,
};
use model::Shape;

/// Paints a block; the answer.
pub fn decode_block(block: &[u8], bw: usize, bh: usize, out: &mut [u32]) -> u32 {
    // SAFETY: both parts are as long as they are said to be, and only `out` is written.
    unsafe {
        astc_decode_block(
            block.as_ptr(),
            block.len(),
            bw,
            bh,
            out.as_mut_ptr(),
            out.len(),
        )
    }
}

/// Writes the map of a block; the answer.
pub fn block_map(block: &[u8], bw: usize, bh: usize, map: &mut [u32]) -> u32 {
    // SAFETY: both parts are as long as they are said to be, and only `map` is written.
    unsafe {
        astc_block_map(
            block.as_ptr(),
            block.len(),
            bw,
            bh,
            map.as_mut_ptr(),
            map.len(),
        )
    }
}

/// Writes the channels of a block, and which of them are floats; the answer.
pub fn block_channels(
    options: u32,
    block: &[u8],
    bw: usize,
    bh: usize,
    channels: &mut [u32],
    floats: &mut [u8],
) -> u32 {
    // SAFETY: the three parts are as long as they are said to be and lie apart, and only `channels` and `floats` are written.
    unsafe {
        astc_block_channels(
            options,
            block.as_ptr(),
            block.len(),
            bw,
            bh,
            channels.as_mut_ptr(),
            channels.len(),
            floats.as_mut_ptr(),
            floats.len(),
        )
    }
}

/// Paints an image; the answer.
pub fn decode_image(data: &[u8], shape: Shape, out: &mut [u32]) -> u32 {
    // SAFETY: both parts are as long as they are said to be, and only `out` is written.
    unsafe {
        astc_decode_image(
            data.as_ptr(),
            data.len(),
            shape.width,
            shape.height,
            shape.bw,
            shape.bh,
            out.as_mut_ptr(),
            out.len(),
        )
    }
}

/// Paints at most so many blocks of an image from block `next` on, and writes where that leads and what was painted; the answer.
pub fn image_step(
    data: &[u8],
    shape: Shape,
    next: usize,
    blocks: usize,
    out: &mut [u32],
    moved: &mut [u64],
) -> u32 {
    // SAFETY: the three parts are as long as they are said to be and lie apart, and only `out` and `moved` are written.
    unsafe {
        astc_image_step(
            data.as_ptr(),
            data.len(),
            shape.width,
            shape.height,
            shape.bw,
            shape.bh,
            next,
            blocks,
            out.as_mut_ptr(),
            out.len(),
            moved.as_mut_ptr(),
            moved.len(),
        )
    }
}
