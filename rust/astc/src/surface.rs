//! The archive's five functions, over slices. Nothing else in this crate calls them.

use crate::raw::{
    astc_block_channels, astc_block_map, astc_decode_block, astc_decode_image, astc_image_step,
};
use crate::{Answer, Footprint};

pub fn decode_block(block: &[u8], f: Footprint, out: &mut [u32]) -> Answer {
    // SAFETY: each pointer has as many places as the length after it says, and only `out` is written.
    Answer::of_call(unsafe {
        astc_decode_block(
            block.as_ptr(),
            block.len(),
            f.width(),
            f.height(),
            out.as_mut_ptr(),
            out.len(),
        )
    })
}

pub fn block_map(block: &[u8], f: Footprint, map: &mut [u32; 9]) -> Answer {
    // SAFETY: each pointer has as many places as the length after it says, and only `map` is written.
    Answer::of_call(unsafe {
        astc_block_map(
            block.as_ptr(),
            block.len(),
            f.width(),
            f.height(),
            map.as_mut_ptr(),
            map.len(),
        )
    })
}

pub fn block_channels(
    block: &[u8],
    f: Footprint,
    channels: &mut [u32],
    floats: &mut [u8],
) -> Answer {
    // SAFETY: each pointer has as many places as the length after it says, and only `channels` and `floats` are written.
    Answer::of_call(unsafe {
        astc_block_channels(
            0,
            block.as_ptr(),
            block.len(),
            f.width(),
            f.height(),
            channels.as_mut_ptr(),
            channels.len(),
            floats.as_mut_ptr(),
            floats.len(),
        )
    })
}

pub fn decode_image(
    data: &[u8],
    width: usize,
    height: usize,
    f: Footprint,
    out: &mut [u32],
) -> Answer {
    // SAFETY: each pointer has as many places as the length after it says, and only `out` is written.
    Answer::of_call(unsafe {
        astc_decode_image(
            data.as_ptr(),
            data.len(),
            width,
            height,
            f.width(),
            f.height(),
            out.as_mut_ptr(),
            out.len(),
        )
    })
}

/// The answer, and the next block, the blocks painted and the bad ones.
pub fn image_step(
    data: &[u8],
    (width, height): (usize, usize),
    f: Footprint,
    next: usize,
    blocks: usize,
    out: &mut [u32],
) -> (Answer, [u64; 3]) {
    let mut moved = [0; 3];
    // SAFETY: each pointer has as many places as the length after it says, and only `out` and `moved` are written.
    let number = unsafe {
        astc_image_step(
            data.as_ptr(),
            data.len(),
            width,
            height,
            f.width(),
            f.height(),
            next,
            blocks,
            out.as_mut_ptr(),
            out.len(),
            moved.as_mut_ptr(),
            moved.len(),
        )
    };
    (Answer::of_call(number), moved)
}
