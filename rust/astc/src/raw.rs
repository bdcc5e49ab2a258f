//! The C surface as it is, for callers that pass sizes unchecked. `include/astc.h` says what each function does.
//!
//! # Safety
//!
//! Each pointer must have as many places as the length after it says, and an output must overlap nothing else that is passed.

extern "C" {
    /// Paints a block's texels.
    pub fn astc_decode_block(
        block: *const u8,
        block_len: usize,
        bw: usize,
        bh: usize,
        out: *mut u32,
        out_len: usize,
    ) -> u32;

    /// Writes the map of a block, nine numbers.
    pub fn astc_block_map(
        block: *const u8,
        block_len: usize,
        bw: usize,
        bh: usize,
        map: *mut u32,
        map_len: usize,
    ) -> u32;

    /// Writes the channels of a block's texels, four numbers a texel, and which of them are floats.
    pub fn astc_block_channels(
        options: u32,
        block: *const u8,
        block_len: usize,
        bw: usize,
        bh: usize,
        channels: *mut u32,
        channels_len: usize,
        floats: *mut u8,
        floats_len: usize,
    ) -> u32;

    /// Paints an image.
    pub fn astc_decode_image(
        data: *const u8,
        data_len: usize,
        width: usize,
        height: usize,
        bw: usize,
        bh: usize,
        out: *mut u32,
        out_len: usize,
    ) -> u32;

    /// Paints some blocks of an image, and writes where that led, three numbers.
    pub fn astc_image_step(
        data: *const u8,
        data_len: usize,
        width: usize,
        height: usize,
        bw: usize,
        bh: usize,
        next: usize,
        blocks: usize,
        out: *mut u32,
        out_len: usize,
        moved: *mut u64,
        moved_len: usize,
    ) -> u32;
}
