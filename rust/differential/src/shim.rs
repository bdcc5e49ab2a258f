//! Arm's astcenc library, by way of shim.cpp.

use model::Shape;
use std::ffi::{c_int, c_uint, c_void};
use std::ptr::NonNull;

/// What astcenc finds in a block; as in shim.cpp.
#[repr(C)]
#[derive(Default, Debug, PartialEq, Eq)]
pub struct Findings {
    pub error: u32,
    pub dual: u32,
    pub channel: u32,
    pub partitions: u32,
    pub partition_number: u32,
    pub modes: [u32; 4],
    pub endpoint_levels: u32,
    pub weight_levels: u32,
    pub width: u32,
    pub height: u32,
}

extern "C" {
    fn shim_context(bw: c_uint, bh: c_uint, hdr: c_int) -> *mut c_void;
    fn shim_free(context: *mut c_void);
    fn shim_findings(context: *mut c_void, block: *const u8, findings: *mut Findings) -> c_int;
    fn shim_paint(
        context: *mut c_void,
        blocks: *const u8,
        len: usize,
        width: c_uint,
        height: c_uint,
        pixels: *mut c_void,
        floats: c_int,
    ) -> c_int;
    fn shim_encode(
        bw: c_uint,
        bh: c_uint,
        hdr: c_int,
        pixels: *const c_void,
        width: c_uint,
        height: c_uint,
        blocks: *mut u8,
        len: usize,
    ) -> c_int;
}

/// astcenc's state for one footprint and profile, of one thread.
pub struct Context {
    state: NonNull<c_void>,
    bw: usize,
    bh: usize,
}

impl Context {
    pub fn new((bw, bh): (usize, usize), hdr: bool) -> Self {
        // SAFETY: the function takes any numbers.
        let state = unsafe { shim_context(bw as c_uint, bh as c_uint, hdr.into()) };
        let state = NonNull::new(state).expect("astcenc takes every listed footprint");
        Context { state, bw, bh }
    }

    pub fn findings(&mut self, block: &[u8; 16]) -> Findings {
        let mut findings = Findings::default();
        // SAFETY: the state is live, the block has sixteen bytes, and the findings are the shim's.
        let status = unsafe { shim_findings(self.state.as_ptr(), block.as_ptr(), &mut findings) };
        assert_eq!(status, 0, "astcenc answers for every block");
        findings
    }

    /// Red, green, blue and alpha of each texel of a block.
    pub fn paint_block(&mut self, block: &[u8; 16]) -> Vec<u8> {
        let (width, height) = (self.bw, self.bh);
        let mut bytes = vec![0; 4 * width * height];
        self.paint(block, (width, height), &mut bytes);
        bytes
    }

    /// Red, green, blue and alpha of each texel of a block, as floats.
    pub fn paint_block_floats(&mut self, block: &[u8; 16]) -> Vec<f32> {
        let (width, height) = (self.bw, self.bh);
        let mut floats = vec![0.0; 4 * width * height];
        self.paint_floats(block, (width, height), &mut floats);
        floats
    }

    /// Paints red, green, blue and alpha of each pixel of an image.
    pub fn paint(&mut self, data: &[u8], size: (usize, usize), bytes: &mut [u8]) {
        assert_eq!(bytes.len(), 4 * size.0 * size.1, "a byte for each channel");
        // SAFETY: there are four bytes for each pixel.
        unsafe { self.paint_to(data, size, bytes.as_mut_ptr().cast(), false) }
    }

    /// Paints red, green, blue and alpha of each pixel of an image, as floats.
    pub fn paint_floats(&mut self, data: &[u8], size: (usize, usize), floats: &mut [f32]) {
        assert_eq!(
            floats.len(),
            4 * size.0 * size.1,
            "a float for each channel"
        );
        // SAFETY: there are four floats for each pixel.
        unsafe { self.paint_to(data, size, floats.as_mut_ptr().cast(), true) }
    }

    /// # Safety
    ///
    /// There must be room for four bytes, or for four floats, of each pixel.
    unsafe fn paint_to(
        &mut self,
        data: &[u8],
        (width, height): (usize, usize),
        pixels: *mut c_void,
        floats: bool,
    ) {
        // SAFETY: the state is live, astcenc refuses data too short for the image, and the caller sees to the pixels.
        let status = unsafe {
            shim_paint(
                self.state.as_ptr(),
                data.as_ptr(),
                data.len(),
                width as c_uint,
                height as c_uint,
                pixels,
                floats.into(),
            )
        };
        assert_eq!(status, 0, "astcenc paints every image");
    }
}

impl Drop for Context {
    fn drop(&mut self) {
        // SAFETY: the state is live until here.
        unsafe { shim_free(self.state.as_ptr()) }
    }
}

/// Encodes an LDR image of red, green, blue and alpha at medium quality.
pub fn encode_bytes(pixels: &[u8], shape: Shape) -> Vec<u8> {
    assert_eq!(pixels.len(), 4 * shape.pixels(), "a byte for each channel");
    // SAFETY: there are four bytes for each pixel.
    unsafe { encode(pixels.as_ptr().cast(), false, shape) }
}

/// Encodes an HDR image of red, green, blue and alpha, which is LDR, at medium quality.
pub fn encode_floats(pixels: &[f32], shape: Shape) -> Vec<u8> {
    assert_eq!(pixels.len(), 4 * shape.pixels(), "a float for each channel");
    // SAFETY: there are four floats for each pixel.
    unsafe { encode(pixels.as_ptr().cast(), true, shape) }
}

/// # Safety
///
/// There must be four bytes, or for HDR four floats, of each pixel.
unsafe fn encode(pixels: *const c_void, hdr: bool, shape: Shape) -> Vec<u8> {
    let mut blocks = vec![0; 16 * shape.blocks()];
    // SAFETY: the caller sees to the pixels, and the blocks have the room that they are said to have.
    let status = unsafe {
        shim_encode(
            shape.bw as c_uint,
            shape.bh as c_uint,
            hdr.into(),
            pixels,
            shape.width as c_uint,
            shape.height as c_uint,
            blocks.as_mut_ptr(),
            blocks.len(),
        )
    };
    assert_eq!(status, 0, "astcenc encodes every image");
    blocks
}
