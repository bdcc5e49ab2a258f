//! Draws the pictures that the stored .astc files are made of, in files that astcenc reads: `draw small OUT.png`, `draw light OUT.ktx`
//! for the HDR one, and `draw scene OUT.png`.
//!
//! The first two have smooth parts, sharp edges, fine stripes and an alpha that changes, so that an encoder uses many kinds of blocks.

mod scene;

use picture::png::png;
use std::process::ExitCode;
use std::{env, fs};

const USAGE: &str = "usage: draw small OUT.png, or draw light OUT.ktx, or draw scene OUT.png";

const WIDTH: usize = 61;
const HEIGHT: usize = 47;

/// The word of a pixel.
fn pixel(x: usize, y: usize) -> u32 {
    let (dx, dy) = (x.abs_diff(20), y.abs_diff(24));
    let word = |red: usize, green: usize, blue: usize, alpha: usize| {
        u32::from_le_bytes([blue as u8, green as u8, red as u8, alpha as u8])
    };
    if dx * dx + dy * dy < 150 {
        word(230, 40 + 8 * dy, 30, 255)
    } else if x > 44 {
        word(255 * ((x + y) & 1), 128, 255 * ((y >> 1) & 1), 255)
    } else if y > 38 {
        word(4 * x, 4 * x, 4 * x, 255 - 4 * x)
    } else {
        word(3 * x, 5 * y, 200 - 2 * x, 255)
    }
}

/// Red, green, blue and alpha of a pixel of the HDR picture: a lamp on a dark rod, whiter the brighter it is; a bright window; a grey ramp
/// of ten stops; and below it colours up to 1.0.
///
/// Its colours are chosen so that the original and astcenc agree on the HDR blocks that astcenc makes of it: they read offsets below 0
/// (endpoint modes 11 and 14) in two ways.
fn light(x: usize, y: usize) -> [f32; 4] {
    let (dx, dy) = (x.abs_diff(20), y.abs_diff(14));
    let along = x as f32 / 60.0;
    match (x, y) {
        (_, 42..) => [along, along, along, 1.0 - along],
        (_, 36..) => [along, 0.5, ((x + y) & 1) as f32, 1.0],
        (_, 30..) => {
            let stop = (1 << (x / 6)) as f32 / 64.0;
            let grey = stop * (1.0 + (x % 6) as f32 / 6.0);
            [grey, grey, grey, 1.0]
        }
        (48.., ..12) => [12.0, 9.0, 5.0, 1.0],
        (19..22, 15..) => [0.02, 0.02, 0.02, 1.0],
        _ => {
            let red = 0.05 + 80.0 / (1.0 + (dx * dx + dy * dy) as f32 / 6.0);
            let white = red / (red + 4.0);
            let alpha = if x < 48 { 1.0 } else { 1.5 - along };
            let green = red * (0.3 + 0.7 * white);
            let blue = red * (0.05 + 0.95 * white * white);
            [red, green, blue, alpha]
        }
    }
}

/// A KTX file of floats.
fn ktx(pixels: &[[f32; 4]], width: usize, height: usize) -> Vec<u8> {
    const FLOAT: u32 = 0x1406;
    const RGBA: u32 = 0x1908;
    const RGBA32F: u32 = 0x8814;
    let (width, height) = (width as u32, height as u32);
    let size = 16 * width * height;
    let mut file = b"\xabKTX 11\xbb\r\n\x1a\n".to_vec();
    // the order of bytes; a channel's type and bytes; the format, thrice; width, height, no depth; no array, one face, one level;
    // no keys; the size of the level that follows
    let numbers = [
        0x04030201, FLOAT, 4, RGBA, RGBA32F, RGBA, width, height, 0, 0, 1, 1, 0, size,
    ];
    file.extend(numbers.iter().flat_map(|n| n.to_le_bytes()));
    file.extend(pixels.as_flattened().iter().flat_map(|f| f.to_le_bytes()));
    file
}

/// What a function gives for each pixel, row by row.
fn drawn<P>(width: usize, height: usize, of: fn(usize, usize) -> P) -> Vec<P> {
    (0..width * height)
        .map(|k| of(k % width, k / width))
        .collect()
}

/// The file of a picture, if there is one of that name.
fn file(name: &str) -> Option<Vec<u8>> {
    let (width, height) = (scene::WIDTH, scene::HEIGHT);
    match name {
        "small" => Some(png(&drawn(WIDTH, HEIGHT, pixel), WIDTH, HEIGHT)),
        "light" => Some(ktx(&drawn(WIDTH, HEIGHT, light), WIDTH, HEIGHT)),
        "scene" => Some(png(&drawn(width, height, scene::pixel), width, height)),
        _ => None,
    }
}

/// Says what is known.
fn refuse() -> ExitCode {
    eprintln!("{USAGE}");
    ExitCode::from(2)
}

fn main() -> ExitCode {
    let words: Vec<String> = env::args().skip(1).collect();
    let [name, out] = words.as_slice() else {
        return refuse();
    };
    let Some(file) = file(name) else {
        return refuse();
    };
    match fs::write(out, file) {
        Ok(()) => ExitCode::SUCCESS,
        Err(error) => {
            eprintln!("draw: {out} was not written: {error}");
            ExitCode::FAILURE
        }
    }
}
