//! The stored files, and what astcenc makes of them.

// each test uses some of it
#![allow(dead_code)]

use std::fs;
use std::path::{Path, PathBuf};
use std::process::{self, Command};

/// The path of a stored file.
pub fn stored(name: &str) -> PathBuf {
    Path::new(env!("CARGO_MANIFEST_DIR"))
        .join("../../pictures")
        .join(name)
}

/// A path for a file that a test writes, which no other run of the tests uses.
pub fn scratch(name: &str) -> PathBuf {
    Path::new(env!("CARGO_TARGET_TMPDIR")).join(format!("{}-{name}", process::id()))
}

/// The file that astcenc decodes an .astc file to, with that option and ending, where the command is installed.
pub fn decoded_by_astcenc(path: &Path, option: &str, ending: &str) -> Option<Vec<u8>> {
    if Command::new("astcenc").arg("-version").output().is_err() {
        println!("not compared with astcenc: the command is not installed");
        return None;
    }
    let stem = path.file_stem().unwrap().to_str().unwrap();
    let out = scratch(&format!("{stem}.{ending}"));
    let status = Command::new("astcenc")
        .arg(option)
        .args([path, &out])
        .arg("-silent")
        .status();
    assert!(status.unwrap().success());
    let file = fs::read(&out).unwrap();
    fs::remove_file(&out).unwrap();
    Some(file)
}

/// Red, green, blue and alpha of each pixel as halves, from a KTX file as astcenc writes it: numbers of four bytes from place 12 on, and
/// the pixels from place 68 on, row by row.
pub fn halves(ktx: &[u8]) -> Vec<[u16; 4]> {
    let number = |at: usize| u32::from_le_bytes(ktx[at..at + 4].try_into().unwrap());
    // the order of bytes, halves, RGBA
    let format = [number(12), number(16), number(24)];
    assert_eq!(format, [0x0403_0201, 0x140b, 0x1908]);
    let pixels: Vec<[u16; 4]> = ktx[68..]
        .chunks(8)
        .map(|p| std::array::from_fn(|k| u16::from_le_bytes([p[2 * k], p[2 * k + 1]])))
        .collect();
    assert_eq!(pixels.len(), (number(36) * number(40)) as usize);
    pixels
}

/// The float that a half without a sign equals; neither infinity nor a NaN.
pub fn float(half: u16) -> f32 {
    assert!(half < 0x7c00);
    let digits = f32::from(half & 0x3ff);
    match half >> 10 {
        0 => digits / 16_777_216.0,
        exponent => (1024.0 + digits) * 2f32.powi(i32::from(exponent) - 25),
    }
}
