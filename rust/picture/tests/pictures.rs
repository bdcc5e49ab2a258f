//! The stored .astc files, which astcenc made: every word equals the original's, and of the LDR ones astcenc's own decoding to within 1.

use astc::Footprint;
use picture::container::{self, Container};
use std::fs;
use std::path::PathBuf;

mod common;
use common::{decoded_by_astcenc, stored};

/// The stored files of the LDR drawing, one for each footprint.
fn files() -> Vec<PathBuf> {
    Footprint::ALL
        .iter()
        .map(|footprint| stored(&format!("{footprint}.astc")))
        .collect()
}

fn decode(c: &Container) -> Vec<u32> {
    let mut words = vec![0; c.width * c.height];
    astc::decode_image(c.blocks, c.width, c.height, c.footprint, &mut words).unwrap();
    words
}

#[test]
fn every_word_is_the_originals() {
    for path in files().into_iter().chain([stored("hdr-6x6.astc")]) {
        let file = fs::read(&path).unwrap();
        let c = container::read(&file).unwrap();
        let (bw, bh) = (c.footprint.width(), c.footprint.height());
        let mut theirs = vec![0; c.width * c.height];
        original::astc::decode_astc(c.blocks, c.width, c.height, bw, bh, &mut theirs).unwrap();
        assert!(decode(&c) == theirs, "{}", path.display());
    }
}

/// The words of a TGA file of 32 bits a pixel in packets, the first row first. A packet is a count, and one pixel for all or one for
/// each.
fn tga(file: &[u8], width: usize, height: usize) -> Vec<u32> {
    assert_eq!((file[2], file[16]), (10, 32), "astcenc writes TGA files so");
    let mut rest = &file[18 + usize::from(file[0])..];
    let mut words = Vec::with_capacity(width * height);
    while words.len() < width * height {
        let count = usize::from(rest[0] % 128) + 1;
        let given = if rest[0] < 128 { count } else { 1 };
        let (pixels, after) = rest[1..].split_at(4 * given);
        let pixels = pixels
            .chunks(4)
            .map(|p| u32::from_le_bytes(p.try_into().unwrap()));
        words.extend(pixels.cycle().take(count));
        rest = after;
    }
    if file[17] & 0x20 == 0 {
        words = words.chunks(width).rev().flatten().copied().collect();
    }
    words
}

#[test]
fn astcenc_agrees_to_within_one() {
    for path in files() {
        let file = fs::read(&path).unwrap();
        let c = container::read(&file).unwrap();
        let Some(theirs) = decoded_by_astcenc(&path, "-dl", "tga") else {
            return;
        };
        let theirs = tga(&theirs, c.width, c.height);
        for (ours, theirs) in decode(&c).iter().zip(&theirs) {
            let pairs = ours.to_le_bytes().into_iter().zip(theirs.to_le_bytes());
            for (a, b) in pairs {
                assert!(
                    a.abs_diff(b) <= 1,
                    "{}: {ours:08x}, {theirs:08x}",
                    path.display()
                );
            }
        }
    }
}
