//! The stored HDR file, which astcenc made: its floats are those that astcenc decodes, bit for bit, and its bytes are so to within 1.

use astc::{image_channels, Channel};
use picture::container;
use std::fs;

mod common;
use common::{decoded_by_astcenc, float, halves, stored};

/// The channels of the stored file, pixel by pixel.
fn channels() -> Vec<[Channel; 4]> {
    let file = fs::read(stored("hdr-6x6.astc")).unwrap();
    let c = container::read(&file).unwrap();
    let mut pixels = vec![[Channel::Byte(0); 4]; c.width * c.height];
    image_channels(c.blocks, c.width, c.height, c.footprint, &mut pixels).unwrap();
    pixels
}

/// Holds the stored file's channels to a decoding by astcenc.
fn compare(ktx: &[u8]) {
    let (ours, theirs) = (channels(), halves(ktx));
    assert_eq!(ours.len(), theirs.len());
    for (ours, theirs) in ours.iter().zip(theirs) {
        for (channel, half) in ours.iter().zip(theirs) {
            let float = float(half);
            match *channel {
                Channel::Float(f) => assert_eq!(f.to_bits(), float.to_bits(), "{ours:?}"),
                Channel::Byte(b) => assert!((f32::from(b) - 255.0 * float).abs() <= 1.0),
            }
        }
    }
}

#[test]
fn floats_are_those_that_astcenc_gave() {
    compare(&fs::read(stored("hdr-6x6.ktx")).unwrap());
}

#[test]
fn floats_are_those_that_astcenc_gives() {
    if let Some(ktx) = decoded_by_astcenc(&stored("hdr-6x6.astc"), "-dH", "ktx") {
        compare(&ktx);
    }
}

#[test]
fn the_file_has_channels_of_all_kinds() {
    let pixels = channels();
    let count = |floats: [bool; 4]| {
        let kind = |pixel: &&[Channel; 4]| pixel.map(Channel::is_float) == floats;
        pixels.iter().filter(kind).count()
    };
    let (ldr, hdr, mixed) = (
        count([false; 4]),
        count([true; 4]),
        count([true, true, true, false]),
    );
    assert!(ldr > 500 && hdr > 500 && mixed > 100);
    assert_eq!(ldr + hdr + mixed, pixels.len());
    let reds = || pixels.iter().map(|pixel| pixel[0].to_f32());
    assert!(reds().any(|red| red > 50.0) && reds().any(|red| red < 0.02));
}
