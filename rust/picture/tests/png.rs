//! PNG files and their compressed data, read by an independent reader.

use picture::deflate::zlib;
use picture::png::png;

#[path = "common/png.rs"]
mod reader;
use reader::{unpng, unzlib};

/// Numbers by a fixed rule.
fn numbers(seed: u32) -> impl Iterator<Item = u32> {
    let mut state = seed;
    std::iter::repeat_with(move || {
        state = state.wrapping_mul(1_664_525).wrapping_add(1_013_904_223);
        state >> 8
    })
}

#[test]
fn data_of_all_kinds_comes_back() {
    let noise = |count| numbers(1).map(|n| n as u8).take(count).collect::<Vec<u8>>();
    for data in [
        vec![],
        vec![7],
        vec![7; 2],
        vec![7; 3],
        vec![7; 258],
        vec![7; 259],
        vec![7; 260],
        vec![7; 100_000],
        (0..=255).collect(),
        noise(100_000),
        // repetitions from as far back as they may reach, and from farther
        [noise(32_768), noise(300)].concat(),
        [noise(32_769), noise(300)].concat(),
        [noise(24_577), noise(400), noise(5)].concat(),
        numbers(2).map(|n| (n % 3) as u8).take(50_000).collect(),
        numbers(3)
            .map(|n| n.leading_zeros() as u8)
            .take(50_000)
            .collect(),
    ] {
        let file = zlib(&data);
        assert!(unzlib(&file) == data, "{} bytes", data.len());
    }
}

#[test]
fn runs_take_little_room() {
    assert!(zlib(&vec![7; 100_000]).len() < 400);
}

/// A picture whose rows suit each filter, with this alpha.
fn picture(width: usize, height: usize, alpha: fn(u32) -> u32) -> Vec<u32> {
    let noise = numbers(4);
    let pixels = (0..(width * height) as u32).zip(noise);
    pixels
        .map(|(i, noise)| {
            let (x, y) = (i % width as u32, i / width as u32);
            let rgb = match y / 4 % 5 {
                0 => noise & 0xff_ffff,
                1 => 0x03_0201 * (x % 80),
                2 => 0x01_0101 * (x * 37 % 256),
                3 => 0x01_0101 * ((x + y) / 2 % 256),
                _ => 0x01_0100 * (x * x / 7 % 100) + y * y % 256,
            };
            alpha(x) << 24 | rgb & 0xff_ffff
        })
        .collect()
}

#[test]
fn pictures_come_back_with_alpha_and_without() {
    for (width, height) in [(1, 1), (1, 50), (50, 1), (61, 47), (300, 40)] {
        for (alpha, kind) in [
            ((|_| 255) as fn(u32) -> u32, 2),
            (|x| if x == 0 { 254 } else { 255 }, 6),
            (|x| x % 256, 6),
        ] {
            let words = picture(width, height, alpha);
            let file = png(&words, width, height);
            assert_eq!(file[25], kind);
            assert!(unpng(&file) == (words, width, height), "{width}x{height}");
        }
    }
}
