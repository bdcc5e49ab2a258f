//! The program's files, what it says of them, and what it makes of other words.

use astc::{decode_image, image_channels, Channel, Footprint};
use picture::container;
use std::fs;
use std::path::Path;
use std::process::{Command, Output};

mod common;
use common::{float, halves, scratch, stored};

fn program() -> Command {
    Command::new(env!("CARGO_BIN_EXE_picture"))
}

fn run(input: &Path, output: &Path) -> Output {
    program().args([input, output]).output().unwrap()
}

/// What the program says of a file, and the floats' bits of its PFM file, the top row first.
fn pfm(input: &Path, name: &str, width: usize, height: usize) -> (String, Vec<[u32; 3]>) {
    let output = scratch(name);
    let said = run(input, &output);
    assert!(said.status.success() && said.stderr.is_empty());
    let file = fs::read(&output).unwrap();
    fs::remove_file(&output).unwrap();
    let header = format!("PF\n{width} {height}\n-1.0\n");
    let rows = file.strip_prefix(header.as_bytes()).unwrap();
    assert_eq!(rows.len(), 12 * width * height);
    let pixels = rows
        .chunks(12 * width)
        .rev()
        .flat_map(|row| row.chunks(12))
        .map(|p| {
            std::array::from_fn(|k| u32::from_le_bytes(p[4 * k..4 * k + 4].try_into().unwrap()))
        })
        .collect();
    (String::from_utf8(said.stdout).unwrap(), pixels)
}

/// An .astc file of a footprint of 4x4.
fn astc_file(width: usize, height: usize, blocks: &[[u8; 16]]) -> Vec<u8> {
    let mut file = vec![0x13, 0xab, 0xa1, 0x5c, 4, 4, 1];
    for side in [width, height, 1] {
        file.extend(&side.to_le_bytes()[..3]);
    }
    file.extend(blocks.as_flattened());
    file
}

#[test]
fn the_stored_files_floats_and_their_count() {
    let file = fs::read(stored("hdr-6x6.astc")).unwrap();
    let c = container::read(&file).unwrap();
    let mut words = vec![0; c.width * c.height];
    decode_image(c.blocks, c.width, c.height, c.footprint, &mut words).unwrap();
    let theirs = halves(&fs::read(stored("hdr-6x6.ktx")).unwrap());
    let (said, pixels) = pfm(&stored("hdr-6x6.astc"), "stored.pfm", c.width, c.height);

    // the last two rows of blocks are LDR
    let ldr = 36 * c.width;
    for (pixel, halves) in pixels.iter().zip(&theirs).take(ldr) {
        let halves = [halves[0], halves[1], halves[2]];
        assert_eq!(*pixel, halves.map(|half| float(half).to_bits()));
    }
    for (pixel, word) in pixels.iter().zip(&words).skip(ldr) {
        let [blue, green, red, _] = word.to_le_bytes();
        let bytes = [red, green, blue];
        assert_eq!(*pixel, bytes.map(|b| (f32::from(b) / 255.0).to_bits()));
    }
    // 0x3c00 is the half of 1.0
    let above = theirs
        .iter()
        .filter(|pixel| pixel[..3].iter().any(|half| *half > 0x3c00))
        .count();
    assert!(above > 100);
    assert_eq!(
        said,
        format!("61x47 pixels, 88 blocks of 6x6, 0 of them magenta\n{above} pixels above 1.0\n")
    );
}

#[test]
fn infinities_nans_and_magenta() {
    let void = |halves: [u16; 4]| -> [u8; 16] {
        let mut block = [0xff; 16];
        block[0] = 0xfc;
        let bytes = halves.map(u16::to_le_bytes);
        block[8..].copy_from_slice(bytes.as_flattened());
        block
    };
    let blocks = [
        void([0x3c00, 0x7c00, 0x8000, 0x3c00]),
        [0; 16],
        void([0x7e01, 0xfe01, 0xfc00, 0x7c00]),
        void([0x3c00, 0x3c00, 0x3c00, 0x4000]),
        void([0x0001, 0x0000, 0x3c01, 0x0000]),
    ];
    let input = scratch("special.astc");
    fs::write(&input, astc_file(18, 3, &blocks)).unwrap();
    let (said, pixels) = pfm(&input, "special.pfm", 18, 3);
    fs::remove_file(&input).unwrap();
    let colours = [
        [0x3f80_0000, 0x7f80_0000, 0x8000_0000],
        [0x3f80_0000, 0, 0x3f80_0000],
        [0x7fc0_0000, 0xffc0_0000, 0xff80_0000],
        [0x3f80_0000; 3],
        [0x3380_0000, 0, 0x3f80_2000],
    ];
    for (k, pixel) in pixels.iter().enumerate() {
        assert_eq!(*pixel, colours[k % 18 / 4]);
    }
    // the first block's four columns and the last block's two
    assert_eq!(
        said,
        "18x3 pixels, 5 blocks of 4x4, 1 of them magenta\n18 pixels above 1.0\n"
    );
}

#[test]
fn bands_make_one_picture() {
    let (width, height) = (4094, 66);
    let count = Footprint::ALL[0].blocks(width, height);
    // legal blocks of each endpoint mode in turn, and the numbers that they begin with
    let blocks: Vec<[u8; 16]> = (0..count as u128)
        .map(|n| (0x42 | (n % 16) << 13 | n << 17 | n << 40 | n << 110).to_le_bytes())
        .collect();
    let input = scratch("bands.astc");
    fs::write(&input, astc_file(width, height, &blocks)).unwrap();
    let (said, pixels) = pfm(&input, "bands.pfm", width, height);
    fs::remove_file(&input).unwrap();
    let mut whole = vec![[Channel::Byte(0); 4]; width * height];
    let data = blocks.as_flattened();
    image_channels(data, width, height, Footprint::ALL[0], &mut whole).unwrap();
    let wanted = whole
        .iter()
        .map(|p| [p[0], p[1], p[2]].map(|channel| channel.to_f32().to_bits()));
    assert!(pixels.iter().copied().eq(wanted));
    assert!(said.starts_with("4094x66 pixels, 17408 blocks of 4x4, 0 of them magenta\n"));
}

#[test]
fn help_goes_to_standard_output() {
    for word in ["--help", "-h"] {
        let said = program().arg(word).output().unwrap();
        assert_eq!(said.status.code(), Some(0));
        assert!(said.stdout.starts_with(b"Makes a picture of an .astc file"));
        assert!(said.stderr.is_empty());
    }
}

#[test]
fn other_words_are_refused() {
    for words in [&[][..], &["in.astc"], &["in.astc", "out.png", "more"]] {
        let said = program().args(words).output().unwrap();
        assert_eq!(said.status.code(), Some(2));
        assert!(said.stdout.is_empty());
        assert!(said.stderr.starts_with(b"usage: picture IN.astc OUT.png"));
    }
}

#[test]
fn other_endings_are_not_taken() {
    for name in ["out.hdr", "out.pfm.txt", "out.PFM", "pfm"] {
        let output = scratch(name);
        let said = run(&stored("hdr-6x6.astc"), &output);
        assert_eq!(said.status.code(), Some(2));
        assert!(said.stdout.is_empty() && !output.exists());
        assert!(said.stderr.starts_with(b"usage: picture IN.astc OUT.png"));
    }
}

#[test]
fn a_fault_writes_no_picture() {
    let input = scratch("short.astc");
    fs::write(&input, astc_file(5, 4, &[[0; 16]])).unwrap();
    for input in [&input, &scratch("none.astc")] {
        let output = scratch("fault.pfm");
        let said = run(input, &output);
        assert_eq!(said.status.code(), Some(1));
        assert!(said.stdout.is_empty() && !output.exists());
    }
    fs::remove_file(&input).unwrap();
}
