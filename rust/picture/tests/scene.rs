//! The stored scene: the picture of it is what the program makes of the .astc file, word for word as the original has it.

use picture::container;
use std::fs;
use std::process::Command;

mod common;
use common::{scratch, stored};

#[path = "common/png.rs"]
mod reader;

/// The words of the stored picture, its width and its height.
fn picture() -> (Vec<u32>, usize, usize) {
    reader::unpng(&fs::read(stored("scene.png")).unwrap())
}

#[test]
fn the_picture_has_the_words_of_the_scene() {
    let file = fs::read(stored("scene.astc")).unwrap();
    let c = container::read(&file).unwrap();
    let mut words = vec![0; c.width * c.height];
    astc::decode_image(c.blocks, c.width, c.height, c.footprint, &mut words).unwrap();
    assert!(picture() == (words, 480, 320));
}

#[test]
fn the_picture_has_the_words_of_the_original() {
    let file = fs::read(stored("scene.astc")).unwrap();
    let c = container::read(&file).unwrap();
    let (bw, bh) = (c.footprint.width(), c.footprint.height());
    let mut words = vec![0; c.width * c.height];
    original::astc::decode_astc(c.blocks, c.width, c.height, bw, bh, &mut words).unwrap();
    assert!(picture() == (words, 480, 320));
}

#[test]
fn the_program_makes_the_picture() {
    let output = scratch("scene.png");
    let said = Command::new(env!("CARGO_BIN_EXE_picture"))
        .args([&stored("scene.astc"), &output])
        .output()
        .unwrap();
    assert!(said.status.success() && said.stderr.is_empty());
    assert_eq!(
        said.stdout,
        b"480x320 pixels, 4320 blocks of 6x6, 0 of them magenta\n"
    );
    assert!(fs::read(&output).unwrap() == fs::read(stored("scene.png")).unwrap());
    fs::remove_file(&output).unwrap();
}
