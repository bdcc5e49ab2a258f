//! Inputs to start from: blocks of all kinds at every footprint, their maps and channels, images of them, and sizes that are refused.

use crate::input::*;
use model::blocks::{Kind, Legal};
use model::random::Random;
use model::FOOTPRINTS;
use std::path::Path;
use std::sync::LazyLock;
use std::{fs, io};

/// How many blocks of each kind a footprint has, beside those of each legal configuration.
const OF_A_KIND: usize = 50;

type Block = [u8; 16];

/// The legal configurations of each footprint.
static LEGAL: LazyLock<[Legal; FOOTPRINTS.len()]> =
    LazyLock::new(|| FOOTPRINTS.map(|(bw, bh)| Legal::at(bw, bh)));

/// A block of a kind for the footprint of this place.
pub fn block(kind: Kind, place: usize, random: &mut Random) -> Block {
    kind.block(random, FOOTPRINTS[place], &LEGAL[place])
}

/// The blocks of a footprint: one of each group of legal configurations, and some of each kind.
fn blocks(place: usize, random: &mut Random) -> Vec<Block> {
    let groups = LEGAL[place].of_each_group(random);
    let mut all: Vec<_> = groups.iter().map(|c| c.fill(random)).collect();
    for kind in Kind::ALL.into_iter().chain([Kind::Hdr]) {
        all.extend((0..OF_A_KIND).map(|_| block(kind, place, random)));
    }
    all
}

/// A block's words or its channels with exactly their room, or its map with a place more.
fn of_block(number: usize, place: u8, block: &Block) -> Vec<u8> {
    match number % 4 {
        0 => [&[MAP, place, 129], &block[..]].concat(),
        1 => [&[CHANNELS, place, number as u8, 0, 0], &block[..]].concat(),
        _ => [&[WORDS, place, number as u8, 0], &block[..]].concat(),
    }
}

/// An input with a block of any kind at any footprint.
#[cfg(libfuzzer)]
pub fn any_block(random: &mut Random) -> Vec<u8> {
    let place = random.below(FOOTPRINTS.len());
    let block = block(Kind::of(random.number()), place, random);
    of_block(random.below(256), place as u8, &block)
}

/// Images of blocks, at once and in steps: of one block and of more, clipped or not.
fn of_images(place: u8, blocks: &[Block], random: &mut Random) -> Vec<Vec<u8>> {
    let mut all = Vec::new();
    for [width, height] in [[0, 0], [3, 3], [12, 10], [47, 39]] {
        let data = [(); 6]
            .map(|()| blocks[random.below(blocks.len())])
            .concat();
        all.push([&[IMAGE, place, width, height, 0], &data[..]].concat());
        let step = [1, 2, 0];
        let paces = [0, 2, 6];
        let room = [130];
        let sizes = [&[STEPS, place, width, height], &step[..], &paces, &room].concat();
        all.push([sizes, data].concat());
    }
    all
}

/// Sizes that are any numbers, at their limits and above them, with a block of the footprint of this place.
fn of_any_sizes(place: u8, block: &Block) -> Vec<Vec<u8>> {
    let pair = |(a, b): (usize, usize)| [a.to_le_bytes(), b.to_le_bytes()].concat();
    let (bw, bh) = FOOTPRINTS[usize::from(place)];
    let (high, max) = (1 << (usize::BITS / 2), usize::MAX);
    let mut all = Vec::new();
    for footprint in [
        (bw, bh),
        (bw, bh + 1),
        (bw - 1, bh),
        (0, bh),
        (bw | high, bh),
        (max, max),
    ] {
        for function in [WORDS, MAP, IMAGE, STEPS, CHANNELS] {
            let first = [function | ANY_FOOTPRINT];
            all.push([&first[..], &pair(footprint), &[0; 4], block].concat());
        }
    }
    for sides in [
        (4096, 1),
        (1, 4096),
        (4097, 1),
        (1, 4097),
        (0, 1),
        (1, 1 | high),
        (max, max),
    ] {
        all.push([&[IMAGE | ANY_SIDES, place][..], &pair(sides), &[0], block].concat());
    }
    for step in [(0, 1), (0, 0), (1, max), (2, 1), (max, max)] {
        for places in [2, 3] {
            let sizes = [&[STEPS | ANY_STEP, place, 0, 0][..], &pair(step)].concat();
            all.push([&sizes[..], &[places, 0, 0, 0, 0], block].concat());
        }
    }
    let texels = (bw * bh) as u8;
    for room in [0, 8, 9, texels - 1, texels] {
        all.push([&[WORDS | ANY_ROOM, place, 0, room, 0], &block[..]].concat());
        all.push([&[MAP | ANY_ROOM, place, room, 0], &block[..]].concat());
        let sides = [bw as u8 - 1, bh as u8 - 1];
        let image = [&[IMAGE | ANY_ROOM, place][..], &sides, &[room, 0]].concat();
        all.push([&image[..], block].concat());
    }
    all.extend(of_channels(place, block));
    for length in 0..=16 {
        let block = &block[..length];
        all.push([&[CHANNELS | ANY_LENGTH, place, 0, 0, 0], block].concat());
        all.push([&[WORDS | ANY_LENGTH, place, 0, 0], block, &[0]].concat());
        all.push([&[IMAGE | ANY_LENGTH, place, 0, 0, 0], block].concat());
    }
    all
}

/// A block's channels with rooms at their limits and below them, and with options.
fn of_channels(place: u8, block: &Block) -> Vec<Vec<u8>> {
    let (bw, bh) = FOOTPRINTS[usize::from(place)];
    let texels = (bw * bh) as u16;
    let mut all = Vec::new();
    for numbers in [0, texels, 4 * texels - 1, 4 * texels] {
        for floats in [0, texels - 1, texels] {
            let rooms = [numbers, floats].map(u16::to_le_bytes).concat();
            all.push([&[CHANNELS | ANY_ROOM, place, 0], &rooms[..], block].concat());
        }
    }
    for options in [0u32, 1, 2, 4, 8, 1 << 31, u32::MAX] {
        let first = [CHANNELS | ANY_OPTIONS, place];
        let options = options.to_le_bytes();
        all.push([&first[..], &options, &[0, 0, 0], block].concat());
    }
    all
}

/// All seeds, the same each time.
pub fn all() -> Vec<Vec<u8>> {
    let random = &mut Random::new(1);
    let mut all = Vec::new();
    for place in 0..FOOTPRINTS.len() {
        let blocks = blocks(place, random);
        let place = place as u8;
        let numbered = blocks.iter().enumerate();
        all.extend(numbered.map(|(number, block)| of_block(number, place, block)));
        all.extend(of_images(place, &blocks, random));
        all.extend(of_any_sizes(place, &blocks[0]));
    }
    all
}

/// Writes all seeds into a folder, a file each.
pub fn write(folder: &Path) -> io::Result<()> {
    fs::create_dir_all(folder)?;
    for (number, seed) in all().iter().enumerate() {
        fs::write(folder.join(number.to_string()), seed)?;
    }
    Ok(())
}
