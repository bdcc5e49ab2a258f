//! Channels of blocks and images: what they are, where they go, and what a refusal leaves alone.

use astc::raw::astc_block_channels;
use astc::{
    block_channels, decode_block, decode_image, image_channels, Answer, Channel, Footprint,
};
use Channel::{Byte, Float};

mod common;
use common::{bits, blocks, Random};

const MAGENTA: [Channel; 4] = [Byte(255), Byte(0), Byte(255), Byte(255)];

/// What no call below writes.
const BEFORE: [Channel; 4] = [Float(0.25), Byte(7), Byte(8), Float(-9.0)];

fn four_by_four() -> Footprint {
    Footprint::new(4, 4).unwrap()
}

/// A legal block of one partition with this endpoint mode and at most eight endpoint values, which it holds in eight bits each. Its
/// weights are all 0, so that each texel is the first endpoint.
fn ordinary(mode: u128, values: &[u8]) -> [u8; 16] {
    let values = (17..)
        .step_by(8)
        .zip(values)
        .map(|(at, &v)| u128::from(v) << at);
    (0x42 | mode << 13 | values.sum::<u128>()).to_le_bytes()
}

/// A void block of four halves.
fn void(halves: [u16; 4]) -> [u8; 16] {
    let mut block = [0xff; 16];
    block[0] = 0xfc;
    for (place, half) in block[8..].chunks_mut(2).zip(halves) {
        place.copy_from_slice(&half.to_le_bytes());
    }
    block
}

/// The answer and the one texel of a block that is all alike.
fn texel(block: &[u8; 16]) -> (Answer, [Channel; 4]) {
    let mut out = [BEFORE; 16];
    let answer = block_channels(block, four_by_four(), &mut out).unwrap();
    assert!(out.iter().all(|t| bits(t) == bits(&out[0])));
    (answer, out[0])
}

#[test]
fn marks_are_those_of_the_endpoint_modes() {
    for (mode, marks) in [0, 0, 15, 15, 0, 0, 0, 15, 0, 0, 0, 15, 0, 0, 7, 15]
        .into_iter()
        .enumerate()
    {
        let (answer, texel) = texel(&ordinary(mode as u128, &[1, 2, 3, 4, 5, 6, 7, 8]));
        assert_eq!(answer, Answer::Legal);
        let found: Vec<bool> = texel.iter().map(|c| c.is_float()).collect();
        let wanted: Vec<bool> = (0..4).map(|k| marks >> k & 1 == 1).collect();
        assert_eq!(found, wanted, "mode {mode}");
    }
}

#[test]
fn ordinary_floats_are_finite_halves() {
    // mode 2: a grey of two equal endpoints, its value in the high eight bits of the blend, its alpha 1.0
    for (value, grey) in [
        (0x00, 0.0),
        (0x01, f32::from_bits(0x36c0_0000)),
        (0x78, 1.0),
        (0x80, 2.0),
        (0x84, 2.875),
        (0xf7, 60416.0),
        // the halves of these are infinity and NaNs
        (0xf8, 65504.0),
        (0xf9, 65504.0),
        (0xff, 65504.0),
    ] {
        let (answer, texel) = texel(&ordinary(2, &[value, value]));
        assert_eq!(answer, Answer::Legal);
        assert_eq!(texel, [grey, grey, grey, 1.0].map(Float), "{value:x}");
    }
}

#[test]
fn an_ldr_alpha_beside_an_hdr_colour() {
    // mode 14 with the major component 3: the values as they are
    let (answer, texel) = texel(&ordinary(14, &[0x78, 0, 0x80, 0, 0xc4, 0x80, 200, 9]));
    assert_eq!(answer, Answer::Legal);
    assert_eq!(texel, [Float(1.0), Float(2.0), Float(4.0), Byte(200)]);
}

#[test]
fn void_halves_are_passed_on_bit_for_bit() {
    for (half, wanted) in [
        (0x0000, 0x0000_0000),
        (0x8000, 0x8000_0000),
        (0x3c00, 0x3f80_0000),
        (0xbc00, 0xbf80_0000),
        (0x0001, 0x3380_0000),
        (0x8001, 0xb380_0000),
        (0x03ff, 0x387f_c000),
        (0x0400, 0x3880_0000),
        (0x7bff, 0x477f_e000),
        (0xfbff, 0xc77f_e000),
        (0x7c00, 0x7f80_0000),
        (0xfc00, 0xff80_0000),
        (0x7c01, 0x7fc0_0000),
        (0x7fff, 0x7fc0_0000),
        (0xfc01, 0xffc0_0000),
        (0xfe00, 0xffc0_0000),
    ] {
        for k in 0..4 {
            let mut halves = [0x3800; 4];
            halves[k] = half;
            let (answer, texel) = texel(&void(halves));
            assert_eq!(answer, Answer::VoidExtent);
            let mut floats = [0x3f00_0000; 4];
            floats[k] = wanted;
            assert_eq!(bits(&texel), floats.map(|n| (true, n)), "{half:04x} at {k}");
        }
    }
}

#[test]
fn void_numbers_are_their_high_bytes() {
    let mut block = void([0x12ff, 0xff00, 0x00ff, 0x8001]);
    block[1] = 0xfd;
    let channels = [0x12, 0xff, 0x00, 0x80].map(Byte);
    assert_eq!(texel(&block), (Answer::VoidExtent, channels));
}

#[test]
fn broken_blocks_are_magenta_in_bytes() {
    assert_eq!(texel(&[0; 16]), (Answer::ReservedMode, MAGENTA));
    // HDR endpoints, and a grid of 8x4 weights in a footprint of 4x4
    let (answer, texel) = texel(&(0x46 | 15 << 13 | 1u128 << 100).to_le_bytes());
    assert_eq!(answer, Answer::GridTooLarge);
    assert_eq!(texel, MAGENTA);
}

#[test]
fn channels_agree_with_words() {
    let mut random = Random::new(6);
    let (mut floats, mut bytes) = (0, 0);
    for block in blocks(&mut random, 20_000).chunks(16) {
        for footprint in [four_by_four(), Footprint::new(12, 10).unwrap()] {
            let mut words = [0; 144];
            let mut texels = [BEFORE; 144];
            let answer = decode_block(block, footprint, &mut words);
            assert_eq!(block_channels(block, footprint, &mut texels), answer);
            for (word, texel) in words.iter().zip(&texels[..footprint.texels()]) {
                let [blue, green, red, alpha] = word.to_le_bytes();
                for (byte, channel) in [red, green, blue, alpha].into_iter().zip(texel) {
                    match *channel {
                        Byte(b) => assert_eq!(b, byte),
                        // in a word the void half of minus infinity is 255, as the original has it
                        Float(f) if f == f32::NEG_INFINITY => assert_eq!(byte, 255),
                        Float(f) => assert_eq!((f * 255.0).floor().clamp(0.0, 255.0) as u8, byte),
                    }
                    *(if channel.is_float() {
                        &mut floats
                    } else {
                        &mut bytes
                    }) += 1;
                }
            }
            assert!(texels[footprint.texels()..].iter().all(|t| *t == BEFORE));
        }
    }
    assert!(floats > 100_000 && bytes > 100_000);
}

#[test]
fn a_refused_block_leaves_the_output_alone() {
    let whole = void([0x3c00; 4]);
    for footprint in Footprint::ALL {
        let texels = footprint.texels();
        for (bytes, room, wanted) in [
            (0, texels, Err(Answer::BlockLength)),
            (15, texels, Err(Answer::BlockLength)),
            (17, texels, Err(Answer::BlockLength)),
            (15, 0, Err(Answer::BlockLength)),
            (17, texels - 1, Err(Answer::BlockLength)),
            (16, 0, Err(Answer::OutputTooShort)),
            (16, texels - 1, Err(Answer::OutputTooShort)),
            (16, texels, Ok(Answer::VoidExtent)),
            (16, 200, Ok(Answer::VoidExtent)),
        ] {
            let block: Vec<u8> = whole.iter().copied().cycle().take(bytes).collect();
            let mut out = vec![BEFORE; room];
            assert_eq!(block_channels(&block, footprint, &mut out), wanted);
            let written = if wanted.is_ok() { texels } else { 0 };
            assert!(out[..written].iter().all(|t| *t == [Float(1.0); 4]));
            assert!(out[written..].iter().all(|t| *t == BEFORE));
        }
    }
}

/// The C function's answer, and whether it wrote anything.
fn raw(options: u32, bytes: usize, (bw, bh): (usize, usize), rooms: (usize, usize)) -> (u32, bool) {
    let block = vec![0; bytes];
    let (mut channels, mut floats) = (vec![7; rooms.0], vec![9; rooms.1]);
    // SAFETY: each pointer has as many places as the length after it says
    let answer = unsafe {
        astc_block_channels(
            options,
            block.as_ptr(),
            block.len(),
            bw,
            bh,
            channels.as_mut_ptr(),
            channels.len(),
            floats.as_mut_ptr(),
            floats.len(),
        )
    };
    let same = channels.iter().all(|n| *n == 7) && floats.iter().all(|n| *n == 9);
    (answer, !same)
}

#[test]
fn the_c_function_checks_in_order() {
    for options in [1, 2, 4, 8, 16, 1 << 31, u32::MAX] {
        assert_eq!(raw(options, 15, (4, 5), (0, 0)), (23, false));
        assert_eq!(raw(options, 16, (4, 4), (64, 16)), (23, false));
    }
    assert_eq!(raw(0, 15, (4, 5), (0, 0)), (20, false));
    assert_eq!(raw(0, 16, (4, 5), (0, 0)), (21, false));
    assert_eq!(raw(0, 16, (usize::MAX, 4), (0, 0)), (21, false));
    assert_eq!(raw(0, 16, (4 + (1 << 32), 4), (0, 0)), (21, false));
    assert_eq!(raw(0, 16, (4, 4), (63, 16)), (22, false));
    assert_eq!(raw(0, 16, (4, 4), (64, 15)), (22, false));
    assert_eq!(raw(0, 16, (12, 12), (575, 144)), (22, false));
    assert_eq!(raw(0, 16, (12, 12), (576, 143)), (22, false));
    assert_eq!(raw(0, 16, (4, 4), (64, 16)), (10, true));
}

#[test]
fn an_image_is_its_blocks_clipped() {
    let mut random = Random::new(61);
    for footprint in Footprint::ALL {
        let (bw, bh) = (footprint.width(), footprint.height());
        for (width, height) in [(1, 1), (bw, bh), (bw + 1, bh - 1), (29, 23), (3, 70)] {
            let data = blocks(&mut random, footprint.blocks(width, height));
            let mut out = vec![BEFORE; width * height + 5];
            image_channels(&data, width, height, footprint, &mut out).unwrap();
            for (k, pixel) in out[..width * height].iter().enumerate() {
                let (x, y) = (k % width, k / width);
                let block = y / bh * width.div_ceil(bw) + x / bw;
                let mut texels = [BEFORE; 144];
                let data = &data[16 * block..][..16];
                assert!(block_channels(data, footprint, &mut texels).is_ok());
                assert_eq!(bits(pixel), bits(&texels[y % bh * bw + x % bw]));
            }
            assert_eq!(out[width * height..], [BEFORE; 5]);
        }
    }
}

#[test]
fn an_image_is_refused_as_its_words_are() {
    let sides = [
        0,
        1,
        4,
        7,
        4095,
        4096,
        4097,
        1 << 16,
        1 << 32,
        (1 << 32) + 4,
        usize::MAX / 16,
        usize::MAX - 1,
        usize::MAX,
    ];
    let mut answers = Vec::new();
    for footprint in Footprint::ALL {
        for (width, height) in sides.iter().flat_map(|w| sides.map(|h| (*w, h))) {
            let small = (1..=4096).contains(&width) && (1..=4096).contains(&height);
            // the larger images are tried without all their data or room, so that none of them is painted
            let painted = small && width.min(height) < 8;
            let bytes = if small {
                16 * footprint.blocks(width, height)
            } else {
                16
            };
            let pixels = if painted { width * height } else { 16 };
            for bytes in [0, bytes.saturating_sub(1), bytes, bytes + 1, bytes + 16] {
                for room in [0, pixels - 1, pixels, pixels + 1] {
                    let data = vec![0; bytes];
                    let mut words = vec![7; room];
                    let mut out = vec![BEFORE; room];
                    let answer = image_channels(&data, width, height, footprint, &mut out);
                    let call = format!("{footprint:?} {width}x{height}, {bytes}, {room}");
                    let wanted = decode_image(&data, width, height, footprint, &mut words);
                    assert_eq!(answer, wanted, "{call}");
                    let written = if answer.is_ok() { pixels } else { 0 };
                    assert!(out[..written].iter().all(|p| *p == MAGENTA), "{call}");
                    assert!(out[written..].iter().all(|p| *p == BEFORE), "{call}");
                    if !answers.contains(&answer) {
                        answers.push(answer);
                    }
                }
            }
        }
    }
    answers.sort_by_key(|answer| answer.err().map(Answer::number));
    let all = [
        Ok(()),
        Err(Answer::OutputTooShort),
        Err(Answer::ImageSide),
        Err(Answer::DataLength),
    ];
    assert_eq!(answers, all);
}
