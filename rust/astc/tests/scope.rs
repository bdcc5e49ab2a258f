//! The values that docs/SCOPE.md says are to be run, each a test of its own, and P1 to P4 of it through the wrapper.
//!
//! What a block asks for is counted by the model, which also knows it of blocks that break a rule; of legal blocks the map says it too.

use astc::raw::astc_decode_block;
use astc::{block_map, decode_block, Answer, Field, Footprint, Map};
use model::Layout;

const MAGENTA: u32 = 0xffff_00ff;

const P1: [u8; 16] = [0x42, 0, 0, 0xfe, 1, 0, 0, 0, 0, 0, 0, 0, 0, 0, 0, 0xe0];

const P3: [u8; 16] = [
    0xfc, 0xfd, 0xff, 0xff, 0xff, 0xff, 0xff, 0xff, 0, 0, 0, 0x80, 0, 0x40, 0xff, 0xff,
];

/// P1's words: white, a grey of 84, and fourteen times black.
fn words_of_p1() -> [u32; 16] {
    let mut words = [0xff00_0000; 16];
    words[..2].copy_from_slice(&[0xffff_ffff, 0xff54_5454]);
    words
}

/// A block whose first 32 bits are these, and whose others are 0.
fn beginning(first: u32) -> [u8; 16] {
    u128::from(first).to_le_bytes()
}

fn footprint(text: &str) -> Footprint {
    text.parse().unwrap()
}

/// A block's answer and its words, with room for just them.
fn decoded(block: &[u8], footprint: Footprint) -> (Answer, Vec<u32>) {
    let mut words = vec![7; footprint.texels()];
    let answer = decode_block(block, footprint, &mut words).unwrap();
    (answer, words)
}

/// The map of a block that must be legal.
fn legal(block: &[u8], footprint: Footprint) -> Map {
    assert_eq!(decoded(block, footprint).0, Answer::Legal);
    block_map(block, footprint).unwrap()
}

/// Holds a block to a rule that it breaks: it has no map, and all its words are magenta.
fn broken(block: &[u8], footprint: Footprint, rule: Answer) {
    let (answer, words) = decoded(block, footprint);
    assert_eq!(answer, rule);
    assert!(answer.is_bad() && words.iter().all(|word| *word == MAGENTA));
    assert_eq!(block_map(block, footprint), Err(rule));
}

/// The answer of the C function at a footprint of any sides, and whether it wrote anything.
fn raw(block: &[u8; 16], bw: usize, bh: usize) -> (u32, bool) {
    let mut words = [7; 144];
    // SAFETY: each pointer has as many places as the length after it says
    let answer = unsafe {
        astc_decode_block(
            block.as_ptr(),
            block.len(),
            bw,
            bh,
            words.as_mut_ptr(),
            words.len(),
        )
    };
    (answer, words != [7; 144])
}

#[test]
fn p1_is_painted() {
    let (answer, words) = decoded(&P1, footprint("4x4"));
    assert_eq!(answer, Answer::Legal);
    assert_eq!(words, words_of_p1());
}

#[test]
fn p2_is_the_map_of_p1_and_an_unmapped_byte_changes_no_word() {
    let field = |start, length| Field { start, length };
    let map = Map {
        largest: 255,
        low: field(0, 17),
        endpoints: field(17, 16),
        extra: field(96, 0),
        weights: field(96, 32),
    };
    assert_eq!(block_map(&P1, footprint("4x4")), Ok(map));
    let mut changed = P1;
    changed[8] = 0xff;
    assert_eq!(block_map(&changed, footprint("4x4")), Ok(map));
    assert_eq!(decoded(&changed, footprint("4x4")).1, words_of_p1());
}

#[test]
fn p3_is_void_of_one_colour() {
    for footprint in Footprint::ALL {
        let (answer, words) = decoded(&P3, footprint);
        assert_eq!(answer, Answer::VoidExtent);
        assert!(words.iter().all(|word| *word == 0xff00_8040));
        assert_eq!(block_map(&P3, footprint), Err(Answer::VoidExtent));
    }
}

#[test]
fn p4_is_reserved() {
    for footprint in Footprint::ALL {
        broken(&[0; 16], footprint, Answer::ReservedMode);
    }
}

#[test]
fn footprint_5x4_is_accepted() {
    assert_eq!(raw(&P1, 5, 4), (0, true));
}

#[test]
fn footprint_4x5_answers_21() {
    assert_eq!(raw(&P1, 4, 5), (21, false));
}

#[test]
fn weights_64_pass_rule_12() {
    // a grid of 8x8, with weights of one bit
    let block = beginning(0x0544);
    assert_eq!(Layout::of(&block).weights, 64);
    let map = legal(&block, footprint("12x12"));
    assert_eq!(
        map.weights,
        Field {
            start: 64,
            length: 64
        }
    );
}

#[test]
fn weights_9x8_at_12x12_answer_12() {
    let block = beginning(0x0564);
    let mode = Layout::of(&block).mode;
    assert_eq!((mode.width, mode.height, mode.dual), (9, 8, false));
    broken(&block, footprint("12x12"), Answer::TooManyWeights);
}

#[test]
fn one_bit_weights_4x6_take_24_bits_and_are_accepted() {
    let block = beginning(0x4d);
    let mode = Layout::of(&block).mode;
    assert_eq!((mode.width, mode.height), (4, 6));
    assert_eq!(legal(&block, footprint("6x6")).weights.length, 24);
}

#[test]
fn one_bit_weights_4x5_take_20_bits_and_answer_13() {
    let block = beginning(0x61);
    let layout = Layout::of(&block);
    assert_eq!((layout.mode.width, layout.mode.height), (4, 5));
    assert_eq!(layout.weight_bits, 20);
    broken(&block, footprint("6x6"), Answer::WeightBits);
}

#[test]
fn two_bit_weights_48_take_96_bits_and_are_accepted() {
    // a grid of 8x6
    let block = beginning(0x0148);
    assert_eq!(Layout::of(&block).weights, 48);
    assert_eq!(legal(&block, footprint("8x6")).weights.length, 96);
}

#[test]
fn weights_of_three_levels_8x8_take_103_bits_and_answer_13() {
    let block = beginning(0x0554);
    let layout = Layout::of(&block);
    assert_eq!((layout.mode.width, layout.mode.height), (8, 8));
    assert_eq!(layout.weight_bits, 103);
    broken(&block, footprint("8x8"), Answer::WeightBits);
}

#[test]
fn values_18_with_room_47_are_accepted() {
    // three partitions of six values each, and a grid of 4x5 weights of five levels
    let block = beginning(0x0180_1072);
    assert_eq!(Layout::of(&block).values, 18);
    let map = legal(&block, footprint("6x6"));
    let room = map.extra.start - map.endpoints.start;
    assert_eq!((map.largest, map.endpoints.length, room), (5, 47, 47));
}

#[test]
fn values_18_with_room_46_answer_16() {
    // the same three partitions, and a grid of 4x6 weights of four levels
    let block = beginning(0x0180_104e);
    let layout = Layout::of(&block);
    assert_eq!((layout.values, layout.room()), (18, 46));
    broken(&block, footprint("6x6"), Answer::TooLittleRoom);
}
