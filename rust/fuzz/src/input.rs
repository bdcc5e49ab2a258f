//! What the bytes of an input ask for.
//!
//! The first byte chooses the function, and for each kind of size whether it is one that is mostly accepted, made of a byte, or any
//! number. The sizes follow, and the rest is the block or the image's data. Bytes that are missing are zeros.

use judge::block::NUMBERS;
use judge::image::{Step, MOVED};
use judge::SPARE;
use model::{Shape, FOOTPRINTS};
use std::fmt;

/// The functions, in the first two bits of an input and the eighth.
pub const WORDS: u8 = 0;
pub const MAP: u8 = 1;
pub const IMAGE: u8 = 2;
pub const STEPS: u8 = 3;
pub const CHANNELS: u8 = 1 << 7;
const FUNCTIONS: u8 = 3 | CHANNELS;

/// The kinds of sizes that are any numbers, in the bits above.
pub const ANY_FOOTPRINT: u8 = 1 << 2;
pub const ANY_SIDES: u8 = 1 << 3;
pub const ANY_ROOM: u8 = 1 << 4;
pub const ANY_STEP: u8 = 1 << 5;
pub const ANY_LENGTH: u8 = 1 << 6;
/// A block has no sides, and only its channels have options.
pub const ANY_OPTIONS: u8 = ANY_SIDES;

/// The most blocks of a side of an image whose sides are not any numbers.
const SIDE: usize = 4;
/// The most blocks of an image, so that an input takes little time.
const MOST_BLOCKS: usize = 32;
/// The most words of an output, which are enough for them.
const MOST_WORDS: usize = MOST_BLOCKS * 144;

/// What an input asks for.
pub enum Request {
    /// A block's words, and for a legal block its map, and both again with one of the unmapped bits changed.
    Words {
        bw: usize,
        bh: usize,
        bit: usize,
        room: usize,
        block: Vec<u8>,
    },
    Map {
        bw: usize,
        bh: usize,
        room: usize,
        block: Vec<u8>,
    },
    /// A block's channels, and for a legal block again with one of the unmapped bits changed; the room is that for numbers and that for
    /// marks.
    Channels {
        options: u32,
        bw: usize,
        bh: usize,
        bit: usize,
        room: (usize, usize),
        block: Vec<u8>,
    },
    Image {
        shape: Shape,
        room: usize,
        data: Vec<u8>,
    },
    /// A step that writes its numbers to so many places; and, where it is accepted, all of the image in steps of these sizes in turn.
    Steps {
        shape: Shape,
        step: Step,
        places: usize,
        paces: [usize; 3],
        room: usize,
        data: Vec<u8>,
    },
}

impl Request {
    pub fn read(input: &[u8]) -> Self {
        let (&first, rest) = input.split_first().unwrap_or((&0, &[]));
        let bytes = &mut Bytes { first, rest };
        match first & FUNCTIONS {
            WORDS => {
                let (bw, bh) = bytes.footprint();
                Request::Words {
                    bw,
                    bh,
                    bit: bytes.byte(),
                    room: bytes.room(bw.saturating_mul(bh)),
                    block: bytes.data(16),
                }
            }
            MAP => {
                let (bw, bh) = bytes.footprint();
                Request::Map {
                    bw,
                    bh,
                    room: bytes.room(NUMBERS),
                    block: bytes.data(16),
                }
            }
            IMAGE => {
                let shape = bytes.shape();
                Request::Image {
                    shape,
                    room: bytes.room(shape.width.saturating_mul(shape.height)),
                    data: bytes.data(16 * blocks(shape)),
                }
            }
            STEPS => {
                let shape = bytes.shape();
                Request::Steps {
                    shape,
                    step: bytes.step(blocks(shape)),
                    places: bytes.places(),
                    paces: [bytes.pace(), bytes.pace(), bytes.pace()],
                    room: bytes.room(shape.width.saturating_mul(shape.height)),
                    data: bytes.data(16 * blocks(shape)),
                }
            }
            _ => {
                let (bw, bh) = bytes.footprint();
                let texels = bw.saturating_mul(bh);
                Request::Channels {
                    options: bytes.options(),
                    bw,
                    bh,
                    bit: bytes.byte(),
                    room: (
                        bytes.room(texels.saturating_mul(model::CHANNELS)),
                        bytes.room(texels),
                    ),
                    block: bytes.data(16),
                }
            }
        }
    }
}

impl fmt::Display for Request {
    fn fmt(&self, f: &mut fmt::Formatter) -> fmt::Result {
        match self {
            Request::Words {
                bw,
                bh,
                room,
                block,
                ..
            } => write!(f, "block {block:02x?} at {bw}x{bh} with room for {room}"),
            Request::Map {
                bw,
                bh,
                room,
                block,
            } => write!(f, "map of {block:02x?} at {bw}x{bh} with room for {room}"),
            Request::Channels {
                options,
                bw,
                bh,
                room,
                block,
                ..
            } => write!(
                f,
                "channels of {block:02x?} at {bw}x{bh} with options {options:x} and room for {room:?}"
            ),
            Request::Image { shape, room, data } => {
                write!(
                    f,
                    "image, {shape:?} of {} bytes with room for {room}",
                    data.len()
                )
            }
            Request::Steps {
                shape,
                paces,
                room,
                data,
                ..
            } => write!(
                f,
                "steps of {paces:?} blocks, {shape:?} of {} bytes with room for {room}",
                data.len()
            ),
        }
    }
}

/// The blocks of a shape; none where 21 or 30 refuses it, or where they are more than are tried.
fn blocks(shape: Shape) -> usize {
    match shape.refusal(0, 0) {
        Some(21 | 30) => 0,
        _ if shape.blocks() > MOST_BLOCKS => 0,
        _ => shape.blocks(),
    }
}

/// The first byte of an input, and those that are not read yet.
struct Bytes<'a> {
    first: u8,
    rest: &'a [u8],
}

impl Bytes<'_> {
    /// Whether sizes of this kind are any numbers.
    fn any(&self, kind: u8) -> bool {
        self.first & kind != 0
    }

    fn byte(&mut self) -> usize {
        let (&byte, rest) = self.rest.split_first().unwrap_or((&0, &[]));
        self.rest = rest;
        byte.into()
    }

    /// A number in so many bytes, the low one first.
    fn wide(&mut self, bytes: u32) -> usize {
        (0..bytes).fold(0, |all, i| all | self.byte() << (8 * i))
    }

    fn number(&mut self) -> usize {
        self.wide(usize::BITS / 8)
    }

    /// The options of a call: any, or none.
    fn options(&mut self) -> u32 {
        if self.any(ANY_OPTIONS) {
            self.wide(4) as u32
        } else {
            0
        }
    }

    fn footprint(&mut self) -> (usize, usize) {
        if self.any(ANY_FOOTPRINT) {
            (self.number(), self.number())
        } else {
            FOOTPRINTS[self.byte() % FOOTPRINTS.len()]
        }
    }

    fn shape(&mut self) -> Shape {
        let (bw, bh) = self.footprint();
        let (width, height) = if self.any(ANY_SIDES) {
            (self.number(), self.number())
        } else {
            // the footprint may be any numbers too
            let most = [bw, bh].map(|side| SIDE * side.clamp(4, 12));
            (1 + self.byte() % most[0], 1 + self.byte() % most[1])
        };
        Shape {
            width,
            height,
            bw,
            bh,
        }
    }

    /// The room of an output: any, or exactly what is wanted, or more.
    fn room(&mut self, wanted: usize) -> usize {
        if self.any(ANY_ROOM) {
            self.wide(2) % MOST_WORDS
        } else {
            wanted.min(MOST_WORDS) + self.byte().saturating_sub(128) % (SPARE + 1)
        }
    }

    /// From which block on, and how many: any numbers, or from the first block to the last one's end, and one more than there are.
    fn step(&mut self, total: usize) -> Step {
        let (next, blocks) = if self.any(ANY_STEP) {
            (self.number(), self.number())
        } else {
            (self.byte() % (total + 1), 1 + self.byte() % (total + 1))
        };
        Step { next, blocks }
    }

    /// The places for a step's numbers: also too few, or enough.
    fn places(&mut self) -> usize {
        let least = if self.any(ANY_STEP) { 0 } else { MOVED };
        least + self.byte() % (MOVED + 3 - least)
    }

    /// The size of a step that is not refused; the largest byte stands for the largest number.
    fn pace(&mut self) -> usize {
        match self.byte() {
            255 => usize::MAX,
            byte => 1 + byte,
        }
    }

    /// The rest: as it is, or repeated or cut to what is wanted.
    fn data(&self, wanted: usize) -> Vec<u8> {
        let bytes = self.rest.iter().copied();
        if self.any(ANY_LENGTH) {
            return bytes.take(16 * MOST_BLOCKS + 15).collect();
        }
        let zero = self.rest.is_empty().then_some(0);
        bytes.chain(zero).cycle().take(wanted).collect()
    }
}

#[cfg(test)]
mod tests {
    use super::*;

    #[test]
    fn nothing_is_a_block_of_zeros() {
        let Request::Words {
            bw,
            bh,
            room,
            block,
            ..
        } = Request::read(&[])
        else {
            panic!("the first function is a block's");
        };
        assert_eq!((bw, bh, room), (4, 4, 16));
        assert_eq!(block, [0; 16]);
    }

    #[test]
    fn any_sizes_are_read_as_they_are() {
        let mut input = vec![IMAGE | ANY_FOOTPRINT | ANY_SIDES | ANY_ROOM | ANY_LENGTH];
        for number in [1u64, 2, u64::MAX, 4] {
            input.extend(number.to_le_bytes());
        }
        input.extend([3, 1, 9, 8, 7]);
        let Request::Image { shape, room, data } = Request::read(&input) else {
            panic!("the third function is an image's");
        };
        assert_eq!((shape.bw, shape.bh), (1, 2));
        assert_eq!((shape.width, shape.height), (usize::MAX, 4));
        assert_eq!(room, 0x103);
        assert_eq!(data, [9, 8, 7]);
    }

    #[test]
    fn channels_have_options_and_two_rooms() {
        let first = CHANNELS | ANY_OPTIONS | ANY_ROOM;
        let input = [first, 1, 0, 0, 0, 0x80, 9, 80, 0, 19, 0, 7];
        let Request::Channels {
            options,
            bw,
            bh,
            bit,
            room,
            block,
        } = Request::read(&input)
        else {
            panic!("the fifth function is that of channels");
        };
        assert_eq!((options, bw, bh, bit), (1 << 31, 5, 4, 9));
        assert_eq!(room, (80, 19));
        assert_eq!(block, [7; 16]);
    }

    #[test]
    fn data_is_repeated_to_the_length_of_the_image() {
        let Request::Steps {
            shape,
            step,
            places,
            paces,
            room,
            data,
        } = Request::read(&[STEPS, 1, 30, 20, 6, 6, 1, 0, 254, 255, 0, 1, 2])
        else {
            panic!("the fourth function is a step's");
        };
        assert_eq!((shape.width, shape.height, shape.blocks()), (11, 5, 6));
        assert_eq!((step.next, step.blocks, places), (6, 7, 4));
        assert_eq!(paces, [1, 255, usize::MAX]);
        assert_eq!(room, 55);
        assert_eq!(data, [1, 2].repeat(48));
    }
}
