//! What an output holds before a call, and how it is held to what it must hold after it.

use model::random::Random;
use std::fmt::LowerHex;
use std::ops::Range;

/// The words before an output and behind it, which must stay.
pub(crate) const AROUND: usize = 8;
/// The most words that an output has beyond those to be written.
pub const SPARE: usize = 32;

/// The words by their places, to know unwritten ones by: no two alike, and others each time.
pub(crate) fn marks(random: &mut Random) -> impl Fn(usize) -> u32 {
    let salt = random.number() as u32;
    move |i| (i as u32).wrapping_mul(0x9e37_79b9).wrapping_add(salt)
}

/// What an output has in each place.
pub trait Place: Copy + PartialEq + LowerHex {
    /// What a place holds that nothing was written to.
    fn unwritten(mark: u32) -> Self;
}

impl Place for u32 {
    fn unwritten(mark: u32) -> u32 {
        mark
    }
}

/// Marks of a texel's channels, which have four bits: here a higher one is set.
impl Place for u8 {
    fn unwritten(mark: u32) -> u8 {
        mark as u8 | 0x80
    }
}

/// The room of an output for `wanted` words: exactly that, or more.
pub fn room(wanted: usize, random: &mut Random) -> usize {
    wanted + random.below(2) * random.below(SPARE + 1)
}

/// An output among words that must stay, and what all of them must be.
pub struct Canvas<T = u32> {
    marks: Vec<T>,
    all: Vec<T>,
    expected: Vec<T>,
    out: Range<usize>,
}

impl<T: Place> Canvas<T> {
    /// An output of so many words, of which nothing is expected to change.
    pub fn new(room: usize, random: &mut Random) -> Self {
        let mark = marks(random);
        let places = 0..AROUND + room + AROUND;
        let marks: Vec<T> = places.map(|i| T::unwritten(mark(i))).collect();
        Canvas {
            all: marks.clone(),
            expected: marks.clone(),
            marks,
            out: AROUND..AROUND + room,
        }
    }

    /// The words of the output.
    pub fn room(&self) -> usize {
        self.out.len()
    }

    /// The words that are compared: the output and those around it.
    pub fn compared(&self) -> usize {
        self.all.len()
    }

    pub fn out(&mut self) -> &mut [T] {
        &mut self.all[self.out.clone()]
    }

    pub fn expected(&mut self) -> &mut [T] {
        &mut self.expected[self.out.clone()]
    }

    /// Takes back what was written; a further call is expected to write the same.
    pub fn unwrite(&mut self) {
        self.all.copy_from_slice(&self.marks);
    }

    /// The first word that is not as expected; words are numbered from the start of the output.
    pub fn compare(&self, what: &str) -> Result<(), String> {
        if self.all == self.expected {
            return Ok(());
        }
        let mut pairs = self.all.iter().zip(&self.expected);
        let place = pairs.position(|(a, b)| a != b).unwrap();
        Err(format!(
            "{what} {}: ours {:0wide$x}, expected {:0wide$x}",
            place as isize - AROUND as isize,
            self.all[place],
            self.expected[place],
            wide = 2 * size_of::<T>()
        ))
    }
}

pub fn same_answer(what: &str, ours: u32, expected: u32) -> Result<(), String> {
    if ours == expected {
        return Ok(());
    }
    Err(format!("{what}: ours {ours}, expected {expected}"))
}
