//! Images, whole and in steps.

use crate::{surface, Answer, Footprint};

/// Paints the first `width * height` words of `out` with an image's pixels, row by row.
///
/// Blocks that break a rule are magenta. The image is refused, and `out` left as it was, by [`Answer::ImageSide`],
/// [`Answer::DataLength`] or [`Answer::OutputTooShort`].
///
/// ```
/// use astc::{decode_image, Answer, Footprint};
/// let footprint = Footprint::new(5, 4).unwrap();
/// let mut words = [7; 11];
/// assert_eq!(decode_image(&[0; 17], 5, 2, footprint, &mut words), Err(Answer::DataLength));
/// assert_eq!(words, [7; 11]);
/// assert_eq!(decode_image(&[0; 16], 5, 2, footprint, &mut words), Ok(()));
/// assert_eq!(words[..10], [0xffff_00ff; 10]);
/// assert_eq!(words[10], 7);
/// ```
pub fn decode_image(
    data: &[u8],
    width: usize,
    height: usize,
    footprint: Footprint,
    out: &mut [u32],
) -> Result<(), Answer> {
    surface::decode_image(data, width, height, footprint, out).accepted()
}

/// The refusal of an image with room for so many pixels, if it is refused.
pub(crate) fn check(
    data: &[u8],
    width: usize,
    height: usize,
    footprint: Footprint,
    room: usize,
) -> Result<(), Answer> {
    // the archive looks for room last, and refuses every image that has none: its sides are at most 4,096 then
    match surface::decode_image(data, width, height, footprint, &mut []) {
        Answer::OutputTooShort if room >= width * height => Ok(()),
        refusal => Err(refusal),
    }
}

/// An image on its way: its size, its footprint, and the next block to paint.
#[derive(Clone, Copy, Debug, PartialEq, Eq, Hash)]
pub struct Cursor {
    /// The pixels of a row.
    pub width: usize,
    /// The pixels of a column.
    pub height: usize,
    /// The footprint of the blocks.
    pub footprint: Footprint,
    /// The block that the next step starts with.
    pub next: usize,
}

/// What an accepted step came to.
#[derive(Clone, Copy, Debug, PartialEq, Eq, Hash)]
pub struct Step {
    /// The cursor for the next step.
    pub cursor: Cursor,
    /// The blocks painted.
    pub painted: usize,
    /// How many of them broke a rule and are magenta.
    pub bad: usize,
}

impl Cursor {
    /// The cursor before the first block.
    pub const fn new(width: usize, height: usize, footprint: Footprint) -> Cursor {
        Cursor {
            width,
            height,
            footprint,
            next: 0,
        }
    }

    /// Paints at most `blocks` blocks, from the cursor's next one on, in the order of rows.
    ///
    /// A cursor whose next block is the number of blocks has finished: a step from it is accepted and paints nothing. A step is
    /// refused, and `out` left as it was, as the image is by [`decode_image`], and after that by [`Answer::NoBlocks`] or
    /// [`Answer::PastTheEnd`]; the cursor is a copy, so that the caller still has it.
    ///
    /// ```
    /// use astc::{Answer, Cursor, Footprint};
    /// let data = [0; 48];
    /// let mut words = [0; 40];
    /// let start = Cursor::new(10, 4, Footprint::new(4, 4).unwrap());
    /// assert_eq!(start.step(&data, 0, &mut words), Err(Answer::NoBlocks));
    /// let first = start.step(&data, 2, &mut words).unwrap();
    /// assert_eq!((first.cursor.next, first.painted, first.bad), (2, 2, 2));
    /// let last = first.cursor.step(&data, 2, &mut words).unwrap();
    /// assert_eq!((last.cursor.next, last.painted, last.bad), (3, 1, 1));
    /// assert_eq!(words, [0xffff_00ff; 40]);
    /// ```
    pub fn step(self, data: &[u8], blocks: usize, out: &mut [u32]) -> Result<Step, Answer> {
        let size = (self.width, self.height);
        let (answer, moved) =
            surface::image_step(data, size, self.footprint, self.next, blocks, out);
        answer.accepted()?;
        // each number is a usize of the archive's
        let [next, painted, bad] = moved.map(|n| n as usize);
        Ok(Step {
            cursor: Cursor { next, ..self },
            painted,
            bad,
        })
    }
}
