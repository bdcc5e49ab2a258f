//! Which calls for an image are refused, and where an image's blocks lie.

use crate::FOOTPRINTS;
use std::ops::Range;

/// The longest side of an image.
const LONGEST: usize = 4096;

/// The sizes of an image and of its blocks, as a caller gives them.
#[derive(Clone, Copy, Debug)]
pub struct Shape {
    pub width: usize,
    pub height: usize,
    pub bw: usize,
    pub bh: usize,
}

impl Shape {
    /// The blocks of a shape that neither 21 nor 30 refuses.
    pub fn blocks(self) -> usize {
        self.width.div_ceil(self.bw) * self.height.div_ceil(self.bh)
    }

    /// The pixels of a shape that 30 does not refuse.
    pub fn pixels(self) -> usize {
        self.width * self.height
    }

    /// The pixels of a block that lie within the image, row by row; blocks and pixels are numbered in raster order.
    pub fn rows(self, block: usize) -> impl Iterator<Item = Range<usize>> {
        let a_row = self.width.div_ceil(self.bw);
        let (left, top) = (block % a_row * self.bw, block / a_row * self.bh);
        let right = self.width.min(left + self.bw);
        let bottom = self.height.min(top + self.bh);
        (top..bottom).map(move |y| y * self.width + left..y * self.width + right)
    }

    /// The refusal of an image by its sizes, if there is one: 21, 30, 31 or 22, in this order. The output has room for `room`
    /// words.
    pub fn refusal(self, data_len: usize, room: usize) -> Option<u32> {
        let side = 1..=LONGEST;
        if !FOOTPRINTS.contains(&(self.bw, self.bh)) {
            Some(21)
        } else if !side.contains(&self.width) || !side.contains(&self.height) {
            Some(30)
        } else if data_len != 16 * self.blocks() {
            Some(31)
        } else if room < self.pixels() {
            Some(22)
        } else {
            None
        }
    }

    /// The refusal of a step from block `next`, if there is one: that of the image, 22 for fewer than three places for its numbers,
    /// 33 or 34, in this order.
    pub fn step_refusal(
        self,
        data_len: usize,
        room: usize,
        places: usize,
        next: usize,
        blocks: usize,
    ) -> Option<u32> {
        self.refusal(data_len, room).or_else(|| {
            if places < 3 {
                Some(22)
            } else if blocks == 0 {
                Some(33)
            } else if next > self.blocks() {
                Some(34)
            } else {
                None
            }
        })
    }
}

#[cfg(test)]
mod tests {
    use super::*;

    const SHAPE: Shape = Shape {
        width: 11,
        height: 6,
        bw: 5,
        bh: 4,
    };

    #[test]
    fn edge_blocks_are_clipped() {
        assert_eq!(SHAPE.blocks(), 6);
        let rows = |block| SHAPE.rows(block).collect::<Vec<_>>();
        assert_eq!(rows(1), [5..10, 16..21, 27..32, 38..43]);
        assert_eq!(rows(2), [10..11, 21..22, 32..33, 43..44]);
        assert_eq!(rows(5), [54..55, 65..66]);
    }

    #[test]
    fn each_pixel_is_in_one_block() {
        let mut pixels: Vec<_> = (0..6).flat_map(|b| SHAPE.rows(b).flatten()).collect();
        pixels.sort_unstable();
        assert!(pixels.into_iter().eq(0..66));
    }

    #[test]
    fn images_and_steps_are_refused_in_order() {
        let wide = Shape {
            width: LONGEST + 1,
            ..SHAPE
        };
        let unlisted = Shape {
            bw: 4,
            bh: 5,
            ..wide
        };
        assert_eq!(unlisted.refusal(0, 0), Some(21));
        assert_eq!(wide.refusal(0, 0), Some(30));
        assert_eq!(SHAPE.refusal(95, 65), Some(31));
        assert_eq!(SHAPE.refusal(96, 65), Some(22));
        assert_eq!(SHAPE.refusal(96, 66), None);
        assert_eq!(SHAPE.step_refusal(97, 66, 2, 7, 0), Some(31));
        assert_eq!(SHAPE.step_refusal(96, 66, 2, 7, 0), Some(22));
        assert_eq!(SHAPE.step_refusal(96, 66, 3, 7, 0), Some(33));
        assert_eq!(SHAPE.step_refusal(96, 66, 3, 7, 1), Some(34));
        assert_eq!(SHAPE.step_refusal(96, 66, 3, 6, 1), None);
    }
}
