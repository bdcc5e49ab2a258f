//! A block's words and its map: answers, outputs, and what must stay.

use crate::archive;
use crate::canvas::{same_answer, Canvas};
use crate::sample::Sample;
use model::{blocks, refusal};
use std::ops::Range;

/// The numbers of a map.
pub const NUMBERS: usize = 9;

/// A block as it is passed, of any length, and the footprint, of any sizes.
#[derive(Clone, Copy)]
pub struct Call<'a> {
    pub block: &'a [u8],
    pub bw: usize,
    pub bh: usize,
}

impl<'a> Call<'a> {
    pub fn of(sample: &'a Sample) -> Self {
        Call {
            block: &sample.block,
            bw: sample.bw,
            bh: sample.bh,
        }
    }

    /// The words of the footprint.
    pub fn texels(self) -> usize {
        self.bw.saturating_mul(self.bh)
    }

    /// The refusal by the sizes alone, where an output of `room` places is to hold `wanted` numbers.
    pub fn refusal(self, room: usize, wanted: usize) -> Option<u32> {
        refusal(self.block.len(), self.bw, self.bh, room, wanted)
    }

    /// The block of a call that no size refuses.
    pub(crate) fn sample(self) -> Sample {
        let block = self.block.try_into().expect("20 refuses other lengths");
        Sample::new(block, (self.bw, self.bh))
    }

    /// Has the block painted, by the rules of docs/SCOPE.md and the original; its answer.
    pub fn words(self, canvas: &mut Canvas) -> Result<u32, String> {
        let answer = match self.refusal(canvas.room(), self.texels()) {
            Some(answer) => answer,
            None => {
                let sample = self.sample();
                sample.paint(&mut canvas.expected()[..sample.texels()])?;
                sample.answer.into()
            }
        };
        self.paint(canvas, answer)?;
        Ok(answer)
    }

    fn paint(self, canvas: &mut Canvas, answer: u32) -> Result<(), String> {
        let ours = archive::decode_block(self.block, self.bw, self.bh, canvas.out());
        same_answer("answer", ours, answer)?;
        canvas.compare("word")
    }

    /// Has the block's map written, by the rules of docs/SCOPE.md; its answer.
    pub fn map(self, canvas: &mut Canvas) -> Result<u32, String> {
        let answer = match self.refusal(canvas.room(), NUMBERS) {
            Some(answer) => answer,
            None => {
                let sample = self.sample();
                let map = model::map(&sample.block, sample.bw, sample.bh);
                canvas.expected()[..NUMBERS].copy_from_slice(&map);
                sample.answer.into()
            }
        };
        self.write_map(canvas, answer)?;
        let numbers = &canvas.out()[..];
        if answer == 0 && !fields_apart(numbers) {
            return Err(format!(
                "the fields of the map {:?} overlap or leave the block",
                &numbers[..NUMBERS]
            ));
        }
        Ok(answer)
    }

    fn write_map(self, canvas: &mut Canvas, answer: u32) -> Result<(), String> {
        let ours = archive::block_map(self.block, self.bw, self.bh, canvas.out());
        same_answer("answer of the map", ours, answer)?;
        canvas.compare("number of the map")
    }

    /// The unmapped bits of a legal block.
    pub fn unmapped(self) -> Range<usize> {
        let map = model::map(self.block, self.bw, self.bh);
        (map[3] + map[4]) as usize..map[5] as usize
    }

    /// The block of a call that no size refuses, with a bit changed.
    pub(crate) fn flipped(self, bit: usize) -> [u8; 16] {
        blocks::flipped(self.sample().block, bit)
    }

    /// A legal block with an unmapped bit changed: words as they were painted before, and the map as it was written before.
    pub fn same_without(
        self,
        bit: usize,
        words: &mut Canvas,
        map: &mut Canvas,
    ) -> Result<(), String> {
        let changed = self.flipped(bit);
        let call = Call {
            block: &changed,
            ..self
        };
        words.unwrite();
        map.unwrite();
        call.paint(words, 0)
            .and_then(|()| call.write_map(map, 0))
            .map_err(|difference| format!("with the unmapped bit {bit} changed, {difference}"))
    }
}

/// Whether a legal block's fields follow one another within the 128 bits, and the weights end them.
fn fields_apart(map: &[u32]) -> bool {
    let ends = |field: usize| u64::from(map[field]) + u64::from(map[field + 1]);
    map[1] == 0 && [1, 3, 5].iter().all(|&f| ends(f) <= u64::from(map[f + 2])) && ends(7) == 128
}

#[cfg(test)]
mod tests {
    use super::*;

    #[test]
    fn fields_that_overlap_or_leave_the_block() {
        let p1 = [255, 0, 17, 17, 16, 96, 0, 96, 32];
        assert!(fields_apart(&p1));
        for (number, wrong) in [(1, 1), (2, 18), (4, 80), (6, 1), (7, 95), (8, 33)] {
            let mut map = p1;
            map[number] = wrong;
            assert!(!fields_apart(&map), "{map:?}");
        }
    }
}
