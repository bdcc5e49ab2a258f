//! A block, and what docs/SCOPE.md and the original make of it.

use model::{answer, Layout, Texel, MAGENTA};
use original::astc::{decode_astc_block, probe};
use std::array;
use std::panic::{catch_unwind, AssertUnwindSafe};

/// A block at a footprint, and the answer that docs/SCOPE.md gives it.
pub struct Sample {
    pub block: [u8; 16],
    pub bw: usize,
    pub bh: usize,
    pub answer: u8,
}

impl Sample {
    pub fn new(block: [u8; 16], (bw, bh): (usize, usize)) -> Self {
        let answer = answer(&block, bw, bh);
        Sample {
            block,
            bw,
            bh,
            answer,
        }
    }

    pub fn texels(&self) -> usize {
        self.bw * self.bh
    }

    /// Whether the original is the judge of what is painted.
    pub fn judged(&self) -> bool {
        [0, 1, 10].contains(&self.answer)
    }

    /// Paints the block's words by the original, or magenta where it is no judge.
    pub fn paint(&self, words: &mut [u32]) -> Result<(), String> {
        if !self.judged() {
            words.fill(MAGENTA);
            return Ok(());
        }
        self.ask(|| decode_astc_block(&self.block, self.bw, self.bh, words))
    }

    /// What the original gives, if it does not panic.
    fn ask<T>(&self, work: impl FnOnce() -> T) -> Result<T, String> {
        catch_unwind(AssertUnwindSafe(work))
            .map_err(|_| format!("the original panics at a block of answer {}", self.answer))
    }

    /// The channels of the block's texels: which of them are floats by the model's rules, which must be the original's tables; void
    /// and magenta by the rules alone; and of a legal block the halves and the bytes of the original.
    pub fn channels(&self) -> Result<Vec<Texel>, String> {
        match self.answer {
            0 => self.blended(),
            1 => Ok(vec![Texel::void(&self.block); self.texels()]),
            _ => Ok(vec![Texel::MAGENTA; self.texels()]),
        }
    }

    fn blended(&self) -> Result<Vec<Texel>, String> {
        let modes = Layout::of(&self.block).modes(&self.block);
        let texels = self.ask(|| probe::texels(&self.block, self.bw, self.bh))?;
        let texel = |texel: &probe::Texel| {
            let mode = modes[texel.partition];
            let hdr = texel.channels.map(|channel| channel.hdr);
            if hdr != array::from_fn(|k| model::floats(mode) >> k & 1 == 1) {
                return Err(format!("the original has {hdr:?} for mode {mode}"));
            }
            Ok(Texel::blended(
                mode,
                texel.channels.map(|channel| {
                    if channel.hdr {
                        channel.half()
                    } else {
                        channel.byte().into()
                    }
                }),
            ))
        };
        texels.iter().map(texel).collect()
    }
}

#[cfg(test)]
mod tests {
    use super::*;
    use model::random::Random;

    /// The original panics at some of the blocks that are refused: taken for legal ones, they are differences.
    #[test]
    fn a_panic_of_the_original_is_a_difference() {
        let random = &mut Random::new(1);
        let panics = (0..10_000)
            .map(|_| random.block())
            .filter(|block| answer(block, 4, 4) > 10)
            .map(|block| Sample {
                block,
                bw: 4,
                bh: 4,
                answer: 0,
            })
            .filter(|sample| sample.paint(&mut [0; 16]).is_err());
        assert!(panics.count() > 0);
    }
}
