//! A block's channels: the answer, the numbers, which of them are floats, what must stay, and the words that they come to.

use crate::archive;
use crate::block::Call;
use crate::canvas::{same_answer, Canvas};
use model::random::Random;
use model::{channels_refusal, Texel, CHANNELS};

/// The two outputs of a call for channels: the numbers, four a texel, and the marks of those that are floats.
pub struct Outputs {
    pub numbers: Canvas,
    pub floats: Canvas<u8>,
}

impl Outputs {
    /// Outputs of so many numbers and so many marks, of which nothing is expected to change.
    pub fn new((numbers, floats): (usize, usize), random: &mut Random) -> Self {
        Outputs {
            numbers: Canvas::new(numbers, random),
            floats: Canvas::new(floats, random),
        }
    }

    /// The room for numbers, and for marks.
    pub fn room(&self) -> (usize, usize) {
        (self.numbers.room(), self.floats.room())
    }

    fn expect(&mut self, texels: &[Texel]) {
        let (numbers, floats) = (self.numbers.expected(), self.floats.expected());
        let places = numbers.chunks_exact_mut(CHANNELS).zip(floats);
        for (texel, (numbers, floats)) in texels.iter().zip(places) {
            numbers.copy_from_slice(&texel.numbers);
            *floats = texel.floats;
        }
    }

    fn compare(&self) -> Result<(), String> {
        self.numbers.compare("number")?;
        self.floats.compare("mark of texel")
    }

    /// The texels as they were written.
    pub fn texels(&mut self) -> impl Iterator<Item = Texel> + '_ {
        let numbers = self.numbers.out().chunks_exact(CHANNELS);
        let pairs = numbers.zip(self.floats.out());
        pairs.map(|(numbers, floats)| Texel {
            numbers: numbers.try_into().expect("a texel has four channels"),
            floats: *floats,
        })
    }
}

impl Call<'_> {
    /// The refusal by options and sizes alone, with outputs of so much room.
    pub fn channels_refusal(self, options: u32, room: (usize, usize)) -> Option<u32> {
        channels_refusal(options, self.block.len(), (self.bw, self.bh), room)
    }

    /// Has the block's channels written, by the model's rules and the original, and holds the words that they come to to those that
    /// the archive paints; its answer.
    pub fn channels(self, options: u32, outputs: &mut Outputs) -> Result<u32, String> {
        if let Some(answer) = self.channels_refusal(options, outputs.room()) {
            self.write_channels(options, outputs, answer)?;
            return Ok(answer);
        }
        let sample = self.sample();
        outputs.expect(&sample.channels()?);
        self.write_channels(options, outputs, sample.answer.into())?;
        self.same_words(outputs)?;
        Ok(sample.answer.into())
    }

    fn write_channels(
        self,
        options: u32,
        outputs: &mut Outputs,
        answer: u32,
    ) -> Result<(), String> {
        let (numbers, floats) = (outputs.numbers.out(), outputs.floats.out());
        let ours = archive::block_channels(options, self.block, self.bw, self.bh, numbers, floats);
        same_answer("answer of the channels", ours, answer)?;
        outputs.compare()
    }

    /// The words of the channels, and those that the archive paints.
    fn same_words(self, outputs: &mut Outputs) -> Result<(), String> {
        let mut words = vec![0; self.texels()];
        archive::decode_block(self.block, self.bw, self.bh, &mut words);
        for (i, (texel, word)) in outputs.texels().zip(words).enumerate() {
            let reduced = texel.word();
            if reduced != word {
                return Err(format!(
                    "the channels of texel {i} come to {reduced:08x}, and its word is {word:08x}"
                ));
            }
        }
        Ok(())
    }

    /// A legal block with an unmapped bit changed: channels as they were written before.
    pub fn same_channels_without(self, bit: usize, outputs: &mut Outputs) -> Result<(), String> {
        let changed = self.flipped(bit);
        let call = Call {
            block: &changed,
            ..self
        };
        outputs.numbers.unwrite();
        outputs.floats.unwrite();
        call.write_channels(0, outputs, 0)
            .map_err(|difference| format!("with the unmapped bit {bit} changed, {difference}"))
    }
}

#[cfg(test)]
mod tests {
    use super::*;
    use original::astc::probe::{self, Channel};
    use original::f16::fp16_ieee_to_fp32_value;

    /// Red of all halves, one after the other.
    fn reds() -> impl Iterator<Item = (u16, Texel)> {
        let texel = |half| Texel {
            numbers: [model::single(half), 0, 0, 0],
            floats: 1,
        };
        (0..=u16::MAX).map(move |half| (half, texel(half)))
    }

    #[test]
    fn halves_are_floats_and_bytes_as_in_the_original() {
        for (half, texel) in reds() {
            let byte = (texel.word() >> 16) as u8;
            assert_eq!(byte, probe::void_half(half), "{half:04x}");
            if half < 0x7c00 {
                assert_eq!(byte, probe::hdr_half(half), "{half:04x}");
            }
            let float = fp16_ieee_to_fp32_value(half);
            if !float.is_nan() {
                assert_eq!(texel.numbers[0], float.to_bits(), "{half:04x}");
            }
        }
    }

    #[test]
    fn modes_are_marked_as_in_the_original() {
        for mode in 0..16 {
            for (k, hdr) in probe::hdr(mode).into_iter().enumerate() {
                assert_eq!(model::floats(mode) >> k & 1 == 1, hdr, "mode {mode}");
            }
        }
    }

    #[test]
    fn the_half_of_a_channel_is_the_original_s() {
        let random = &mut Random::new(1);
        for _ in 0..1_000_000 {
            let mut below = |n| random.below(n) as i32;
            let (v0, v1, weight) = (below(4096), below(4096), below(65));
            let half = Channel {
                hdr: true,
                v0,
                v1,
                weight,
            }
            .half();
            assert_eq!(
                probe::hdr_half(half),
                probe::blend_hdr(v0, v1, weight),
                "{v0} {v1} {weight}"
            );
        }
    }
}
