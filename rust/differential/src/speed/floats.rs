//! The pictures painted as floats: ours by a call for the channels of each block, whose rows are copied as those of an image are, and
//! astcenc's as it decodes to floats.

use super::pictures::{Picture, HDR, LDR};
use super::race::{timed, Band, Decoder, Painters, Race};
use super::rival::{Profile, Rival};
use super::verdict::{least, mean, Mark};
use judge::archive;
use model::{Shape, CHANNELS, FOOTPRINTS};
use std::hint::black_box;
use std::time::Duration;

/// The texels of the largest footprint.
const TEXELS: usize = 144;

/// Copies a row of texels: floats as they are, and bytes as parts of 255.
fn copy_row(numbers: &[u32], marks: &[u8], out: &mut [f32]) {
    let texels = numbers.chunks_exact(CHANNELS).zip(marks);
    for (out, (numbers, mark)) in out.chunks_exact_mut(CHANNELS).zip(texels) {
        for (k, (out, &number)) in out.iter_mut().zip(numbers).enumerate() {
            *out = if mark >> k & 1 == 1 {
                f32::from_bits(number)
            } else {
                number as f32 / 255.0
            };
        }
    }
}

/// Paints red, green, blue and alpha of each pixel of an image, edge blocks clipped.
fn paint(data: &[u8], shape: Shape, floats: &mut [f32]) -> Result<(), String> {
    let (mut numbers, mut marks) = ([0; CHANNELS * TEXELS], [0; TEXELS]);
    for (i, block) in data.chunks_exact(16).enumerate() {
        let answer =
            archive::block_channels(0, block, shape.bw, shape.bh, &mut numbers, &mut marks);
        if answer >= 20 {
            return Err(format!("our answer is {answer}"));
        }
        for (y, row) in shape.rows(i).enumerate() {
            let out = &mut floats[CHANNELS * row.start..CHANNELS * row.end];
            let texels = y * shape.bw;
            copy_row(&numbers[CHANNELS * texels..], &marks[texels..], out);
        }
    }
    Ok(())
}

/// What the two paint on, and astcenc's state.
struct Floats<'a> {
    ours: &'a mut [f32],
    astcenc: &'a mut [f32],
    rival: &'a mut Rival,
}

impl Painters for Floats<'_> {
    fn decoders(&self) -> Vec<Decoder> {
        vec![Decoder::Ours, Decoder::Astcenc]
    }

    fn paint(&mut self, decoder: Decoder, band: Band) -> Result<Duration, String> {
        let (data, shape) = (black_box(band.data), band.shape);
        let places = CHANNELS * band.pixels.start..CHANNELS * band.pixels.end;
        match decoder {
            Decoder::Astcenc => {
                let floats = &mut self.astcenc[places];
                Ok(timed(|| self.rival.paint_floats(data, shape, floats)))
            }
            _ => {
                let floats = &mut self.ours[places];
                let mut outcome = Ok(());
                let time = timed(|| outcome = paint(data, shape, floats));
                outcome.map(|()| time)
            }
        }
    }

    /// astcenc makes floats of 16-bit numbers where ours are bytes, and of HDR channels it reads some in another way, in which they are
    /// larger.
    fn compare(&self) -> Result<(), String> {
        if self.rival.is_like_floats(self.astcenc, self.ours) {
            return Ok(());
        }
        Err("our floats are not like astcenc's".into())
    }
}

/// How much faster ours must be at each footprint.
fn wanted(profile: Profile) -> f64 {
    match profile {
        Profile::Ldr => 1.0,
        Profile::Hdr => 1.3,
    }
}

/// Times a picture at all footprints; the mark that is set for it.
fn measure_picture(picture: &Picture, runs: usize) -> Result<Vec<Mark>, String> {
    if !picture.is_there() {
        return Ok(Vec::new());
    }
    let floats = vec![0.0; CHANNELS * picture.width * picture.height];
    let (ours, astcenc) = (&mut floats.clone()[..], &mut floats.clone()[..]);
    let races = picture.races(runs, |race, rival| {
        let rival = rival.ok_or("astcenc is not there")?;
        race.turn(&mut Floats {
            ours,
            astcenc,
            rival,
        })
    })?;
    let name = format!("{} as floats", picture.name);
    say!("\n{name}, by the channels of its blocks; millions of texels a second, one thread, best of {runs} runs");
    say!("block     ours  astcenc  ours/astcenc");
    let mut ratios = Vec::new();
    for (race, (bw, bh)) in races.iter().zip(FOOTPRINTS) {
        let rate = |race: &Race, decoder| race.rate(decoder).expect("each had its turn");
        let (ours, astcenc) = (rate(race, Decoder::Ours), rate(race, Decoder::Astcenc));
        let ratio = ours / astcenc;
        say!(
            "{:<7}{ours:>7.1} {astcenc:>8.1} {ratio:>13.2}",
            format!("{bw}x{bh}")
        );
        ratios.push(ratio);
    }
    say!("{:<22} {:>13.2}", "geometric mean", mean(&ratios));
    say!("{:<22} {:>13.2}", "least", least(&ratios));
    Ok(vec![Mark::at_least(
        format!("{name}, ours/astcenc, least"),
        least(&ratios),
        wanted(picture.profile),
    )])
}

/// Times both pictures; the marks that are set for them.
pub fn measure(runs: usize) -> Result<Vec<Mark>, String> {
    let mut marks = Vec::new();
    for picture in [&LDR, &HDR] {
        marks.extend(measure_picture(picture, runs)?);
    }
    Ok(marks)
}

#[cfg(test)]
mod tests {
    use super::*;

    #[test]
    fn bytes_are_parts_and_floats_are_floats() {
        let mut out = [9.0; 8];
        let numbers = [0, 255, 51, 0x3f00_0000, 0x4100_0000, 255, 0, 0, 7];
        copy_row(&numbers, &[8, 1, 0], &mut out);
        assert_eq!(out, [0.0, 1.0, 0.2, 0.5, 8.0, 1.0, 0.0, 0.0]);
    }

    #[test]
    fn edge_blocks_are_clipped() {
        let shape = Shape {
            width: 5,
            height: 3,
            bw: 4,
            bh: 4,
        };
        let mut floats = [9.0; CHANNELS * 15];
        paint(&[0; 32], shape, &mut floats).unwrap();
        assert_eq!(floats, [1.0, 0.0, 1.0, 1.0].repeat(15)[..]);
    }
}
