//! Images painted as words, or by astcenc as bytes.

use super::race::{timed, Band, Decoder, Painters, Race};
use super::rival::Rival;
use judge::archive;
use original::astc::decode_astc;
use std::hint::black_box;
use std::time::Duration;

/// Millions of texels a second.
#[derive(Clone, Copy)]
pub struct Rates {
    pub ours: f64,
    pub original: f64,
    pub astcenc: Option<f64>,
}

impl Rates {
    /// The rates of a race so far, after a turn or more.
    pub fn of(race: &Race) -> Self {
        Rates {
            ours: race.rate(Decoder::Ours).expect("ours had its turn"),
            original: race
                .rate(Decoder::Original)
                .expect("the original had its turn"),
            astcenc: race.rate(Decoder::Astcenc),
        }
    }

    /// How often the original's speed ours is.
    pub fn over_original(self) -> f64 {
        self.ours / self.original
    }

    /// How often astcenc's speed ours is.
    pub fn over_astcenc(self) -> Option<f64> {
        self.astcenc.map(|astcenc| self.ours / astcenc)
    }
}

/// What the decoders paint on. All races of images of one size share it.
pub struct Canvas {
    ours: Vec<u32>,
    original: Vec<u32>,
    astcenc: Vec<u8>,
}

impl Canvas {
    pub fn new(pixels: usize) -> Self {
        Canvas {
            ours: vec![0; pixels],
            original: vec![0; pixels],
            astcenc: vec![0; 4 * pixels],
        }
    }
}

/// The three decoders, or two where astcenc is not there.
pub struct Words<'a> {
    pub canvas: &'a mut Canvas,
    pub rival: Option<&'a mut Rival>,
}

impl Painters for Words<'_> {
    fn decoders(&self) -> Vec<Decoder> {
        let astcenc = self.rival.as_ref().map(|_| Decoder::Astcenc);
        let both = [Decoder::Ours, Decoder::Original];
        both.into_iter().chain(astcenc).collect()
    }

    fn paint(&mut self, decoder: Decoder, band: Band) -> Result<Duration, String> {
        let (data, shape, pixels) = (black_box(band.data), band.shape, band.pixels);
        let (width, height, bw, bh) = (shape.width, shape.height, shape.bw, shape.bh);
        let canvas = &mut *self.canvas;
        match (decoder, self.rival.as_deref_mut()) {
            (Decoder::Ours, _) => {
                let words = &mut canvas.ours[pixels];
                let mut answer = 0;
                let time = timed(|| answer = archive::decode_image(data, shape, words));
                match answer {
                    0 => Ok(time),
                    _ => Err(format!("our answer is {answer}")),
                }
            }
            (Decoder::Original, _) => {
                let words = &mut canvas.original[pixels];
                let mut outcome = Ok(());
                let time = timed(|| outcome = decode_astc(data, width, height, bw, bh, words));
                outcome.map(|()| time).map_err(String::from)
            }
            (Decoder::Astcenc, Some(rival)) => {
                let bytes = &mut canvas.astcenc[4 * pixels.start..4 * pixels.end];
                Ok(timed(|| rival.paint(data, shape, bytes)))
            }
            (Decoder::Astcenc, None) => Err("astcenc is not there".into()),
        }
    }

    /// Ours and the original's words must be the same. astcenc rounds to eight bits in its own way, so that its bytes are held to
    /// ours to within 1, and those of HDR blocks, of which it reads some in another way, are not compared.
    fn compare(&self) -> Result<(), String> {
        let canvas = &*self.canvas;
        if canvas.ours != canvas.original {
            return Err("our image is not the original's".into());
        }
        let rival = self.rival.as_deref();
        if rival.is_some_and(|rival| !rival.is_like(&canvas.astcenc, &canvas.ours)) {
            return Err("our image is not astcenc's to within 1".into());
        }
        Ok(())
    }
}
