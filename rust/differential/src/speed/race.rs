//! The decoders' times for one image, in one process on one thread.

use model::Shape;
use std::ffi::c_int;
use std::ops::Range;
use std::time::Duration;

/// About how long the work is that is timed at once.
const PIECE: Duration = Duration::from_micros(250);

/// The number of the clock that counts the processor's time of a process.
const PROCESS_TIME: c_int = if cfg!(target_os = "macos") { 12 } else { 2 };

/// As 64-bit systems have it.
#[repr(C)]
#[derive(Default)]
struct Time {
    seconds: i64,
    nanoseconds: i64,
}

extern "C" {
    fn clock_gettime(clock: c_int, time: *mut Time) -> c_int;
}

/// The processor's time that this process took.
fn processor_time() -> Duration {
    let mut time = Time::default();
    // SAFETY: the time is the system's.
    let status = unsafe { clock_gettime(PROCESS_TIME, &mut time) };
    assert_eq!(status, 0, "the system has a clock for each process");
    Duration::new(time.seconds as u64, time.nanoseconds as u32)
}

/// The processor's time that some work takes. The time of day would count what else the machine does.
pub fn timed(work: impl FnOnce()) -> Duration {
    let start = processor_time();
    work();
    processor_time() - start
}

/// Some rows of blocks, which are an image of their own, and the pixels of the whole image that they paint.
pub struct Band<'a> {
    pub data: &'a [u8],
    pub shape: Shape,
    pub pixels: Range<usize>,
}

/// An image in bands of so many rows of blocks; the last may have fewer.
fn bands(data: &[u8], shape: Shape, rows: usize) -> impl Iterator<Item = Band<'_>> {
    let bytes = 16 * shape.width.div_ceil(shape.bw) * rows;
    data.chunks(bytes).enumerate().map(move |(i, data)| {
        let top = i * rows * shape.bh;
        let height = (rows * shape.bh).min(shape.height - top);
        Band {
            data,
            shape: Shape { height, ..shape },
            pixels: shape.width * top..shape.width * (top + height),
        }
    })
}

/// One of those that are timed.
#[derive(Clone, Copy, PartialEq, Eq)]
pub enum Decoder {
    Ours,
    Original,
    Astcenc,
}

/// Decoders that paint images, each on an output of its own.
pub trait Painters {
    /// Those that are there.
    fn decoders(&self) -> Vec<Decoder>;

    /// Lets one of them paint a band; the processor's time that it takes.
    fn paint(&mut self, decoder: Decoder, band: Band) -> Result<Duration, String>;

    /// What is not alike in the painted images, if something is not.
    fn compare(&self) -> Result<(), String>;
}

/// One decoder's best times for the bands of an image.
struct Best {
    decoder: Decoder,
    /// The rows of blocks of a band.
    rows: usize,
    times: Vec<Duration>,
}

impl Best {
    /// No times yet, with bands that each take about as long as a piece, when the whole image takes so long.
    fn new(decoder: Decoder, shape: Shape, whole: Duration) -> Self {
        let all = shape.height.div_ceil(shape.bh);
        let part = PIECE.as_secs_f64() / whole.max(PIECE).as_secs_f64();
        let rows = (all as f64 * part).ceil() as usize;
        Best {
            decoder,
            rows,
            times: vec![Duration::MAX; all.div_ceil(rows)],
        }
    }

    /// Millions of texels a second.
    fn rate(&self, shape: Shape) -> f64 {
        shape.pixels() as f64 / self.times.iter().sum::<Duration>().as_secs_f64() / 1e6
    }
}

/// An image, and the decoders' best times for it so far.
///
/// The decoders are timed in pieces of about the same length, and those of one turn are done side by side, from the first rows of
/// the image to the last. On a busy machine a short piece has a better best time than a long one, and times when it is less busy
/// come and go: whole images, one decoder after another, would flatter the faster decoder, or any.
pub struct Race {
    data: Vec<u8>,
    shape: Shape,
    best: Vec<Best>,
}

impl Race {
    pub fn new(data: Vec<u8>, shape: Shape) -> Self {
        Race {
            data,
            shape,
            best: Vec::new(),
        }
    }

    /// The decoders paint the image for the first time, which only finds how large their pieces are.
    fn warm_up(&mut self, painters: &mut impl Painters) -> Result<(), String> {
        let rows = self.shape.height.div_ceil(self.shape.bh);
        for decoder in painters.decoders() {
            let whole = bands(&self.data, self.shape, rows).next();
            let whole = whole.ok_or("the image has no blocks")?;
            let time = painters.paint(decoder, whole)?;
            self.best.push(Best::new(decoder, self.shape, time));
        }
        Ok(())
    }

    /// Each decoder paints the image once; what differs, if something does.
    pub fn turn(&mut self, painters: &mut impl Painters) -> Result<(), String> {
        if self.best.is_empty() {
            self.warm_up(painters)?;
        }
        let mut pieces = Vec::new();
        for best in &mut self.best {
            let bands = bands(&self.data, self.shape, best.rows);
            for (time, band) in best.times.iter_mut().zip(bands) {
                pieces.push((best.decoder, time, band));
            }
        }
        pieces.sort_by_key(|(_, _, band)| band.pixels.start + band.pixels.end);
        for (decoder, best, band) in pieces {
            let time = painters.paint(decoder, band)?;
            *best = time.min(*best);
        }
        // in the next turn another is the first to read the data
        self.best.rotate_left(1);
        painters.compare()
    }

    /// A decoder's millions of texels a second so far, if it had a turn.
    pub fn rate(&self, decoder: Decoder) -> Option<f64> {
        let best = self.best.iter().find(|best| best.decoder == decoder);
        best.map(|best| best.rate(self.shape))
    }
}

#[cfg(test)]
mod tests {
    use super::*;

    #[test]
    fn bands_are_the_image() {
        let shape = Shape {
            width: 11,
            height: 23,
            bw: 5,
            bh: 4,
        };
        let data: Vec<u8> = (0..16 * 18).map(|i| i as u8).collect();
        let all: Vec<_> = bands(&data, shape, 4).collect();
        assert_eq!(all.len(), 2);
        assert_eq!((all[0].shape.height, all[1].shape.height), (16, 7));
        assert_eq!((&all[0].pixels, &all[1].pixels), (&(0..176), &(176..253)));
        assert_eq!([all[0].data, all[1].data].concat(), data);
        assert!(all.iter().all(|b| b.data.len() == 16 * b.shape.blocks()));
    }
}
