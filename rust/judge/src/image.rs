//! Whole images and images in steps: the archive against images that the original paints, block by block and whole, and against
//! the rules of docs/SCOPE.md on sizes and cursors.

use crate::archive;
use crate::canvas::{marks, same_answer, Canvas, AROUND};
use crate::sample::Sample;
use model::random::Random;
use model::Shape;
use original::astc::decode_astc;
use std::array;
use std::ops::Range;
use std::panic::{catch_unwind, AssertUnwindSafe};

/// The numbers that a step writes.
pub const MOVED: usize = 3;
/// The places for them, with those before and behind, which must stay.
const PLACES: usize = AROUND + MOVED + AROUND;

/// An image that is to be painted, and what it must become.
pub struct Image<'a> {
    shape: Shape,
    data: &'a [u8],
    /// The answers of its blocks.
    answers: Vec<u8>,
    /// Whether the original judges all of its blocks.
    judged: bool,
    pixels: Vec<u32>,
}

impl<'a> Image<'a> {
    /// An image that no size refuses, composed block by block.
    pub fn new(shape: Shape, data: &'a [u8]) -> Result<Self, String> {
        let mut image = Image {
            shape,
            data,
            answers: Vec::with_capacity(shape.blocks()),
            judged: true,
            pixels: vec![0; shape.pixels()],
        };
        for (number, block) in data.chunks_exact(16).enumerate() {
            let block = block.try_into().expect("a chunk has sixteen bytes");
            let sample = Sample::new(block, (shape.bw, shape.bh));
            image.answers.push(sample.answer);
            image.judged &= sample.judged();
            let mut texels = [0; 144];
            sample.paint(&mut texels[..sample.texels()])?;
            for (row, texels) in shape.rows(number).zip(texels.chunks(shape.bw)) {
                let wide = row.len();
                image.pixels[row].copy_from_slice(&texels[..wide]);
            }
        }
        Ok(image)
    }

    pub fn blocks(&self) -> usize {
        self.answers.len()
    }

    pub fn pixels(&self) -> usize {
        self.pixels.len()
    }

    /// Whether the original judges all of its blocks.
    pub fn judged(&self) -> bool {
        self.judged
    }

    /// How many of these blocks answer 10 to 16.
    pub fn bad(&self, blocks: Range<usize>) -> usize {
        let answers = &self.answers[blocks];
        answers.iter().filter(|&&answer| answer >= 10).count()
    }

    /// Paints these blocks as they must become.
    fn paint(&self, blocks: Range<usize>, out: &mut [u32]) {
        for row in blocks.flat_map(|block| self.shape.rows(block)) {
            out[row.clone()].copy_from_slice(&self.pixels[row]);
        }
    }

    /// The original's own image.
    fn by_original(&self) -> Result<Vec<u32>, String> {
        let Shape {
            width,
            height,
            bw,
            bh,
        } = self.shape;
        let mut pixels = vec![0; self.shape.pixels()];
        catch_unwind(AssertUnwindSafe(|| {
            decode_astc(self.data, width, height, bw, bh, &mut pixels)
        }))
        .map_err(|_| "the original panics at the image".to_string())?
        .map_err(|error| format!("the original refuses the image: {error}"))?;
        Ok(pixels)
    }

    /// Has the image painted at once, and holds it to the original's whole image too where it judges all blocks.
    pub fn whole(&self, canvas: &mut Canvas) -> Result<(), String> {
        let answer = archive::decode_image(self.data, self.shape, canvas.out());
        same_answer("answer", answer, 0)?;
        self.paint(0..self.blocks(), canvas.expected());
        canvas.compare("word")?;
        if self.judged {
            canvas.expected()[..self.pixels()].copy_from_slice(&self.by_original()?);
            canvas
                .compare("word")
                .map_err(|difference| format!("by the original's whole image, {difference}"))?;
        }
        Ok(())
    }

    /// Has a step painted on an output that is as expected so far; the next block.
    pub fn step(
        &self,
        step: Step,
        canvas: &mut Canvas,
        moved: &mut Moved,
    ) -> Result<usize, String> {
        let painted = step.blocks.min(self.blocks() - step.next);
        let end = step.next + painted;
        self.paint(step.next..end, canvas.expected());
        let numbers = [end, painted, self.bad(step.next..end)];
        step.call((self.data, self.shape), 0, canvas, moved, Some(numbers))?;
        Ok(end)
    }
}

/// The numbers of a step among places that must stay.
pub struct Moved {
    before: [u64; PLACES],
    all: [u64; PLACES],
    places: usize,
}

impl Moved {
    /// So many places, of which nothing is written yet.
    pub fn new(places: usize, random: &mut Random) -> Self {
        let mark = marks(random);
        let before = array::from_fn(|i| u64::from(mark(i)) << 32 | u64::from(mark(i + PLACES)));
        Moved {
            before,
            all: before,
            places,
        }
    }

    fn out(&mut self) -> &mut [u64] {
        &mut self.all[AROUND..AROUND + self.places]
    }

    /// Holds the numbers to those that are expected, and the places around them to what they were.
    fn compare(&self, expected: Option<[usize; MOVED]>) -> Result<(), String> {
        let mut all = self.before;
        if let Some(numbers) = expected {
            all[AROUND..AROUND + MOVED].copy_from_slice(&numbers.map(|n| n as u64));
        }
        if self.all == all {
            return Ok(());
        }
        let numbers = &self.all[AROUND..AROUND + MOVED];
        Err(match expected {
            Some(expected) if expected.map(|n| n as u64) != numbers => {
                format!("numbers of the step: ours {numbers:?}, expected {expected:?}")
            }
            Some(_) => "places around the numbers of the step were written".into(),
            None => "places for the numbers of the step were written".into(),
        })
    }
}

/// A step as it is asked for: from which block on, and how many.
#[derive(Clone, Copy)]
pub struct Step {
    pub next: usize,
    pub blocks: usize,
}

impl Step {
    /// Calls for the step, and holds answer, numbers and words to what is expected.
    fn call(
        self,
        (data, shape): (&[u8], Shape),
        answer: u32,
        canvas: &mut Canvas,
        moved: &mut Moved,
        numbers: Option<[usize; MOVED]>,
    ) -> Result<(), String> {
        let Step { next, blocks } = self;
        let ours = archive::image_step(data, shape, next, blocks, canvas.out(), moved.out());
        same_answer("answer", ours, answer)
            .and_then(|()| moved.compare(numbers))
            .and_then(|()| canvas.compare("word"))
            .map_err(|difference| {
                let places = moved.places;
                format!("step of {blocks} blocks from {next} with {places} places: {difference}")
            })
    }

    /// A step that is refused by this answer: an output that stays, and where the places are enough the next block as given and two
    /// zeros.
    pub fn refused(
        self,
        data: &[u8],
        shape: Shape,
        answer: u32,
        canvas: &mut Canvas,
        moved: &mut Moved,
    ) -> Result<(), String> {
        let numbers = (moved.places >= MOVED).then_some([self.next, 0, 0]);
        self.call((data, shape), answer, canvas, moved, numbers)
    }
}

/// An image that is refused by this answer: an output that stays.
pub fn refused(data: &[u8], shape: Shape, answer: u32, canvas: &mut Canvas) -> Result<(), String> {
    let ours = archive::decode_image(data, shape, canvas.out());
    same_answer("answer", ours, answer)?;
    canvas.compare("word")
}
