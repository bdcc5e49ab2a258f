//! Whole images, images in steps and refused ones, of blocks of all kinds and of sizes that are right or wrong.

use crate::run::{Options, Tally};
use crate::screen::Count;
use judge::image::{refused, Image, Moved, Step, MOVED};
use judge::{room, Canvas, Sample, SPARE};
use model::blocks::{Kind, Legal};
use model::random::Random;
use model::{Shape, FOOTPRINTS};
use std::time::Instant;

/// The data of an image of blocks of all kinds, or only of those that the original judges.
fn data(shape: Shape, judged: bool, legal: &Legal, random: &mut Random) -> Vec<u8> {
    let footprint = (shape.bw, shape.bh);
    let block = |_| loop {
        let kind = Kind::of(random.number());
        let sample = Sample::new(kind.block(random, footprint, legal), footprint);
        if sample.judged() || !judged {
            break sample.block;
        }
    };
    (0..shape.blocks()).flat_map(block).collect()
}

/// The image painted at once.
fn judge_whole(image: &Image, random: &mut Random, tally: &mut Tally) -> Result<(), String> {
    let mut canvas = Canvas::new(room(image.pixels(), random), random);
    image.whole(&mut canvas)?;
    tally.add("words compared", canvas.compared());
    tally.count("images painted at once");
    if image.judged() {
        tally.add("words compared", canvas.compared());
        tally.count("images compared with the original's whole image too");
    }
    Ok(())
}

/// One step from block `next` on an output that is as expected so far; the next block.
fn judge_step(
    image: &Image,
    canvas: &mut Canvas,
    next: usize,
    blocks: usize,
    random: &mut Random,
    tally: &mut Tally,
) -> Result<usize, String> {
    let moved = &mut Moved::new(MOVED + random.below(3), random);
    let end = image.step(Step { next, blocks }, canvas, moved)?;
    tally.add("words compared", canvas.compared());
    tally.count(if end > next {
        "steps"
    } else {
        "steps of a finished cursor"
    });
    Ok(end)
}

/// The sizes of an image's steps.
#[derive(Clone, Copy)]
enum Pace {
    Even(usize),
    Random,
    Any,
}

impl Pace {
    const ALL: [Pace; 8] = [
        Pace::Even(1),
        Pace::Even(2),
        Pace::Even(3),
        Pace::Even(7),
        // more than there are, and nothing to a narrower number
        Pace::Even(1 << (usize::BITS / 2)),
        Pace::Even(usize::MAX),
        Pace::Random,
        Pace::Any,
    ];

    fn step(self, total: usize, random: &mut Random) -> usize {
        match self {
            Pace::Even(blocks) => blocks,
            Pace::Random => 1 + random.below(total),
            Pace::Any => Pace::ALL[random.below(Pace::ALL.len() - 1)].step(total, random),
        }
    }
}

/// The image painted in steps from its first block, and then on a fresh output a step from any block.
fn judge_steps(image: &Image, random: &mut Random, tally: &mut Tally) -> Result<(), String> {
    let total = image.blocks();
    // each step is compared whole, so that large images have few steps
    let least = if total > 10_000 { total / 8 } else { 1 };
    let pace = Pace::ALL[random.below(Pace::ALL.len())];
    let mut canvas = Canvas::new(room(image.pixels(), random), random);
    let mut next = 0;
    while next < total {
        let blocks = pace.step(total, random).max(least);
        next = judge_step(image, &mut canvas, next, blocks, random, tally)?;
    }
    let blocks = pace.step(total, random);
    judge_step(image, &mut canvas, next, blocks, random, tally)?;

    let mut canvas = Canvas::new(room(image.pixels(), random), random);
    let next = random.below(total + 1);
    let blocks = Pace::Any.step(total, random);
    judge_step(image, &mut canvas, next, blocks, random, tally)?;
    Ok(())
}

/// Sizes that each footprint has: the least and the longest, whole blocks, one less and one more, and edges of all kinds.
fn sizes(bw: usize, bh: usize) -> Vec<(usize, usize)> {
    vec![
        (1, 1),
        (1, 4096),
        (4096, 1),
        (4096, bh + 1),
        (bw + 1, 4096),
        (4095, 3),
        (bw, bh),
        (bw - 1, bh),
        (bw, bh - 1),
        (bw + 1, bh),
        (bw, bh + 1),
        (3 * bw, 2 * bh),
        (3 * bw - 1, 2 * bh - 1),
        (3 * bw + 1, 2 * bh + 1),
        (6 * bw - 1, 5 * bh + 1),
        (6 * bw + 1, 5 * bh - 1),
        (13, 7),
        (31, 17),
        (100, 3),
        (3, 100),
    ]
}

/// The shape of the image of this number, and whether it has only blocks that the original judges: each size at each footprint both
/// ways, then random sizes.
fn shape(number: usize, random: &mut Random) -> (Shape, bool) {
    let (round, place) = (number / FOOTPRINTS.len(), number % FOOTPRINTS.len());
    let (bw, bh) = FOOTPRINTS[place];
    let (width, height) = match sizes(bw, bh).get(round / 2) {
        Some(&size) => size,
        None => (1 + random.below(80), 1 + random.below(80)),
    };
    let shape = Shape {
        width,
        height,
        bw,
        bh,
    };
    (shape, round % 2 == 0)
}

/// Holds an image to what it must become, at once and in steps.
fn compare_image(
    what: &str,
    shape: Shape,
    judged: bool,
    legal: &[Legal],
    random: &mut Random,
    tally: &mut Tally,
) {
    let place = FOOTPRINTS.iter().position(|&f| f == (shape.bw, shape.bh));
    let legal = &legal[place.expect("an image's footprint is listed")];
    let data = data(shape, judged, legal, random);
    let outcome = Image::new(shape, &data).and_then(|image| {
        let (total, bad) = (image.blocks(), image.bad(0..image.blocks()));
        tally.add("blocks of images", total);
        tally.add("bad blocks of images", bad);
        judge_whole(&image, random, tally)?;
        judge_steps(&image, random, tally)
    });
    if let Err(difference) = outcome {
        let Shape {
            width,
            height,
            bw,
            bh,
        } = shape;
        tally.differ(&format!(
            "{what}, {width}x{height} pixels at {bw}x{bh}: {difference}"
        ));
    }
}

/// Shapes of which the given one is right, and in most of the others a size or several are wrong: sides and footprints of nothing,
/// the largest numbers, unlisted or too long ones, and right ones with a high bit set, which a narrower number would take for them.
fn shapes(right: Shape) -> Vec<Shape> {
    let Shape {
        width,
        height,
        bw,
        bh,
    } = right;
    let half = 1 << (usize::BITS / 2);
    let top = 1 << (usize::BITS - 1);
    let max = usize::MAX;
    let footprints = [
        (bw, bh),
        (0, bh),
        (bw, 0),
        (bh, bw),
        (4, 5),
        (13, 13),
        (bw + 1, bh),
        (bw | 1 << 8, bh),
        (bw, bh | half),
        (bw | top, bh | top),
        (max, max),
    ];
    let sides = [
        (width, height),
        (0, height),
        (width, 0),
        (4096, height),
        (4097, height),
        (width, 4097),
        (0, 4097),
        (width | 1 << 16, height),
        (width, height | half),
        (top, 2),
        (max, height),
        (width, max),
        (max, max),
    ];
    footprints
        .iter()
        .flat_map(|&(bw, bh)| {
            sides.map(|(width, height)| Shape {
                width,
                height,
                bw,
                bh,
            })
        })
        .collect()
}

/// The sizes of calls that are refused.
struct Refused<'a> {
    seed: u64,
    data: &'a [u8],
    shape: Shape,
    room: usize,
}

impl Refused<'_> {
    /// An image: its answer, and an output that stays.
    fn image(&self, random: &mut Random, tally: &mut Tally) {
        let Some(answer) = self.shape.refusal(self.data.len(), self.room) else {
            return;
        };
        let mut canvas = Canvas::new(self.room, random);
        let outcome = refused(self.data, self.shape, answer, &mut canvas);
        self.end(answer, &canvas, outcome, tally);
    }

    /// A step with so many places for its numbers.
    fn step(&self, step: Step, wide: usize, random: &mut Random, tally: &mut Tally) {
        let (data, shape) = (self.data, self.shape);
        let Some(answer) = shape.step_refusal(data.len(), self.room, wide, step.next, step.blocks)
        else {
            return;
        };
        let mut canvas = Canvas::new(self.room, random);
        let moved = &mut Moved::new(wide, random);
        let outcome = step.refused(data, shape, answer, &mut canvas, moved);
        self.end(answer, &canvas, outcome, tally);
    }

    /// Counts the refusal, and says where it differs, if it does.
    fn end(&self, answer: u32, canvas: &Canvas, outcome: Result<(), String>, tally: &mut Tally) {
        tally.add("words compared", canvas.compared());
        tally.count(match answer {
            21 => "calls refused by 21",
            22 => "calls refused by 22",
            30 => "calls refused by 30",
            31 => "calls refused by 31",
            33 => "calls refused by 33",
            _ => "calls refused by 34",
        });
        if let Err(difference) = outcome {
            tally.differ(&format!(
                "call of seed {}, {:?} with {} bytes and room for {}: {difference}",
                self.seed,
                self.shape,
                self.data.len(),
                self.room
            ));
        }
    }
}

/// Images and steps that their sizes refuse, one or several sizes wrong. Each block of the data would be legal.
fn compare_refusals(seed: u64, legal: &[Legal], tally: &mut Tally) {
    let random = &mut Random::new(seed);
    let half = 1 << (usize::BITS / 2);
    let count = Count::of("footprints of refused calls", FOOTPRINTS.len() as u64);
    for (&(bw, bh), legal) in FOOTPRINTS.iter().zip(legal) {
        let right = Shape {
            width: bw + 1,
            height: 2 * bh - 1,
            bw,
            bh,
        };
        let (total, pixels) = (right.blocks(), right.pixels());
        let size = 16 * total;
        let data: Vec<u8> = (0..=total)
            .flat_map(|_| legal.pick(random).fill(random))
            .collect();
        for shape in shapes(right) {
            for len in [0, size - 16, size - 1, size, size + 1, size + 16] {
                for room in [0, pixels - 1, pixels, pixels + SPARE] {
                    let call = Refused {
                        seed,
                        data: &data[..len],
                        shape,
                        room,
                    };
                    call.image(random, tally);
                    for next in [0, total, total + 1, total | half, usize::MAX] {
                        for blocks in [0, 1, usize::MAX] {
                            for wide in 0..MOVED + 2 {
                                call.step(Step { next, blocks }, wide, random, tally);
                            }
                        }
                    }
                }
            }
        }
        count.add(1);
    }
}

/// The whole comparison; whether there was no difference.
pub fn compare(options: &Options) -> bool {
    let (seed, count) = (options.seed, options.count);
    say!("the archive's images against the original, seed {seed}, count {count}");
    let start = Instant::now();
    let legal = FOOTPRINTS.map(|(bw, bh)| Legal::at(bw, bh));
    let mut tally = Tally::default();
    compare_refusals(seed, &legal, &mut tally);
    let images = Count::of("images", count + 2);
    for number in 0..count {
        let random = &mut Random::part(seed, number);
        let (shape, judged) = shape(number as usize, random);
        let what = format!("image {number} of seed {seed}");
        compare_image(&what, shape, judged, &legal, random, &mut tally);
        images.add(1);
    }
    for (bw, bh) in [FOOTPRINTS[0], FOOTPRINTS[13]] {
        let random = &mut Random::part(!seed, bw as u64);
        let shape = Shape {
            width: 4096,
            height: 4096,
            bw,
            bh,
        };
        let what = format!("the largest image of seed {seed}");
        compare_image(&what, shape, false, &legal, random, &mut tally);
        images.add(1);
    }
    tally.close(&format!("{} images", count + 2), start)
}
