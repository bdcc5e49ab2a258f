//! How the time grows with the number of blocks.

use super::kinds::{Kind, Source};
use super::race::timed;
use super::verdict::{most, Mark};
use crate::screen::progress;
use judge::archive;
use model::blocks::Legal;
use model::Shape;
use std::time::Duration;

/// The smallest footprint, the largest, and one between.
const FOOTPRINTS: [(usize, usize); 3] = [(4, 4), (8, 8), (12, 12)];

/// The sides of the images, in those of the smallest; the last has 64 times the blocks of the first.
const SIDES: [usize; 4] = [1, 2, 4, 8];

/// The longest side of the largest image.
const LONGEST: usize = 4096;

/// How often each size is painted; its best time counts.
const RUNS: usize = 5;

/// How much more a block may cost in an image of 64 times the blocks.
const MOST: f64 = 1.25;

/// The largest image at a footprint whose side is a whole number of blocks, and of smallest images.
fn largest((bw, bh): (usize, usize)) -> Shape {
    let blocks = LONGEST / bw.max(bh) / SIDES[3] * SIDES[3];
    Shape {
        width: blocks * bw,
        height: blocks * bh,
        bw,
        bh,
    }
}

/// Paints the blocks as images of a part of the largest one's side, one after another.
fn paint(data: &[u8], largest: Shape, part: usize, out: &mut [u32]) -> Result<(), String> {
    let shape = Shape {
        width: largest.width / part,
        height: largest.height / part,
        ..largest
    };
    let images = data.chunks_exact(16 * shape.blocks());
    for (data, out) in images.zip(out.chunks_exact_mut(shape.pixels())) {
        match archive::decode_image(data, shape, out) {
            0 => {}
            answer => return Err(format!("an image of many blocks has the answer {answer}")),
        }
    }
    Ok(())
}

/// The best times for the same blocks as images of each side. All sizes paint as many words at as many places, so that they differ
/// in the number of images alone.
fn times(footprint: (usize, usize)) -> Result<[Duration; 4], String> {
    let shape = largest(footprint);
    let legal = Legal::at(shape.bw, shape.bh);
    let data = Source::new(Kind::Mixed, &legal).data(shape.blocks());
    let mut out = vec![1; shape.pixels()];
    let mut best = [Duration::MAX; 4];
    for run in 1..=RUNS {
        progress(|| format!("{}x{}, run {run} of {RUNS}", shape.bw, shape.bh));
        for (best, side) in best.iter_mut().zip(SIDES) {
            let mut outcome = Ok(());
            let time = timed(|| outcome = paint(&data, shape, SIDES[3] / side, &mut out));
            outcome?;
            *best = time.min(*best);
        }
    }
    Ok(best)
}

/// Times images of 1, 4, 16 and 64 times the blocks; the mark on what a block costs in the largest.
pub fn measure() -> Result<Vec<Mark>, String> {
    say!(
        "\nthe same mixed blocks, in images of 1, 4, 16 and 64 times the blocks; nanoseconds a block, best of {RUNS} runs"
    );
    say!("block   largest        1x      4x     16x     64x   64x/1x");
    let mut ratios = Vec::new();
    for footprint in FOOTPRINTS {
        let shape = largest(footprint);
        let each = times(footprint)?.map(|t| t.as_nanos() as f64 / shape.blocks() as f64);
        let ratio = each[3] / each[0];
        say!(
            "{:<7} {:<9} {:>7.1} {:>7.1} {:>7.1} {:>7.1} {ratio:>8.2}",
            format!("{}x{}", shape.bw, shape.bh),
            format!("{}x{}", shape.width, shape.height),
            each[0],
            each[1],
            each[2],
            each[3]
        );
        ratios.push(ratio);
    }
    Ok(vec![Mark::at_most(
        "a block's time in an image of 64 times the blocks, most",
        most(&ratios),
        MOST,
    )])
}
