//! What a second thread gains.

use super::kinds::{Kind, Source};
use crate::screen::progress;
use astc::{decode_image_by_threads, Footprint};
use judge::archive;
use model::blocks::Legal;
use model::Shape;
use std::time::{Duration, Instant};

const FOOTPRINTS: [(usize, usize); 3] = [(4, 4), (8, 8), (12, 12)];

const SIDE: usize = 1024;

/// The time of day that some work takes: the processor's would add up over threads. It says something only while the machine does
/// nothing else.
fn taken(work: impl FnOnce()) -> Duration {
    let start = Instant::now();
    work();
    start.elapsed()
}

/// The best times for an image painted at once, by one thread, and by two, all taking turns.
fn times((bw, bh): (usize, usize), runs: usize) -> Result<[Duration; 3], String> {
    let shape = Shape {
        width: SIDE,
        height: SIDE,
        bw,
        bh,
    };
    let legal = Legal::at(bw, bh);
    let data = Source::new(Kind::Mixed, &legal).data(shape.blocks());
    let footprint = Footprint::new(bw, bh).ok_or("the footprint is not listed")?;
    let mut whole = vec![1; shape.pixels()];
    let mut parts = vec![1; shape.pixels()];
    let mut best = [Duration::MAX; 3];
    for run in 1..=runs {
        progress(|| format!("{bw}x{bh}, run {run} of {runs}"));
        let mut number = 0;
        let time = taken(|| number = archive::decode_image(&data, shape, &mut whole));
        best[0] = time.min(best[0]);
        for threads in [1, 2] {
            let mut outcome = Ok(());
            parts.fill(1);
            let time = taken(|| {
                outcome =
                    decode_image_by_threads(&data, SIDE, SIDE, footprint, &mut parts, threads);
            });
            best[threads] = time.min(best[threads]);
            if number != 0 || outcome.is_err() || parts != whole {
                return Err(format!(
                    "{bw}x{bh} by {threads} threads is not the image as a whole"
                ));
            }
        }
    }
    Ok(best)
}

/// Times images by one thread and by two, in millions of texels a second.
pub fn measure(runs: usize) -> Result<(), String> {
    say!(
        "\nmixed blocks, {SIDE}x{SIDE}; millions of texels a second by the time of day, best of {runs} runs, for two idle cores"
    );
    say!("block   at once   1 thread   2 threads   2 threads/at once");
    for (bw, bh) in FOOTPRINTS {
        let [whole, one, two] =
            times((bw, bh), runs)?.map(|t| (SIDE * SIDE) as f64 / t.as_secs_f64() / 1e6);
        say!(
            "{:<7} {whole:>7.1} {one:>10.1} {two:>11.1} {:>19.2}",
            format!("{bw}x{bh}"),
            two / whole
        );
    }
    Ok(())
}
