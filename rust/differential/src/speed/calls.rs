//! Blocks by calls of their own, as a caller has them who decodes block by block. Here the tables that an image makes once are made
//! in each call.

use super::kinds::{Kind, Source};
use super::race::timed;
use crate::screen::progress;
use judge::archive;
use model::blocks::Legal;
use original::astc::decode_astc_block;
use std::hint::black_box;
use std::time::Duration;

/// The smallest footprint, the largest, and one between.
const FOOTPRINTS: [(usize, usize); 3] = [(4, 4), (8, 8), (12, 12)];

const BLOCKS: usize = 1000;

/// How often the original's speed ours is, on the blocks of a kind, which both must paint alike.
fn ratio(kind: Kind, (bw, bh): (usize, usize), runs: usize) -> Result<f64, String> {
    let data = Source::new(kind, &Legal::at(bw, bh)).data(BLOCKS);
    let texels = bw * bh;
    let (mut ours, mut theirs) = (vec![0; BLOCKS * texels], vec![0; BLOCKS * texels]);
    let mut best = [Duration::MAX; 2];
    for _ in 0..runs {
        let pairs = data.chunks(16).zip(ours.chunks_mut(texels));
        let time = timed(|| {
            pairs.for_each(|(block, words)| {
                black_box(archive::decode_block(block, bw, bh, words));
            })
        });
        best[0] = time.min(best[0]);
        let pairs = data.chunks(16).zip(theirs.chunks_mut(texels));
        let time = timed(|| {
            pairs.for_each(|(block, words)| decode_astc_block(black_box(block), bw, bh, words))
        });
        best[1] = time.min(best[1]);
    }
    if ours != theirs {
        return Err(format!(
            "{} blocks at {bw}x{bh} by their own calls are not the original's",
            kind.name()
        ));
    }
    Ok(best[1].as_secs_f64() / best[0].as_secs_f64())
}

/// Times all kinds by calls of their own. No mark is set for them.
pub fn measure(runs: usize) -> Result<(), String> {
    say!("\nseeded blocks by calls of their own: ours/original, best of {runs} runs");
    let names = Kind::ALL.map(|kind| format!("{:>7}", kind.name()));
    say!("block {}", names.concat());
    for (bw, bh) in FOOTPRINTS {
        let mut line = format!("{:<6}", format!("{bw}x{bh}"));
        for kind in Kind::ALL {
            progress(|| format!("{} blocks at {bw}x{bh}", kind.name()));
            line += &format!("{:>7.2}", ratio(kind, (bw, bh), runs)?);
        }
        say!("{line}");
    }
    Ok(())
}
