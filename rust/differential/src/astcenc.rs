//! The archive against Arm's astcenc: which blocks are legal, their parameters, and LDR words to within 1. Void blocks are apart:
//! here every one is answer 1, and astcenc judges their extents.

use crate::run::{run, Options, Tally};
use crate::shim::{Context, Findings};
use judge::{archive, Sample};
use model::blocks::Kind;
use model::{bits, Layout, FOOTPRINTS, HDR_MODES, TOPS};
use std::time::Instant;

/// The contexts of one footprint: one that knows HDR modes, for parameters, and one for LDR words.
struct Judge {
    any: Context,
    ldr: Context,
}

/// What this project finds in a legal block: the endpoint range by the archive's map, the rest by the rules of docs/SCOPE.md.
fn our_findings(sample: &Sample, map: &[u32; 9]) -> Findings {
    let block = &sample.block;
    let l = Layout::of(block);
    let mut modes = [0; 4];
    for (place, mode) in modes.iter_mut().zip(l.modes(block)) {
        *place = mode as u32;
    }
    Findings {
        error: 0,
        dual: l.mode.dual.into(),
        channel: l.channel(block).unwrap_or(0) as u32,
        partitions: l.parts as u32,
        partition_number: if l.parts == 1 {
            0
        } else {
            bits(block, 13, 10) as u32
        },
        modes,
        endpoint_levels: map[0] + 1,
        weight_levels: TOPS[l.mode.range] as u32 + 1,
        width: l.mode.width as u32,
        height: l.mode.height as u32,
    }
}

fn judge(judges: &mut [Judge], sample: &Sample, tally: &mut Tally) -> Result<(), String> {
    let (bw, bh, block) = (sample.bw, sample.bh, &sample.block);
    if sample.answer == 1 {
        tally.count("void blocks, skipped");
        return Ok(());
    }
    let place = FOOTPRINTS.iter().position(|&f| f == (bw, bh)).unwrap();
    let judge = &mut judges[place];
    let (mut words, mut map) = ([0; 144], [0; 9]);
    let answers = [
        archive::decode_block(block, bw, bh, &mut words),
        archive::block_map(block, bw, bh, &mut map),
    ];
    let theirs = judge.any.findings(block);
    let legal = theirs.error == 0;
    if answers.iter().any(|&answer| (answer == 0) != legal) {
        return Err(format!(
            "our answers for words and map are {answers:?}, astcenc finds {theirs:?}"
        ));
    }
    if !legal {
        tally.count("blocks illegal for both");
        return Ok(());
    }
    let ours = our_findings(sample, &map);
    if ours != theirs {
        return Err(format!("we find {ours:?}, astcenc {theirs:?}"));
    }
    tally.count("blocks legal for both, all parameters equal");
    let hdr = |mode: &u32| HDR_MODES.contains(&(*mode as usize));
    if ours.modes.iter().any(hdr) {
        tally.count("legal blocks with HDR modes, words not compared");
        return Ok(());
    }
    let mut exact = true;
    for (i, theirs) in judge.ldr.paint_block(block).chunks(4).enumerate() {
        let [blue, green, red, alpha] = words[i].to_le_bytes();
        let ours = [red, green, blue, alpha];
        if ours.iter().zip(theirs).any(|(a, b)| a.abs_diff(*b) > 1) {
            return Err(format!("texel {i}: ours {ours:?}, astcenc's {theirs:?}"));
        }
        exact &= ours == theirs;
    }
    tally.count(if exact {
        "LDR blocks painted alike"
    } else {
        "LDR blocks painted alike to within 1"
    });
    Ok(())
}

/// The whole comparison; whether there was no difference.
pub fn compare(options: &Options) -> bool {
    say!(
        "the archive against astcenc, seed {}, count {}",
        options.seed,
        options.count
    );
    let start = Instant::now();
    let judges = || {
        let mut judges: Vec<Judge> = FOOTPRINTS
            .iter()
            .map(|&footprint| Judge {
                any: Context::new(footprint, true),
                ldr: Context::new(footprint, false),
            })
            .collect();
        move |sample: &Sample, _: &mut _, tally: &mut Tally| judge(&mut judges, sample, tally)
    };
    run(options, Kind::of, judges).end(start)
}
