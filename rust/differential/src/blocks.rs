//! The archive against the original and the rules of docs/SCOPE.md: answers, words, maps, and what must stay.

use crate::run::{run, Options, Tally};
use crate::screen::Count;
use judge::block::{Call, NUMBERS};
use judge::{room, Canvas, Sample, SPARE};
use model::blocks::{self, Kind};
use model::random::Random;
use model::FOOTPRINTS;
use std::fmt;
use std::time::Instant;

/// One block: its words and what lies around them, its map, and for a legal block that no unmapped bit matters.
fn judge(sample: &Sample, random: &mut Random, tally: &mut Tally) -> Result<(), String> {
    let call = Call::of(sample);
    let words = &mut Canvas::new(room(sample.texels(), random), random);
    call.words(words)?;
    let map = &mut Canvas::new(room(NUMBERS, random), random);
    call.map(map)?;
    tally.count("maps");
    if sample.answer != 0 {
        return Ok(());
    }
    let unmapped = call.unmapped();
    if unmapped.is_empty() {
        tally.count("legal blocks without an unmapped bit");
        return Ok(());
    }
    tally.count("legal blocks with an unmapped bit changed");
    let bit = unmapped.start + random.below(unmapped.len());
    call.same_without(bit, words, map)
}

/// Footprints up to 20x20, the largest sizes, sizes whose product wraps, and listed sizes with a high bit set, which a narrower
/// number would take for them.
pub fn footprints() -> Vec<(usize, usize)> {
    let mut all: Vec<_> = (0..=20)
        .flat_map(|w| (0..=20).map(move |h| (w, h)))
        .collect();
    let half = 1 << (usize::BITS / 2);
    let top = 1 << (usize::BITS - 1);
    for w in [4, half, top, usize::MAX - 3, usize::MAX] {
        for h in [2, 4, half, top, usize::MAX] {
            all.extend([(w, h), (h, w)]);
        }
    }
    for (w, h) in FOOTPRINTS {
        for shift in [8, 16, 32, usize::BITS - 1] {
            let high = 1usize.checked_shl(shift).unwrap_or(top);
            all.extend([(w | high, h), (w, h | high), (w | high, h | high)]);
        }
    }
    all
}

/// Bytes of blocks that would be legal, one after the other, and more than two blocks have.
pub fn legal_bytes(random: &mut Random) -> [u8; 40] {
    let mut bytes = [0; 40];
    for block in bytes.chunks_mut(16) {
        block.copy_from_slice(&blocks::likely(random, 4, 4)[..block.len()]);
    }
    bytes
}

/// Calls that their sizes refuse, one or several sizes wrong: the answer, and an output that stays. The sixteen bytes and those
/// after them would be legal blocks.
fn compare_refusals(random: &mut Random, tally: &mut Tally) {
    let footprints = footprints();
    let count = Count::of("footprints of refused calls", footprints.len() as u64);
    for (bw, bh) in footprints {
        let bytes = legal_bytes(random);
        let texels = bw.saturating_mul(bh);
        let most = 144 + SPARE;
        for len in 0..=bytes.len() {
            let block = &bytes[..len];
            let call = Call { block, bw, bh };
            for room in [0, texels.saturating_sub(1), texels, most] {
                let room = room.min(most);
                if let Some(answer) = call.refusal(room, texels) {
                    let outcome = call.words(&mut Canvas::new(room, random));
                    let what = format_args!("block with room for {room}");
                    refused(what, call, answer, outcome, tally);
                }
            }
            for room in 0..=12 {
                if let Some(answer) = call.refusal(room, NUMBERS) {
                    let outcome = call.map(&mut Canvas::new(room, random));
                    let what = format_args!("map with room for {room}");
                    refused(what, call, answer, outcome, tally);
                }
            }
        }
        count.add(1);
    }
}

/// Counts a refused call, and says where it differs, if it does.
pub fn refused(
    what: fmt::Arguments,
    call: Call,
    answer: u32,
    outcome: Result<u32, String>,
    tally: &mut Tally,
) {
    tally.count(match answer {
        20 => "calls refused by 20",
        21 => "calls refused by 21",
        22 => "calls refused by 22",
        _ => "calls refused by 23",
    });
    if let Err(difference) = outcome {
        let Call { block, bw, bh } = call;
        let len = block.len();
        tally.differ(&format!(
            "{what}, at {bw}x{bh} of {len} bytes: {difference}"
        ));
    }
}

/// The whole comparison; whether there was no difference.
pub fn compare(options: &Options) -> bool {
    say!(
        "the archive against the original, seed {}, count {}",
        options.seed,
        options.count
    );
    let start = Instant::now();
    let mut refusals = Tally::default();
    compare_refusals(&mut Random::new(options.seed), &mut refusals);
    run(options, Kind::of, || judge).plus(refusals).end(start)
}
