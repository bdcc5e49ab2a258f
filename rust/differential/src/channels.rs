//! The archive's channels against the original and the rules on them, and where it was there to build with against astcenc's floats.

use crate::blocks::{footprints, legal_bytes, refused};
use crate::run::{run, Options, Tally};
use crate::screen::Count;
use judge::block::Call;
use judge::channels::Outputs;
use judge::{room, Sample, SPARE};
use model::blocks::Kind;
use model::random::Random;
use model::{CHANNELS, FOOTPRINTS};
use std::array;
use std::time::Instant;

#[cfg(astcenc)]
use crate::floats::Astcenc;

/// There is no astcenc.
#[cfg(not(astcenc))]
struct Astcenc;

#[cfg(not(astcenc))]
impl Astcenc {
    fn new() -> Self {
        Astcenc
    }

    fn judge(&mut self, _: &Sample, _: &mut Outputs, tally: &mut Tally) -> Result<(), String> {
        tally.count("blocks not compared with astcenc, which was not there to build with");
        Ok(())
    }
}

/// One block: its channels and what lies around them, the words that they come to, astcenc's floats, and for a legal block that no
/// unmapped bit matters.
fn judge(
    astcenc: &mut Astcenc,
    sample: &Sample,
    random: &mut Random,
    tally: &mut Tally,
) -> Result<(), String> {
    let call = Call::of(sample);
    let texels = sample.texels();
    let rooms = (room(CHANNELS * texels, random), room(texels, random));
    let outputs = &mut Outputs::new(rooms, random);
    call.channels(0, outputs)?;
    let marks = outputs.texels().take(texels);
    let floats: u32 = marks.map(|texel| texel.floats.count_ones()).sum();
    tally.add("channels that are floats", floats as usize);
    tally.add(
        "channels that are bytes",
        CHANNELS * texels - floats as usize,
    );
    astcenc.judge(sample, outputs, tally)?;
    if sample.answer != 0 || call.unmapped().is_empty() {
        return Ok(());
    }
    tally.count("legal blocks with an unmapped bit changed");
    let unmapped = call.unmapped();
    let bit = unmapped.start + random.below(unmapped.len());
    call.same_channels_without(bit, outputs)
}

/// A void block without extents, of halves or of 16-bit numbers.
fn void(halves: bool, channels: [u16; CHANNELS]) -> [u8; 16] {
    let mut block = [0xff; 16];
    block[0] = 0xfc;
    block[1] = if halves { 0xff } else { 0xfd };
    for (bytes, channel) in block[8..].chunks_exact_mut(2).zip(channels) {
        bytes.copy_from_slice(&channel.to_le_bytes());
    }
    block
}

/// Void blocks with each half in each channel, and with each 16-bit number.
fn compare_void(random: &mut Random, tally: &mut Tally) {
    let mut astcenc = Astcenc::new();
    let mut judge = move |sample: &Sample, random: &mut Random, tally: &mut Tally| {
        judge(&mut astcenc, sample, random, tally)
    };
    let count = Count::of("void blocks", 2 << 16);
    for (halves, kind) in [
        (true, "void, with each half in each channel"),
        (false, "void, with each 16-bit number in each channel"),
    ] {
        for number in 0..=u16::MAX {
            let channels = array::from_fn(|k| number.wrapping_add(0x4321 * k as u16));
            let footprint = FOOTPRINTS[usize::from(number) % FOOTPRINTS.len()];
            let sample = Sample::new(void(halves, channels), footprint);
            tally.take(kind, &sample, &mut judge, random);
            count.add(1);
        }
    }
}

/// Options that no call takes yet: those that are planned, and the highest.
const OPTIONS: [u32; 5] = [1, 2, 4, 8, 1 << 31];

/// Calls that their options or their sizes refuse, one or several wrong: the answer, and two outputs that stay. The sixteen bytes and
/// those after them would be legal blocks.
fn compare_refusals(random: &mut Random, tally: &mut Tally) {
    let footprints = footprints();
    let count = Count::of("footprints of refused calls", footprints.len() as u64);
    for (bw, bh) in footprints {
        let bytes = legal_bytes(random);
        let texels = bw.saturating_mul(bh);
        let rooms = |wanted: usize, most: usize| {
            [0, wanted.saturating_sub(1), wanted, most].map(|room| room.min(most))
        };
        let numbers = rooms(texels.saturating_mul(CHANNELS), CHANNELS * 144 + SPARE);
        let floats = rooms(texels, 144 + SPARE);
        for len in 0..=bytes.len() {
            let block = &bytes[..len];
            let call = Call { block, bw, bh };
            for room in numbers.iter().flat_map(|&n| floats.map(|f| (n, f))) {
                compare_refusal(call, 0, room, random, tally);
            }
            for options in OPTIONS {
                let room = (numbers[random.below(4)], floats[random.below(4)]);
                compare_refusal(call, options, room, random, tally);
            }
        }
        count.add(1);
    }
}

/// A call, if it is one to be refused.
fn compare_refusal(
    call: Call,
    options: u32,
    room: (usize, usize),
    random: &mut Random,
    tally: &mut Tally,
) {
    if let Some(answer) = call.channels_refusal(options, room) {
        let outcome = call.channels(options, &mut Outputs::new(room, random));
        let what = format_args!("channels with options {options:x} and room for {room:?}");
        refused(what, call, answer, outcome, tally);
    }
}

/// The whole comparison; whether there was no difference.
pub fn compare(options: &Options) -> bool {
    say!(
        "the archive's channels against the original and astcenc, seed {}, count {}",
        options.seed,
        options.count
    );
    let start = Instant::now();
    let mut others = Tally::default();
    let random = &mut Random::new(options.seed);
    compare_refusals(random, &mut others);
    compare_void(random, &mut others);
    let judges = || {
        let mut astcenc = Astcenc::new();
        move |sample: &Sample, random: &mut Random, tally: &mut Tally| {
            judge(&mut astcenc, sample, random, tally)
        }
    };
    let tally = run(options, Kind::for_channels, judges);
    tally.plus(others).end(start)
}
