//! A long run over blocks of all kinds, in parts that threads take in turn. A seed and a count give the same blocks to any judge,
//! with any number of threads.

use crate::screen::Count;
use judge::Sample;
use model::blocks::{self, Kind, Legal};
use model::random::Random;
use model::{ANSWERS, FOOTPRINTS};
use std::collections::BTreeMap;
use std::sync::atomic::{AtomicU64, Ordering};
use std::thread;
use std::time::Instant;

pub struct Options {
    pub seed: u64,
    /// How many blocks are made beside those of all first eleven bits at every footprint, or how many images.
    pub count: u64,
    pub threads: u64,
}

/// The blocks of one part of a run.
const PART: u64 = 10_000;

/// The numbers that the first eleven bits of a block can be.
const FIRST: u16 = 2048;

/// The differences that a thread shows; it counts the others.
const SHOWN: u64 = 5;

/// Compares a block, with a source of numbers for what it chooses itself, apart from the source of the blocks; what differs, if
/// something does.
pub trait Judge: FnMut(&Sample, &mut Random, &mut Tally) -> Result<(), String> {}

impl<F: FnMut(&Sample, &mut Random, &mut Tally) -> Result<(), String>> Judge for F {}

/// What was compared.
#[derive(Default)]
pub struct Tally {
    kinds: BTreeMap<&'static str, u64>,
    answers: BTreeMap<u8, u64>,
    others: BTreeMap<&'static str, u64>,
    differences: u64,
}

impl Tally {
    /// Counts something beside the blocks themselves.
    pub fn count(&mut self, what: &'static str) {
        self.add(what, 1);
    }

    /// Counts so many things at once.
    pub fn add(&mut self, what: &'static str, many: usize) {
        *self.others.entry(what).or_default() += many as u64;
    }

    /// Counts a difference, and shows it if it is one of the first.
    pub fn differ(&mut self, difference: &str) {
        self.differences += 1;
        if self.differences <= SHOWN {
            say!("difference: {difference}");
        }
    }

    /// Has a block judged, and counts it.
    pub fn take<J: Judge>(
        &mut self,
        kind: &'static str,
        sample: &Sample,
        judge: &mut J,
        choices: &mut Random,
    ) {
        *self.kinds.entry(kind).or_default() += 1;
        *self.answers.entry(sample.answer).or_default() += 1;
        if let Err(difference) = judge(sample, choices, self) {
            let bytes = sample.block.map(|byte| format!("{byte:02x}")).join(" ");
            let (bw, bh) = (sample.bw, sample.bh);
            self.differ(&format!(
                "block {bytes} at {bw}x{bh} ({kind}): {difference}"
            ));
        }
    }

    /// Both counts together.
    pub fn plus(mut self, other: Tally) -> Tally {
        fn add<K: Ord>(all: &mut BTreeMap<K, u64>, more: BTreeMap<K, u64>) {
            for (key, count) in more {
                *all.entry(key).or_default() += count;
            }
        }
        add(&mut self.kinds, other.kinds);
        add(&mut self.answers, other.answers);
        add(&mut self.others, other.others);
        self.differences += other.differences;
        self
    }

    /// Prints the counts of a run over blocks; whether there was no difference.
    pub fn end(&self, start: Instant) -> bool {
        for (kind, count) in &self.kinds {
            say!("blocks, {kind}: {count}");
        }
        for answer in ANSWERS {
            let count = self.answers.get(&answer).copied().unwrap_or(0);
            assert!(count > 0, "no block with answer {answer} was compared");
            say!("blocks of answer {answer}: {count}");
        }
        let blocks = self.kinds.values().sum::<u64>();
        self.close(&format!("{blocks} blocks"), start)
    }

    /// Prints what was counted beside blocks, and last what it was all about; whether there was no difference.
    pub fn close(&self, all: &str, start: Instant) -> bool {
        for (what, count) in &self.others {
            say!("{what}: {count}");
        }
        say!(
            "{all}, {} differences, {:.1} s",
            self.differences,
            start.elapsed().as_secs_f64()
        );
        self.differences == 0
    }
}

/// The blocks of a run, in parts: first those of all first eleven bits, a part for each footprint, then those of all kinds.
struct Source<'a> {
    options: &'a Options,
    /// The kind of the block of each number.
    kinds: fn(u64) -> Kind,
    legal: [Legal; FOOTPRINTS.len()],
}

impl Source<'_> {
    fn parts(&self) -> u64 {
        FOOTPRINTS.len() as u64 + self.options.count.div_ceil(PART)
    }

    fn blocks(&self) -> u64 {
        FOOTPRINTS.len() as u64 * u64::from(FIRST) + self.options.count
    }

    /// The blocks of a part, each with the name of its kind.
    fn part(&self, part: u64) -> Vec<(&'static str, Sample)> {
        let random = &mut Random::part(self.options.seed, part);
        if let Some(&footprint) = FOOTPRINTS.get(part as usize) {
            return (0..FIRST)
                .map(|first| blocks::with_first_bits(first, random))
                .map(|block| {
                    (
                        "each of the first eleven bits",
                        Sample::new(block, footprint),
                    )
                })
                .collect();
        }
        let start = (part - FOOTPRINTS.len() as u64) * PART;
        (start..self.options.count.min(start + PART))
            .map(|number| {
                let kind = (self.kinds)(number);
                let place = random.below(FOOTPRINTS.len());
                let block = kind.block(random, FOOTPRINTS[place], &self.legal[place]);
                (kind.name(), Sample::new(block, FOOTPRINTS[place]))
            })
            .collect()
    }
}

/// Hands each block of a run to the judge of a thread. The kinds are those of the blocks by their numbers.
pub fn run<J: Judge>(
    options: &Options,
    kinds: fn(u64) -> Kind,
    judge: impl Fn() -> J + Sync,
) -> Tally {
    let source = Source {
        options,
        kinds,
        legal: FOOTPRINTS.map(|(bw, bh)| Legal::at(bw, bh)),
    };
    let next = AtomicU64::new(0);
    let count = Count::of("blocks", source.blocks());
    let work = || {
        let mut judge = judge();
        let mut tally = Tally::default();
        loop {
            let part = next.fetch_add(1, Ordering::Relaxed);
            if part >= source.parts() {
                return tally;
            }
            let choices = &mut Random::part(!options.seed, part);
            let blocks = source.part(part);
            for (kind, sample) in &blocks {
                tally.take(kind, sample, &mut judge, choices);
            }
            count.add(blocks.len() as u64);
        }
    };
    thread::scope(|scope| {
        let threads: Vec<_> = (0..options.threads).map(|_| scope.spawn(work)).collect();
        threads
            .into_iter()
            .map(|thread| thread.join().expect("a thread ends with its tally"))
            .fold(Tally::default(), Tally::plus)
    })
}
