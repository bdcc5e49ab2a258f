//! How fast the archive paints images, beside the original and, where it was there to build with, astcenc's library on one thread:
//! all in one process, on the same images, by processor time, best of some runs; and as floats beside astcenc. Also how the time grows
//! with the blocks, what a second thread gains, and how much stack the functions use.

mod calls;
mod drawing;
mod floats;
mod grid;
mod kinds;
mod linear;
mod pictures;
mod race;
mod rival;
mod stack;
mod threads;
mod verdict;
mod words;

use crate::screen;
use verdict::Mark;

/// How often each decoder paints an image, where no other number is asked for.
const RUNS: usize = 21;

/// The parts of a measurement, in the order of a whole one.
#[derive(Clone, Copy, PartialEq, Eq)]
enum Part {
    Pictures,
    Hdr,
    Floats,
    Kinds,
    Calls,
    Linear,
    Threads,
    Stack,
}

impl Part {
    const ALL: [Part; 8] = [
        Part::Pictures,
        Part::Hdr,
        Part::Floats,
        Part::Kinds,
        Part::Calls,
        Part::Linear,
        Part::Threads,
        Part::Stack,
    ];

    fn name(self) -> &'static str {
        match self {
            Part::Pictures => "pictures",
            Part::Hdr => "hdr",
            Part::Floats => "floats",
            Part::Kinds => "kinds",
            Part::Calls => "calls",
            Part::Linear => "linear",
            Part::Threads => "threads",
            Part::Stack => "stack",
        }
    }

    fn measure(self, runs: usize) -> Result<Vec<Mark>, String> {
        match self {
            Part::Pictures => pictures::LDR.measure(runs),
            Part::Hdr => pictures::HDR.measure(runs),
            Part::Floats => floats::measure(runs),
            Part::Kinds => grid::measure(runs),
            Part::Calls => calls::measure(runs).map(|()| Vec::new()),
            Part::Linear => linear::measure(),
            Part::Threads => threads::measure(3 * runs).map(|()| Vec::new()),
            Part::Stack => Ok(stack::measure()),
        }
    }
}

/// What is to be measured, and in how many runs.
struct Wanted {
    parts: Vec<Part>,
    runs: usize,
}

impl Wanted {
    /// As the words say, if they are known ones.
    fn of(words: &[String]) -> Option<Self> {
        let mut wanted = Wanted {
            parts: Vec::new(),
            runs: RUNS,
        };
        let mut words = words.iter();
        while let Some(word) = words.next() {
            if word == "--runs" {
                wanted.runs = words.next()?.parse().ok().filter(|&runs| runs > 0)?;
            } else {
                let part = Part::ALL.into_iter().find(|part| part.name() == word)?;
                wanted.parts.push(part);
            }
        }
        if wanted.parts.is_empty() {
            wanted.parts = Part::ALL.to_vec();
        }
        Some(wanted)
    }
}

/// Measures what the words ask for; whether all images were painted alike, or nothing if the words are not known. A mark that is
/// missed is only said: times are never sure.
pub fn measure(words: &[String]) -> Option<bool> {
    let wanted = Wanted::of(words)?;
    let mut marks = Vec::new();
    for part in wanted.parts {
        screen::begin(part.name());
        match part.measure(wanted.runs) {
            Ok(more) => marks.extend(more),
            Err(difference) => {
                say!("difference: {difference}");
                return Some(false);
            }
        }
    }
    verdict::print(&marks);
    Some(true)
}
