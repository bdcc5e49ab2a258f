//! The fixed list of the original's answers, which a proved program replays where Rust is not at hand.
//!
//! A record is a byte each for width and height of the footprint and the answer, the sixteen bytes of the block, and its words,
//! four bytes each, least first. Blocks that answer 0, 1 or 10 have the words of the original; those that answer 11 to 16 are
//! magenta, since the original judges no block.

use model::blocks::{self, Configuration, Legal, HALVES};
use model::random::Random;
use model::{answer, Layout, ANSWERS, FOOTPRINTS, MAGENTA};
use original::astc::decode_astc_block;
use std::collections::{BTreeMap, BTreeSet};

const SEED: u64 = 2026;

type Footprint = (usize, usize);
type Block = [u8; 16];

/// What a legal block shows of the decoder. Each is in the list wherever some legal block shows it.
#[derive(Clone, Copy, PartialEq, Eq, PartialOrd, Ord)]
enum Shown {
    Range {
        footprint: Footprint,
        parts: usize,
        dual: bool,
        mode: usize,
        range: usize,
    },
    /// A mode that all partitions have in common, or that is one's own.
    Way {
        footprint: Footprint,
        parts: usize,
        dual: bool,
        mode: usize,
        own: bool,
    },
    /// Both, at any footprint: the list would be too long with all five at each.
    RangeAndWay {
        parts: usize,
        dual: bool,
        mode: usize,
        own: bool,
        range: usize,
    },
    Grid {
        footprint: Footprint,
        dual: bool,
        width: usize,
        height: usize,
    },
}

impl Shown {
    fn name(&self) -> &'static str {
        match self {
            Shown::Range { .. } => "footprint, partitions, planes, endpoint mode, weight range",
            Shown::Way { .. } => "footprint, partitions, planes, endpoint mode in common or own",
            Shown::RangeAndWay { .. } => {
                "partitions, planes, endpoint mode in common or own, weight range"
            }
            Shown::Grid { .. } => "footprint, planes, grid",
        }
    }
}

/// What legal blocks of this layout show at a footprint with these modes.
fn shown(
    footprint: Footprint,
    l: &Layout,
    modes: impl IntoIterator<Item = usize>,
) -> BTreeSet<Shown> {
    let (parts, dual, range, own) = (l.parts, l.mode.dual, l.mode.range, l.base > 0);
    let mut all = BTreeSet::from([Shown::Grid {
        footprint,
        dual,
        width: l.mode.width,
        height: l.mode.height,
    }]);
    for mode in modes {
        all.insert(Shown::Range {
            footprint,
            parts,
            dual,
            mode,
            range,
        });
        all.insert(Shown::Way {
            footprint,
            parts,
            dual,
            mode,
            own,
        });
        all.insert(Shown::RangeAndWay {
            parts,
            dual,
            mode,
            own,
            range,
        });
    }
    all
}

/// What a legal block shows at a footprint.
fn shown_by(footprint: Footprint, block: &Block) -> BTreeSet<Shown> {
    let l = Layout::of(block);
    shown(footprint, &l, l.modes(block))
}

/// The list so far, and what it shows.
#[derive(Default)]
struct List {
    bytes: Vec<u8>,
    answers: BTreeMap<u8, usize>,
    shown: BTreeSet<Shown>,
}

impl List {
    fn add(&mut self, footprint: Footprint, block: Block) {
        let (bw, bh) = footprint;
        let answer = answer(&block, bw, bh);
        let mut words = vec![MAGENTA; bw * bh];
        if matches!(answer, 0 | 1 | 10) {
            decode_astc_block(&block, bw, bh, &mut words);
        }
        if answer == 0 {
            self.shown.extend(shown_by(footprint, &block));
        }
        *self.answers.entry(answer).or_default() += 1;
        self.bytes.extend([bw as u8, bh as u8, answer]);
        self.bytes.extend(block);
        self.bytes
            .extend(words.iter().flat_map(|word| word.to_le_bytes()));
    }
}

fn any_of<T: Copy>(among: &[T], random: &mut Random) -> T {
    among[random.below(among.len())]
}

/// A block whose `len` bits from `start` on are the number `value`.
fn with_bits(block: Block, start: usize, len: usize, value: usize) -> Block {
    let field = ((1u128 << len) - 1) << start;
    (u128::from_le_bytes(block) & !field | (value as u128) << start).to_le_bytes()
}

/// Blocks that docs/SCOPE.md and docs/DIFFERENCES.md name: P1, P1 with its unmapped byte set, P3, P4, and the contracted mode 9
/// that would paint another blue if it were not clamped.
fn add_named(list: &mut List) {
    for block in [
        0xe000_0000_0000_0000_0000_0001_fe00_0042u128,
        0xe000_0000_0000_00ff_0000_0001_fe00_0042,
        0xffff_4000_8000_0000_ffff_ffff_ffff_fdfc,
        0,
        0x0000_0000_0000_0001_7dfe_8000_8001_2042,
    ] {
        list.add((4, 4), block.to_le_bytes());
    }
}

/// Blocks that show all that legal blocks show at a footprint, which is handed back. It is found over all configurations: the
/// last two bits of a mode, which are in none, decide no answer.
fn add_legal(
    list: &mut List,
    footprint: Footprint,
    legal: &Legal,
    random: &mut Random,
) -> BTreeSet<Shown> {
    let mut all = BTreeMap::<Shown, Vec<Configuration>>::new();
    for c in legal.configurations() {
        let l = c.layout();
        let modes = l.classes[..l.parts]
            .iter()
            .flat_map(|class| 4 * class..4 * class + 4);
        for one in shown(footprint, &l, modes) {
            all.entry(one).or_default().push(c);
        }
    }
    for (one, configurations) in &all {
        while !list.shown.contains(one) {
            let some: Vec<Block> = (0..64)
                .map(|_| any_of(configurations, random).fill(random))
                .collect();
            let best = some.iter().max_by_key(|block| {
                let shown = shown_by(footprint, block);
                let new = shown.difference(&list.shown).count();
                (shown.contains(one), new)
            });
            list.add(footprint, *best.unwrap());
        }
    }
    all.into_keys().collect()
}

/// Void blocks: each special half in each channel, also as a 16-bit number, and any colours at every footprint; with no extents,
/// extents of zeros, and any.
fn add_void(list: &mut List, random: &mut Random) {
    for halves in 0..2 {
        let block = |i: usize, colour: usize, random: &mut Random| {
            let extents = match i % 3 {
                0 => usize::MAX,
                1 => 0,
                _ => random.number() as usize,
            };
            let first = with_bits([0; 16], 0, 10, 0x1fc | halves << 9);
            with_bits(with_bits(first, 10, 54, extents >> 10), 64, 64, colour)
        };
        for i in 0..HALVES.len() {
            let channel = |k| (HALVES[(i + k) % HALVES.len()] as usize) << (16 * k);
            let colour = (0..4).map(channel).sum();
            list.add(FOOTPRINTS[i % 14], block(i, colour, random));
        }
        for (i, footprint) in FOOTPRINTS.into_iter().enumerate() {
            let colour = random.number() as usize;
            list.add(footprint, block(i, colour, random));
            list.add(footprint, blocks::void(random));
        }
    }
}

/// Reserved blocks: every pattern of the first nine bits at 4x4, and one of each of the two kinds at the other footprints.
fn add_reserved(list: &mut List, random: &mut Random) {
    let reserved = |first: usize, random: &mut Random| with_bits(random.block(), 0, 9, first);
    let first: Vec<usize> = (0..512)
        .filter(|&first| answer(&with_bits([0; 16], 0, 9, first), 4, 4) == 10)
        .collect();
    for &first in &first {
        list.add((4, 4), reserved(first, random));
    }
    let (no_range, high): (Vec<_>, Vec<_>) = first.iter().partition(|&first| first % 16 == 0);
    for &footprint in &FOOTPRINTS[1..] {
        for kind in [&no_range, &high] {
            list.add(footprint, reserved(any_of(kind, random), random));
        }
    }
}

/// The HDR modes that have sub-modes, and the bits of their endpoint values that choose a sub-mode and a major component.
const SUB_MODES: [(usize, &[(usize, usize)]); 4] = [
    (7, &[(0, 6), (0, 7), (1, 7), (2, 7)]),
    (11, &[(1, 7), (2, 7), (3, 7), (4, 7), (5, 7)]),
    (14, &[(1, 7), (2, 7), (3, 7), (4, 7), (5, 7)]),
    (
        15,
        &[(1, 7), (2, 7), (3, 7), (4, 7), (5, 7), (6, 7), (7, 7)],
    ),
];

/// Each choice of those bits, in blocks of one partition whose endpoint values are whole bytes, twice, with the footprints in
/// turn; the number of choices.
fn add_sub_modes(list: &mut List, legal: &[Legal; 14], random: &mut Random) -> usize {
    let mut choices = 0;
    for (mode, places) in SUB_MODES {
        let whole_bytes = |c: &Configuration| {
            let l = c.layout();
            l.parts == 1 && l.classes[0] == mode / 4 && l.room() >= 8 * l.values as i64
        };
        let among: Vec<Vec<_>> = legal
            .iter()
            .map(|legal| legal.configurations().filter(whole_bytes).collect())
            .collect();
        for choice in 0..1 << places.len() {
            for again in 0..2 {
                let i = (choices + 7 * again) % 14;
                let block = any_of(&among[i], random).fill(random);
                let mut block = with_bits(block, 13, 4, mode);
                for (k, (value, bit)) in places.iter().enumerate() {
                    block = with_bits(block, 17 + 8 * value + bit, 1, choice >> k & 1);
                }
                list.add(FOOTPRINTS[i], block);
            }
            choices += 1;
        }
    }
    choices
}

/// A block's demands at a footprint, with its answer.
struct Case<'a> {
    answer: u8,
    l: &'a Layout,
    footprint: Footprint,
}

/// What stands at the edge of a rule, on its legal side or beyond it.
type Edge = (&'static str, fn(&Case) -> bool);

const EDGES: [Edge; 19] = [
    ("0 with the footprint's own grid", |c| {
        c.answer == 0 && (c.l.mode.width, c.l.mode.height) == c.footprint
    }),
    ("0 with a grid of the footprint's width", |c| {
        c.answer == 0 && c.l.mode.width == c.footprint.0
    }),
    ("0 with a grid of the footprint's height", |c| {
        c.answer == 0 && c.l.mode.height == c.footprint.1
    }),
    ("0 with 64 weights", |c| c.answer == 0 && c.l.weights == 64),
    ("0 with 24 weight bits", |c| {
        c.answer == 0 && c.l.weight_bits == 24
    }),
    ("0 with 96 weight bits", |c| {
        c.answer == 0 && c.l.weight_bits == 96
    }),
    ("0 with three partitions of two planes", |c| {
        c.answer == 0 && c.l.parts == 3 && c.l.mode.dual
    }),
    ("0 with 18 endpoint values", |c| {
        c.answer == 0 && c.l.values == 18
    }),
    ("0 with no bit to spare for endpoints", |c| {
        c.answer == 0 && c.l.room() == c.l.need()
    }),
    ("11 by the width alone", |c| {
        c.answer == 11 && c.l.mode.height <= c.footprint.1
    }),
    ("11 by the height alone", |c| {
        c.answer == 11 && c.l.mode.width <= c.footprint.0
    }),
    ("12", |c| c.answer == 12),
    ("13 by too few bits", |c| {
        c.answer == 13 && c.l.weight_bits < 24
    }),
    ("13 by too many bits", |c| {
        c.answer == 13 && c.l.weight_bits > 96
    }),
    ("14", |c| c.answer == 14),
    ("15", |c| c.answer == 15),
    ("16", |c| c.answer == 16),
    ("16 by one bit", |c| {
        c.answer == 16 && c.l.room() == c.l.need() - 1
    }),
    ("16 by less room than none", |c| {
        c.answer == 16 && c.l.room() < 0
    }),
];

/// Two blocks at each edge, at every footprint that has it; the number of those footprints by edge.
fn add_edges(list: &mut List, random: &mut Random) -> [usize; EDGES.len()] {
    let mut footprints = [0; EDGES.len()];
    for footprint in FOOTPRINTS {
        let (bw, bh) = footprint;
        let mut found = EDGES.map(|_| vec![]);
        for c in Configuration::all() {
            let answer = c.answer(bw, bh);
            if answer == 1 || answer == 10 {
                continue;
            }
            let l = &c.layout();
            let case = Case {
                answer,
                l,
                footprint,
            };
            for (found, (_, holds)) in found.iter_mut().zip(EDGES) {
                if holds(&case) {
                    found.push(c);
                }
            }
        }
        for (found, footprints) in found.iter().zip(&mut footprints) {
            if found.is_empty() {
                continue;
            }
            *footprints += 1;
            for _ in 0..2 {
                list.add(footprint, any_of(found, random).fill(random));
            }
        }
    }
    footprints
}

/// Legal blocks at every footprint whose other bits are all 0 or all 1: the least and the largest endpoints and weights.
fn add_uniform(list: &mut List, legal: &[Legal; 14], random: &mut Random) {
    for (footprint, legal) in FOOTPRINTS.into_iter().zip(legal) {
        for rest in [0, u128::MAX] {
            for _ in 0..4 {
                list.add(footprint, legal.pick(random).over(rest));
            }
        }
    }
}

/// The list, and its summary in lines.
pub fn record() -> (Vec<u8>, String) {
    let random = &mut Random::new(SEED);
    let legal = FOOTPRINTS.map(|(bw, bh)| Legal::at(bw, bh));
    let mut list = List::default();
    add_named(&mut list);
    let mut all = BTreeSet::new();
    for (footprint, legal) in FOOTPRINTS.into_iter().zip(&legal) {
        all.extend(add_legal(&mut list, footprint, legal, random));
    }
    add_void(&mut list, random);
    add_reserved(&mut list, random);
    let sub_modes = add_sub_modes(&mut list, &legal, random);
    let edges = add_edges(&mut list, random);
    add_uniform(&mut list, &legal, random);

    assert!(
        list.shown == all,
        "{} of {} combinations are shown",
        list.shown.len(),
        all.len()
    );
    let summary = summary(&list, sub_modes, &edges);
    (list.bytes, summary)
}

/// Counts of the list, which shows all that legal blocks show.
fn summary(list: &List, sub_modes: usize, edges: &[usize]) -> String {
    let records: usize = list.answers.values().sum();
    let mut lines = vec![format!("{records} records, {} bytes", list.bytes.len())];
    for answer in ANSWERS {
        let count = list.answers.get(&answer).copied().unwrap_or(0);
        assert!(count > 0, "no record has answer {answer}");
        lines.push(format!("answer {answer}: {count}"));
    }
    let mut combinations = BTreeMap::<&str, usize>::new();
    for shown in &list.shown {
        *combinations.entry(shown.name()).or_default() += 1;
    }
    for (name, count) in combinations {
        lines.push(format!("{name}: all {count} legal combinations"));
    }
    lines.push(format!(
        "HDR sub-mode, major component: all {sub_modes} choices, each twice"
    ));
    for ((name, _), footprints) in EDGES.iter().zip(edges) {
        lines.push(format!("{name}: at {footprints} footprints"));
    }
    lines.join("\n") + "\n"
}

#[cfg(test)]
mod tests {
    use super::*;

    /// P1 of docs/SCOPE.md: red, green and blue are 255, 84, then fourteen 0; alpha is 255.
    #[test]
    fn a_record_of_the_block_p1() {
        let mut list = List::default();
        add_named(&mut list);
        let block = [0x42, 0, 0, 0xfe, 1, 0, 0, 0, 0, 0, 0, 0, 0, 0, 0, 0xe0];
        let mut words = [0xff00_0000u32; 16];
        words[0] = 0xffff_ffff;
        words[1] = 0xff54_5454;
        let mut record = vec![4, 4, 0];
        record.extend(block);
        record.extend(words.iter().flat_map(|word| word.to_le_bytes()));
        assert_eq!(list.bytes[..record.len()], record);
    }

    #[test]
    fn a_field_is_set() {
        assert_eq!(with_bits([0xff; 16], 4, 8, 0x5a)[..3], [0xaf, 0xf5, 0xff]);
        assert_eq!(
            with_bits([0; 16], 64, 64, usize::MAX)[7..],
            [0, 0xff, 0xff, 0xff, 0xff, 0xff, 0xff, 0xff, 0xff]
        );
    }
}
