//! The comparisons, one for each layer.

use crate::asker::{Asker, Request, ANSWER};
use crate::say;
use model::random::Random;
use model::{blocks, FOOTPRINTS, TOPS};
use original::astc::probe;
use original::{bitreader, color, f16};

const BITS: u8 = 1;
const TABLES: u8 = 2;
const SEQUENCE: u8 = 3;
const HALVES: u8 = 4;
const PARAMS: u8 = 5;
const ENDPOINTS: u8 = 6;
const WEIGHTS: u8 = 7;
const PARTITION: u8 = 8;
const BLEND: u8 = 9;
const COLOR: u8 = 10;

type Answer = [u8; ANSWER];

/// The differences that a comparison shows; it counts the others.
const SHOWN: u64 = 3;

/// Ends a comparison whose samples had not all that they must have.
fn all_seen(seen: &[bool], what: &str) -> Result<(), String> {
    match seen.iter().all(|&one| one) {
        true => Ok(()),
        false => Err(format!(
            "the samples are too few (--samples), and have not all {what}"
        )),
    }
}

/// Counts what was compared, and keeps the first differences to be shown.
struct Tally {
    name: &'static str,
    compared: u64,
    differences: u64,
    shown: String,
}

impl Tally {
    fn new(name: &'static str) -> Self {
        Tally {
            name,
            compared: 0,
            differences: 0,
            shown: String::new(),
        }
    }

    fn same<T: PartialEq + std::fmt::Debug>(
        &mut self,
        request: &Request,
        what: &str,
        ours: T,
        theirs: T,
    ) {
        self.compared += 1;
        if ours != theirs {
            self.differences += 1;
            if self.differences <= SHOWN {
                self.shown += &format!(
                    "  {}: {what}: ours {ours:?}, original's {theirs:?}, at {:02x?}\n",
                    self.name, request.0
                );
            }
        }
    }

    /// Prints the differences and the count; whether there was no difference.
    fn end(self) -> Result<bool, String> {
        all_seen(&[self.compared > 0], self.name)?;
        let line = format!(
            "{}{}: {} compared, {} differences\n",
            self.shown, self.name, self.compared, self.differences
        );
        say(line.as_bytes())?;
        Ok(self.differences == 0)
    }
}

fn u16_at(a: &Answer, i: usize) -> u16 {
    u16::from_le_bytes([a[i], a[i + 1]])
}

fn u32_at(a: &Answer, i: usize) -> u32 {
    u32::from_le_bytes(a[i..i + 4].try_into().unwrap())
}

fn u64_at(a: &Answer, i: usize) -> u64 {
    u64::from_le_bytes(a[i..i + 8].try_into().unwrap())
}

/// The values of a range's digit, 3, 5 or (plain) 0, and its plain bits.
fn kind(q: usize) -> (usize, usize) {
    let levels = TOPS[q] + 1;
    let digit = if levels % 3 == 0 {
        3
    } else if levels % 5 == 0 {
        5
    } else {
        0
    };
    (digit, (levels / digit.max(1)).ilog2() as usize)
}

/// The original's number of a range of weights.
fn weight_range(q: usize) -> usize {
    q % 6 + 2 + q / 6 * 8
}

/// A block whose bits from `offset` on are the number `v`.
fn with_value(offset: usize, v: usize) -> [u8; 16] {
    ((v as u128) << offset).to_le_bytes()
}

/// Every byte at every place of a block, so that every entry of the table by which the original reverses is compared, and seeded fields and
/// blocks.
fn compare_bits(asker: &mut Asker, random: &mut Random, samples: u64) -> Result<bool, String> {
    let mut requests = vec![];
    for start in (0..128).step_by(8) {
        for byte in 0..256 {
            requests.push(Request::new(BITS, &[start, 8], with_value(start, byte)));
        }
    }
    for _ in 0..samples {
        let start = random.below(128);
        let len = random.below(65.min(129 - start));
        requests.push(Request::new(BITS, &[start, len], random.block()));
    }
    let mut tally = Tally::new("bits");
    asker.ask(&requests, |r, a| {
        let field = bitreader::getbits64(r.block(), r.number(0) as isize, r.number(1));
        tally.same(r, "field", u64_at(a, 0), field);
        let word = |i: usize| u64::from_le_bytes(r.block()[i..i + 8].try_into().unwrap());
        tally.same(
            r,
            "low word reversed",
            u64_at(a, 8),
            probe::reversed(word(8), 64),
        );
        tally.same(
            r,
            "high word reversed",
            u64_at(a, 16),
            probe::reversed(word(0), 64),
        );
    })?;
    tally.end()
}

/// Every entry of the two tables. The original's digits are those of a group with no plain bits.
fn compare_tables(asker: &mut Asker) -> Result<bool, String> {
    let requests: Vec<_> = (0..256)
        .map(|i| Request::new(TABLES, &[i], [0; 16]))
        .collect();
    let digits = |a: usize, count: usize, x: usize| -> u16 {
        let values = probe::intseq(&with_value(0, x), 0, a, 0, count, false);
        values.iter().rev().fold(0, |n, v| n * 8 + v.0 as u16)
    };
    let mut tally = Tally::new("tables");
    asker.ask(&requests, |r, a| {
        let i = r.number(0);
        tally.same(r, "trits", u16_at(a, 0), digits(3, 5, i));
        tally.same(r, "quints", u16_at(a, 2), digits(5, 3, i % 128));
    })?;
    tally.end()
}

/// Every range, count and direction at both places where endpoints start, and every single value of every range.
fn compare_sequences(asker: &mut Asker, random: &mut Random, samples: u64) -> Result<bool, String> {
    let mut requests = vec![];
    for (q, top) in TOPS.into_iter().enumerate() {
        for v in 0..=top {
            requests.push(Request::new(SEQUENCE, &[q, 1, 17, 0], with_value(17, v)));
        }
        for n in 1..=64 {
            for (offset, down) in [(17, 0), (29, 0), (0, 1)] {
                if model::cost(q, n) + offset > 128 {
                    continue;
                }
                for _ in 0..(samples / 1000).max(1) {
                    requests.push(Request::new(
                        SEQUENCE,
                        &[q, n, offset, down],
                        random.block(),
                    ));
                }
            }
        }
    }
    let mut tally = Tally::new("sequences");
    asker.ask(&requests, |r, a| {
        let (q, n, down) = (r.number(0), r.number(1), r.number(3) == 1);
        let (digit, bits) = kind(q);
        let offset = if down { 128 } else { r.number(2) };
        let mut values = [0; 72];
        for (place, v) in
            values
                .iter_mut()
                .zip(probe::intseq(r.block(), offset, digit, bits, n, down))
        {
            *place = ((v.0 << bits) + v.1) as u8;
        }
        tally.same(r, "values", &a[..72], &values[..]);
    })?;
    tally.end()
}

/// All 65,536 halves.
fn compare_halves(asker: &mut Asker) -> Result<bool, String> {
    let requests: Vec<_> = (0..4096)
        .map(|k| Request::new(HALVES, &[k * 16 % 256, k / 16], [0; 16]))
        .collect();
    let pattern = |f: f32| if f.is_nan() { u32::MAX } else { f.to_bits() };
    let mut tally = Tally::new("halves");
    asker.ask(&requests, |r, a| {
        for i in 0..16 {
            let h = (r.number(0) + 256 * r.number(1) + i) as u16;
            let f = f16::fp16_ieee_to_fp32_value(h);
            tally.same(r, "value", u32_at(a, 10 * i), pattern(f));
            tally.same(r, "255 times", u32_at(a, 10 * i + 4), pattern(f * 255.0));
            tally.same(r, "void byte", a[10 * i + 8], probe::void_half(h));
            // the blend makes no half with a sign
            let hdr = if h < 0x8000 { probe::hdr_half(h) } else { 0 };
            tally.same(r, "HDR byte", a[10 * i + 9], hdr);
        }
    })?;
    tally.end()
}

/// What the answer holds of a legal block: the original's parameters, and the map by docs/SCOPE.md.
fn expected_params(block: &[u8], bw: usize, bh: usize) -> [u8; 26] {
    let p = probe::params(block, bw, bh);
    let range = p.weight_range % 8 - 2 + p.weight_range / 8 * 6;
    let planes = if p.dual_plane { 2 } else { 1 };
    let values = p.endpoint_value_num;
    let low = if p.part_num == 1 { 17 } else { 29 };
    let base = if p.part_num == 1 {
        0
    } else {
        block[2] as usize / 128 + block[3] as usize % 2 * 2
    };
    let mode_bits = if base == 0 { 0 } else { 3 * p.part_num - 4 };
    let weight_bits = model::cost(range, p.weight_num);
    let number = if p.part_num == 1 {
        0
    } else {
        u32::from_le_bytes(block[..4].try_into().unwrap()) >> 13 & 0x3ff
    };
    let ends = 20 - p.cem_range;
    let extra = mode_bits + 2 * (planes - 1);
    let numbers = [
        0,
        p.width,
        p.height,
        range,
        planes,
        p.part_num,
        values,
        low,
        mode_bits,
        weight_bits,
        p.plane_selector,
        p.cem[0],
        p.cem[1],
        p.cem[2],
        p.cem[3],
        number as usize % 256,
        number as usize / 256,
        ends,
        TOPS[ends],
        low,
        low,
        model::cost(ends, values),
        128 - weight_bits - extra,
        extra,
        128 - weight_bits,
        weight_bits,
    ];
    numbers.map(|n| n as u8)
}

/// The first eleven bits exhaustively at every footprint, and blocks that lean to legal ones.
fn compare_params(asker: &mut Asker, random: &mut Random, samples: u64) -> Result<bool, String> {
    let mut requests = vec![];
    for w in 0..16 {
        for h in 0..16 {
            requests.push(Request::new(PARAMS, &[w, h], random.block()));
        }
    }
    for (bw, bh) in FOOTPRINTS {
        for low in 0..2048 {
            let block = blocks::with_first_bits(low, random);
            requests.push(Request::new(PARAMS, &[bw, bh], block));
        }
        for _ in 0..samples / 4 {
            requests.push(Request::new(
                PARAMS,
                &[bw, bh],
                blocks::likely(random, bw, bh),
            ));
        }
    }
    let mut tally = Tally::new("parameters");
    let mut seen = [false; 17];
    asker.ask(&requests, |r, a| {
        let (bw, bh) = (r.number(0), r.number(1));
        let listed = FOOTPRINTS.contains(&(bw, bh));
        tally.same(r, "listed", a[26], u8::from(listed));
        if !listed {
            return;
        }
        let answer = model::answer(r.block(), bw, bh);
        seen[answer as usize] = true;
        let mut theirs = [0; 26];
        if answer == 0 {
            theirs = expected_params(r.block(), bw, bh);
        }
        theirs[0] = answer;
        tally.same(r, "parameters", &a[..26], &theirs[..]);
    })?;
    for answer in [0, 1, 10, 11, 12, 13, 14, 15, 16] {
        assert!(seen[answer], "no block with answer {answer} was compared");
    }
    tally.end()
}

fn values_of(mode: usize) -> usize {
    2 * (mode / 4 + 1)
}

/// Every value of every range in mode 0, and all modes of one partition and of several, in every range that fits.
fn compare_endpoints(asker: &mut Asker, random: &mut Random, samples: u64) -> Result<bool, String> {
    let mut requests = vec![];
    for (q, top) in TOPS.into_iter().enumerate().skip(4) {
        for v in 0..=top {
            requests.push(Request::new(
                ENDPOINTS,
                &[1, 0, 0, 0, 0, q],
                with_value(17, v),
            ));
        }
    }
    while requests.len() < 1192 + 10 * samples as usize {
        let parts = 1 + random.below(4);
        let modes: Vec<usize> = (0..4)
            .map(|i| if i < parts { random.below(16) } else { 0 })
            .collect();
        let n: usize = modes[..parts].iter().map(|&m| values_of(m)).sum();
        let q = 4 + random.below(17);
        if n > 18 || model::cost(q, n) + 29 > 128 {
            continue;
        }
        requests.push(Request::new(
            ENDPOINTS,
            &[parts, modes[0], modes[1], modes[2], modes[3], q],
            random.block(),
        ));
    }
    let mut tally = Tally::new("endpoints");
    let mut sevens = [false; 16];
    let mut elevens = [false; 32];
    asker.ask(&requests, |r, a| {
        let parts = r.number(0);
        let cem = [1, 2, 3, 4].map(|i| r.number(i));
        let q = r.number(5);
        let n = cem[..parts].iter().map(|&m| values_of(m)).sum();
        let theirs = probe::endpoints(r.block(), parts, cem, 20 - q, n);
        for p in 0..parts {
            let ours: Vec<i32> = (0..8).map(|i| u16_at(a, 18 * p + 2 * i) as i32).collect();
            tally.same(r, "endpoints", &ours[..], &theirs[p][..]);
            let hdr = [2, 3, 7, 11, 14, 15].contains(&cem[p]);
            let hdr_alpha = hdr && cem[p] != 14;
            tally.same(
                r,
                "marks",
                [a[18 * p + 16], a[18 * p + 17]],
                [hdr as u8, hdr_alpha as u8],
            );
        }
        // in the widest range the encoded values are the bytes themselves: which sub-modes were there
        if q == 20 && parts == 1 {
            let block = u128::from_le_bytes(r.block().try_into().unwrap());
            let top = |i: u32| (block >> (17 + 8 * i + 7) & 1) as usize;
            if cem[0] == 7 {
                sevens[top(0) * 2 + (block >> 23 & 1) as usize + 4 * top(1) + 8 * top(2)] = true;
            } else if cem[0] == 11 {
                elevens[top(1) + 2 * top(2) + 4 * top(3) + 8 * top(4) + 16 * top(5)] = true;
            }
        }
    })?;
    all_seen(&sevens, "sub-modes of mode 7")?;
    all_seen(&elevens, "sub-modes and major components of mode 11")?;
    tally.end()
}

/// Every value of every range, and every grid, range and plane count at every footprint.
fn compare_weights(asker: &mut Asker, random: &mut Random, samples: u64) -> Result<bool, String> {
    let mut requests = vec![];
    for (q, top) in TOPS.into_iter().enumerate().take(12) {
        for v in 0..=top {
            let block = with_value(0, v);
            let reversed = u128::from_le_bytes(block).reverse_bits().to_le_bytes();
            requests.push(Request::new(WEIGHTS, &[4, 4, 4, 4, 1, q], reversed));
        }
    }
    let each = (samples / 10_000).max(1);
    for (bw, bh) in FOOTPRINTS {
        for (width, height, planes, q) in grids(bw, bh) {
            for _ in 0..each {
                requests.push(Request::new(
                    WEIGHTS,
                    &[bw, bh, width, height, planes, q],
                    random.block(),
                ));
            }
        }
    }
    let mut tally = Tally::new("weights");
    asker.ask(&requests, |r, a| {
        let [bw, bh, width, height, planes, q] = [0, 1, 2, 3, 4, 5].map(|i| r.number(i));
        let theirs = probe::weights(
            r.block(),
            bw,
            bh,
            width,
            height,
            planes == 2,
            weight_range(q),
        );
        let mut all = [0; 288];
        for i in 0..bw * bh {
            all[i] = theirs[i][0] as u8;
            if planes == 2 {
                all[144 + i] = theirs[i][1] as u8;
            }
        }
        tally.same(r, "weights", &a[..], &all[..]);
    })?;
    tally.end()
}

/// Width, height, planes and range of each set of at most 64 weights, and at most 128 bits, that a footprint can have.
fn grids(bw: usize, bh: usize) -> Vec<(usize, usize, usize, usize)> {
    let mut all = vec![];
    for width in 2..=bw {
        for height in 2..=bh {
            for planes in 1..=2 {
                for q in 0..12 {
                    let n = width * height * planes;
                    if n <= 64 && model::cost(q, n) <= 128 {
                        all.push((width, height, planes, q));
                    }
                }
            }
        }
    }
    all
}

/// Every partition number and count at every footprint.
fn compare_partitions(asker: &mut Asker) -> Result<bool, String> {
    let mut requests = vec![];
    for (bw, bh) in FOOTPRINTS {
        for parts in 2..=4 {
            for number in 0..1024 {
                let block = with_value(13, number);
                requests.push(Request::new(
                    PARTITION,
                    &[number % 256, number / 256, parts, bw, bh],
                    block,
                ));
            }
        }
    }
    let mut tally = Tally::new("partitions");
    asker.ask(&requests, |r, a| {
        let theirs =
            probe::partition(r.block(), r.number(3), r.number(4), r.number(2)).map(|p| p as u8);
        tally.same(r, "partition", &a[..144], &theirs[..]);
    })?;
    tally.end()
}

/// All LDR pairs at all weights, and samples of pairs up to 286 and of HDR pairs.
fn compare_blends(asker: &mut Asker, random: &mut Random, samples: u64) -> Result<bool, String> {
    let pair = |v0: usize, v1: usize| {
        Request::new(BLEND, &[v0 % 256, v0 / 256, v1 % 256, v1 / 256], [0; 16])
    };
    let mut requests = vec![];
    for v0 in 0..256 {
        for v1 in 0..256 {
            requests.push(pair(v0, v1));
        }
    }
    for v in 0..4096 {
        requests.push(pair(v, v));
    }
    for _ in 0..samples {
        requests.push(pair(random.below(287), random.below(287)));
        requests.push(pair(random.below(4096), random.below(4096)));
    }
    let mut tally = Tally::new("blends");
    asker.ask(&requests, |r, a| {
        let v0 = r.number(0) + 256 * r.number(1);
        let v1 = r.number(2) + 256 * r.number(3);
        let top = v0.max(v1);
        let all = |limit: usize, f: fn(i32, i32, i32) -> u8| -> Vec<u8> {
            (0..=64)
                .map(|w| {
                    if top <= limit {
                        f(v0 as i32, v1 as i32, w)
                    } else {
                        0
                    }
                })
                .collect()
        };
        tally.same(r, "LDR", &a[..65], &all(286, probe::blend)[..]);
        tally.same(
            r,
            "LDR in 16 bits",
            &a[65..130],
            &all(255, probe::blend)[..],
        );
        tally.same(r, "HDR", &a[130..195], &all(4095, probe::blend_hdr)[..]);
    })?;
    tally.end()
}

fn compare_colors(asker: &mut Asker, random: &mut Random, samples: u64) -> Result<bool, String> {
    let requests: Vec<_> = (0..samples)
        .map(|_| Request::new(COLOR, &[0; 4].map(|_: usize| random.below(256)), [0; 16]))
        .collect();
    let mut tally = Tally::new("words");
    asker.ask(&requests, |r, a| {
        let [red, green, blue, alpha] = [0, 1, 2, 3].map(|i| r.number(i) as u8);
        tally.same(
            r,
            "word",
            u32_at(a, 0),
            color::color(red, green, blue, alpha),
        );
    })?;
    tally.end()
}

/// All comparisons; whether every one found no difference.
pub fn compare(
    program: &str,
    arguments: &[String],
    seed: u64,
    samples: u64,
) -> Result<bool, String> {
    let heading = format!("the layers against the original, seed {seed}, samples {samples}\n");
    say(heading.as_bytes())?;
    let mut asker = Asker::start(program, arguments)?;
    let mut random = Random::new(seed);
    let results = [
        compare_bits(&mut asker, &mut random, samples)?,
        compare_tables(&mut asker)?,
        compare_sequences(&mut asker, &mut random, samples)?,
        compare_halves(&mut asker)?,
        compare_params(&mut asker, &mut random, samples)?,
        compare_endpoints(&mut asker, &mut random, samples)?,
        compare_weights(&mut asker, &mut random, samples)?,
        compare_partitions(&mut asker)?,
        compare_blends(&mut asker, &mut random, samples)?,
        compare_colors(&mut asker, &mut random, samples)?,
    ];
    Ok(results.iter().all(|&r| r))
}
