//! Seeded blocks of each kind, at each footprint.

use super::kinds::{Kind, Source};
use super::race::Race;
use super::rival::{Profile, Rival, THERE};
use super::verdict::{least, mean, Mark};
use super::words::{Canvas, Rates, Words};
use crate::screen::progress;
use model::blocks::Legal;
use model::{Shape, FOOTPRINTS};

const SIDE: usize = 256;

/// What the names of the kinds mean.
const LEGEND: [&str; 7] = [
    "one to four  LDR, so many partitions, one plane",
    "dual         LDR, two planes",
    "hdr          HDR in all partitions",
    "void, hvoid  void, of 16-bit numbers and of halves",
    "l0 to l3     one partition and plane, LDR endpoint modes of class 0 to 3 (mode / 4)",
    "h0 to h3     the same, HDR endpoint modes",
    "mixed        of eight five as in one, two spread over all legal configurations, one void",
];

/// The rates of each kind, in the order of `Kind::ALL`.
type Row = Vec<Rates>;

/// A footprint with the races of all kinds.
struct At {
    shape: Shape,
    races: Vec<Race>,
    ldr: Option<Rival>,
    hdr: Option<Rival>,
}

impl At {
    fn new((bw, bh): (usize, usize)) -> Self {
        progress(|| format!("blocks are made at {bw}x{bh}"));
        let shape = Shape {
            width: SIDE,
            height: SIDE,
            bw,
            bh,
        };
        let legal = Legal::at(bw, bh);
        let data = |&kind| Source::new(kind, &legal).data(shape.blocks());
        At {
            shape,
            races: Kind::ALL
                .iter()
                .map(|kind| Race::new(data(kind), shape))
                .collect(),
            ldr: Rival::new((bw, bh), Profile::Ldr),
            hdr: Rival::new((bw, bh), Profile::Hdr),
        }
    }

    /// Each decoder paints the image of each kind once.
    fn turn(&mut self, canvas: &mut Canvas) -> Result<(), String> {
        for (race, kind) in self.races.iter_mut().zip(Kind::ALL) {
            let rival = match kind.profile() {
                Profile::Ldr => self.ldr.as_mut(),
                Profile::Hdr => self.hdr.as_mut(),
            };
            let (bw, bh) = (self.shape.bw, self.shape.bh);
            race.turn(&mut Words { canvas, rival })
                .map_err(|difference| {
                    format!("{} blocks at {bw}x{bh}: {difference}", kind.name())
                })?;
        }
        Ok(())
    }
}

/// The rates of all kinds at all footprints. Each run goes through all of them: a time when the machine is busy falls on all.
fn rates(runs: usize) -> Result<Vec<Row>, String> {
    let mut all = FOOTPRINTS.map(At::new);
    let mut canvas = Canvas::new(SIDE * SIDE);
    for run in 1..=runs {
        for at in &mut all {
            progress(|| format!("{}x{}, run {run} of {runs}", at.shape.bw, at.shape.bh));
            at.turn(&mut canvas)?;
        }
    }
    let row = |at: &At| at.races.iter().map(Rates::of).collect();
    Ok(all.iter().map(row).collect())
}

/// A number of each race, with its name.
struct Table {
    title: &'static str,
    /// Ratios have two decimals, and their geometric mean and least of each kind stand below them.
    ratio: bool,
    number: fn(Rates) -> Option<f64>,
}

const TABLES: [Table; 5] = [
    Table {
        title: "ours, millions of texels a second",
        ratio: false,
        number: |rates| Some(rates.ours),
    },
    Table {
        title: "the original, millions of texels a second",
        ratio: false,
        number: |rates| Some(rates.original),
    },
    Table {
        title: "astcenc, millions of texels a second",
        ratio: false,
        number: |rates| rates.astcenc,
    },
    Table {
        title: "ours/original",
        ratio: true,
        number: |rates| Some(rates.over_original()),
    },
    Table {
        title: "ours/astcenc",
        ratio: true,
        number: |rates| rates.over_astcenc(),
    },
];

impl Table {
    /// Prints the numbers of each kind at each footprint, if there are any.
    fn print(&self, rows: &[Row]) {
        let numbers = |row: &Row| row.iter().map(|&rates| (self.number)(rates)).collect();
        let Some(lines) = rows.iter().map(numbers).collect::<Option<Vec<Vec<f64>>>>() else {
            return;
        };
        say!("\nseeded blocks: {}", self.title);
        self.print_line("block", Kind::ALL.map(|kind| kind.name().to_string()));
        for (line, (bw, bh)) in lines.iter().zip(FOOTPRINTS) {
            self.print_numbers(&format!("{bw}x{bh}"), line.iter().copied());
        }
        if self.ratio {
            let column = |i: usize| lines.iter().map(|line| line[i]).collect::<Vec<_>>();
            let columns: Vec<_> = (0..Kind::ALL.len()).map(column).collect();
            self.print_numbers("mean", columns.iter().map(|column| mean(column)));
            self.print_numbers("least", columns.iter().map(|column| least(column)));
        }
    }

    fn print_numbers(&self, name: &str, numbers: impl IntoIterator<Item = f64>) {
        let decimals = if self.ratio { 2 } else { 1 };
        let cells = numbers.into_iter().map(|n| format!("{n:.decimals$}"));
        self.print_line(name, cells);
    }

    fn print_line(&self, name: &str, cells: impl IntoIterator<Item = String>) {
        let cells: String = cells.into_iter().map(|cell| format!("{cell:>7}")).collect();
        say!("{name:<6}{cells}");
    }
}

/// The least ratio of each kind to the original, and of all kinds to astcenc.
fn marks(rows: &[Row]) -> Vec<Mark> {
    let mark = |what: &str, ratios: &[f64]| {
        Mark::at_least(format!("seeded blocks, {what}, least"), least(ratios), 1.0)
    };
    let mut marks = Vec::new();
    for (i, kind) in Kind::ALL.iter().enumerate() {
        let ratios: Vec<_> = rows.iter().map(|row| row[i].over_original()).collect();
        marks.push(mark(&format!("{}, ours/original", kind.name()), &ratios));
    }
    if THERE {
        let all = rows.iter().flatten();
        let ratios: Vec<_> = all.filter_map(|rates| rates.over_astcenc()).collect();
        marks.push(mark("ours/astcenc", &ratios));
    }
    marks
}

/// Times all kinds at all footprints; the marks that are set for them.
pub fn measure(runs: usize) -> Result<Vec<Mark>, String> {
    let rows = rates(runs)?;
    say!(
        "\nseeded legal blocks of each kind, in images of {SIDE}x{SIDE}; one thread, best of {runs} runs"
    );
    for line in LEGEND {
        say!("  {line}");
    }
    for table in TABLES {
        table.print(&rows);
    }
    Ok(marks(&rows))
}
