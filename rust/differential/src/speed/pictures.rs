//! The drawn picture, as astcenc encodes it at each footprint.

use super::drawing;
use super::race::Race;
use super::rival::{self, Profile, Rival};
use super::verdict::{least, mean, Mark};
use super::words::{Canvas, Rates, Words};
use crate::screen::progress;
use model::{answer, Layout, Shape, FOOTPRINTS, HDR_MODES};
use std::sync::OnceLock;

/// What the blocks of a picture are.
#[derive(Default)]
struct Mix {
    all: usize,
    void: usize,
    dual: usize,
    /// With an HDR mode in some partition.
    hdr: usize,
    /// Of one partition, of two, three and four.
    parts: [usize; 4],
}

impl Mix {
    fn add(&mut self, data: &[u8], shape: Shape) {
        for block in data.chunks_exact(16) {
            self.all += 1;
            if answer(block, shape.bw, shape.bh) == 1 {
                self.void += 1;
                continue;
            }
            let layout = Layout::of(block);
            self.parts[layout.parts - 1] += 1;
            self.dual += usize::from(layout.mode.dual);
            let modes = layout.modes(block);
            self.hdr += usize::from(modes.iter().any(|mode| HDR_MODES.contains(mode)));
        }
    }

    fn print(&self) {
        let share = |n: usize| 100.0 * n as f64 / self.all as f64;
        let [one, two, three, four] = self.parts.map(share);
        say!(
            "blocks of one partition {one:.1} %, two {two:.1} %, three {three:.1} %, four {four:.1} %, void {:.1} %; of two planes \
             {:.1} %, HDR {:.1} %",
            share(self.void),
            share(self.dual),
            share(self.hdr)
        );
    }
}

fn print_rates(name: &str, rates: Rates) {
    say!(
        "{name:<7}{:>7.1} {:>9.1} {:>8.1} {:>14.2} {:>13.2}",
        rates.ours,
        rates.original,
        rates.astcenc.unwrap_or(f64::NAN),
        rates.over_original(),
        rates.over_astcenc().unwrap_or(f64::NAN)
    );
}

fn print_ratios(name: &str, original: f64, astcenc: f64) {
    say!("{name:<32} {original:>14.2} {astcenc:>13.2}");
}

/// The ratios to the original, and to astcenc.
fn ratios(all: &[Rates]) -> (Vec<f64>, Vec<f64>) {
    all.iter()
        .filter_map(|rates| Some((rates.over_original(), rates.over_astcenc()?)))
        .unzip()
}

/// A drawing, and how it is encoded.
pub struct Picture {
    pub name: &'static str,
    pub profile: Profile,
    pub width: usize,
    pub height: usize,
    /// Its data at each footprint, once it was asked for.
    data: OnceLock<Vec<Vec<u8>>>,
}

pub static LDR: Picture = Picture {
    name: "the picture",
    profile: Profile::Ldr,
    width: 576,
    height: 384,
    data: OnceLock::new(),
};

/// Smaller, since astcenc takes long for it.
pub static HDR: Picture = Picture {
    name: "the HDR picture",
    profile: Profile::Hdr,
    width: 480,
    height: 320,
    data: OnceLock::new(),
};

impl Picture {
    fn shape(&self, (bw, bh): (usize, usize)) -> Shape {
        Shape {
            width: self.width,
            height: self.height,
            bw,
            bh,
        }
    }

    /// The data at each footprint.
    fn data(&self) -> &[Vec<u8>] {
        self.data.get_or_init(|| {
            let drawn = drawing::drawn(self.width, self.height);
            let encode = |(bw, bh)| {
                progress(|| format!("{} is encoded at {bw}x{bh}", self.name));
                rival::encoded(&drawn, self.profile, self.shape((bw, bh)))
            };
            FOOTPRINTS.map(encode).into()
        })
    }

    /// What the blocks are, at all footprints.
    fn mix(&self) -> Mix {
        let mut mix = Mix::default();
        for (data, &footprint) in self.data().iter().zip(&FOOTPRINTS) {
            mix.add(data, self.shape(footprint));
        }
        mix
    }

    /// The races at all footprints after so many runs, where each race takes a turn with astcenc's state for its footprint. A run goes
    /// through all footprints, so that a time when the machine is busy falls on all.
    pub fn races(
        &self,
        runs: usize,
        mut turn: impl FnMut(&mut Race, Option<&mut Rival>) -> Result<(), String>,
    ) -> Result<Vec<Race>, String> {
        let data = self.data().iter().zip(FOOTPRINTS);
        let race =
            |(data, footprint): (&Vec<u8>, _)| Race::new(data.clone(), self.shape(footprint));
        let mut races: Vec<_> = data.map(race).collect();
        let mut rivals = FOOTPRINTS.map(|f| Rival::new(f, self.profile));
        for run in 1..=runs {
            for ((race, rival), (bw, bh)) in races.iter_mut().zip(&mut rivals).zip(FOOTPRINTS) {
                progress(|| format!("{} at {bw}x{bh}, run {run} of {runs}", self.name));
                turn(race, rival.as_mut())
                    .map_err(|difference| format!("{} at {bw}x{bh}: {difference}", self.name))?;
            }
        }
        Ok(races)
    }

    /// The rates at all footprints.
    fn rates(&self, runs: usize) -> Result<Vec<Rates>, String> {
        let canvas = &mut Canvas::new(self.width * self.height);
        let races = self.races(runs, |race, rival| race.turn(&mut Words { canvas, rival }))?;
        Ok(races.iter().map(Rates::of).collect())
    }

    fn print(&self, all: &[Rates], runs: usize) {
        say!(
            "\n{}, {}x{}, encoded by astcenc at medium quality; millions of texels a second, one thread, best of {runs} runs",
            self.name, self.width, self.height
        );
        say!("block     ours  original  astcenc  ours/original  ours/astcenc");
        for ((bw, bh), &rates) in FOOTPRINTS.iter().zip(all) {
            print_rates(&format!("{bw}x{bh}"), rates);
        }
        let (original, astcenc) = ratios(all);
        print_ratios("geometric mean", mean(&original), mean(&astcenc));
        print_ratios("least", least(&original), least(&astcenc));
    }

    fn marks(&self, all: &[Rates]) -> Vec<Mark> {
        let mark =
            |what, ratio, wanted| Mark::at_least(format!("{}, {what}", self.name), ratio, wanted);
        let (original, astcenc) = ratios(all);
        let of_all = mark("ours/original, geometric mean", mean(&original), 4.0);
        let of_each = |wanted| mark("ours/original, least", least(&original), wanted);
        let ahead = mark("ours/astcenc, least", least(&astcenc), 1.0);
        match self.profile {
            Profile::Ldr => vec![of_all, of_each(3.0), ahead],
            Profile::Hdr => vec![of_each(2.5), ahead],
        }
    }

    /// Whether astcenc was there to encode it; says so if it was not.
    pub fn is_there(&self) -> bool {
        if !rival::THERE {
            say!(
                "\n{} is left out: astcenc, which encodes it, was not there to build with",
                self.name
            );
        }
        rival::THERE
    }

    /// Times the picture at all footprints; the marks that are set for it.
    pub fn measure(&self, runs: usize) -> Result<Vec<Mark>, String> {
        if !self.is_there() {
            return Ok(Vec::new());
        }
        let all = self.rates(runs)?;
        self.print(&all, runs);
        self.mix().print();
        Ok(self.marks(&all))
    }
}

#[cfg(all(test, astcenc))]
mod tests {
    use super::*;

    /// What the blocks of a picture are at 8x8.
    fn mix(picture: &Picture) -> Mix {
        let drawn = drawing::drawn(picture.width, picture.height);
        let shape = picture.shape((8, 8));
        let mut mix = Mix::default();
        mix.add(&rival::encoded(&drawn, picture.profile, shape), shape);
        mix
    }

    #[test]
    fn the_picture_has_blocks_of_many_kinds() {
        let Mix {
            all,
            void,
            dual,
            hdr,
            parts,
        } = mix(&LDR);
        let share = |n: usize| 100 * n / all;
        assert!(share(parts[0]) >= 30 && share(parts[1]) >= 5);
        assert!(parts[2] > 0 && dual > 0 && void > 0);
        assert_eq!(hdr, 0);
    }

    #[test]
    fn the_hdr_picture_has_hdr_blocks() {
        let mix = mix(&HDR);
        assert!(100 * mix.hdr >= 95 * mix.all);
        assert!(mix.parts[1] > 0 && mix.dual > 0);
    }
}
