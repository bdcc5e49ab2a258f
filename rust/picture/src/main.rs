//! Makes a picture of an .astc file. `picture --help` says how.

use astc::{block_map, image_channels, Answer, Channel, Cursor};
use picture::container::{self, Container};
use picture::{pfm, png};
use std::ffi::OsString;
use std::io::{self, IsTerminal, Write};
use std::path::Path;
use std::process::ExitCode;
use std::{env, fs};

const USAGE: &str =
    "usage: picture IN.astc OUT.png, or OUT.pam, or OUT.pfm for floats, or picture --help";

const HELP: &str = "\
Makes a picture of an .astc file, as astcenc writes it.

    picture IN.astc OUT.png    a PNG file, with alpha where a pixel is not opaque
    picture IN.astc OUT.pam    a PAM file
    picture IN.astc OUT.pfm    a PFM file of floats, which keeps what lies above 1.0 and leaves alpha out
    picture --help             says this

It says how many blocks break a rule and are magenta, and of a PFM file how many pixels lie above 1.0 in red, green or blue. On a
terminal it shows how far it is with a larger image, on standard error.

The status is 0 for a picture, 1 for a file that cannot be read, is no 2D .astc file or cannot be written, and 2 for other words on
the command line.
";

/// The blocks of a step: often enough for a person to see it move.
const BLOCKS: usize = 1 << 14;

/// Shows a person how far a larger image has come.
struct Progress {
    total: usize,
    shown: bool,
}

impl Progress {
    fn new(total: usize) -> Progress {
        let shown = total > BLOCKS && io::stderr().is_terminal();
        Progress { total, shown }
    }

    fn show(&self, done: usize) {
        if self.shown {
            let end = if done == self.total { "\n" } else { "" };
            eprint!("\r{done} of {} blocks{end}", self.total);
        }
    }
}

/// Decodes to words, in steps; the words, and how many blocks broke a rule.
fn words(container: &Container) -> Result<(Vec<u32>, usize), Answer> {
    let (width, height) = (container.width, container.height);
    let mut words = vec![0; width * height];
    let mut cursor = Cursor::new(width, height, container.footprint);
    let progress = Progress::new(container.blocks.len() / 16);
    let mut bad = 0;
    while cursor.next < progress.total {
        let step = cursor.step(container.blocks, BLOCKS, &mut words)?;
        bad += step.bad;
        cursor = step.cursor;
        progress.show(cursor.next);
    }
    Ok((words, bad))
}

/// Decodes to floats, in bands of whole rows of blocks, each an image of its own; the pixels, and how many blocks broke a rule.
fn floats(container: &Container) -> Result<(Vec<[f32; 3]>, usize), Answer> {
    let (width, height, footprint) = (container.width, container.height, container.footprint);
    let across = width.div_ceil(footprint.width());
    let rows = BLOCKS.div_ceil(across);
    let mut band = vec![[Channel::Byte(0); 4]; width * height.min(rows * footprint.height())];
    let mut pixels = Vec::with_capacity(width * height);
    let progress = Progress::new(container.blocks.len() / 16);
    let (mut done, mut bad) = (0, 0);
    for blocks in container.blocks.chunks(16 * across * rows) {
        let left = height - pixels.len() / width;
        let high = left.min(rows * footprint.height());
        image_channels(blocks, width, high, footprint, &mut band)?;
        pixels.extend(band[..width * high].iter().copied().map(pfm::colour));
        let maps = blocks.chunks(16).map(|block| block_map(block, footprint));
        bad += maps.filter(|map| map.is_err_and(Answer::is_bad)).count();
        done += blocks.len() / 16;
        progress.show(done);
    }
    Ok((pixels, bad))
}

/// What a picture is written as.
#[derive(Clone, Copy)]
enum Kind {
    Png,
    Pam,
    Pfm,
}

impl Kind {
    /// As the name of the file says.
    fn of(output: &Path) -> Option<Kind> {
        match output.extension()?.to_str()? {
            "png" => Some(Kind::Png),
            "pam" => Some(Kind::Pam),
            "pfm" => Some(Kind::Pfm),
            _ => None,
        }
    }
}

/// A picture that was made.
struct Made {
    file: Vec<u8>,
    /// How many blocks broke a rule.
    bad: usize,
    /// Where it has floats, how many pixels lie above 1.0.
    above: Option<usize>,
}

fn make(container: &Container, kind: Kind) -> Result<Made, Answer> {
    let (width, height) = (container.width, container.height);
    let of_words = |write: fn(&[u32], usize, usize) -> Vec<u8>| {
        let (words, bad) = words(container)?;
        Ok(Made {
            file: write(&words, width, height),
            bad,
            above: None,
        })
    };
    match kind {
        Kind::Png => of_words(png::png),
        Kind::Pam => of_words(png::pam),
        Kind::Pfm => {
            let (pixels, bad) = floats(container)?;
            let above = pixels.iter().filter(|p| pfm::is_above_one(p)).count();
            Ok(Made {
                file: pfm::pfm(&pixels, width, height),
                bad,
                above: Some(above),
            })
        }
    }
}

/// Writes to standard output.
fn say(words: &str) -> Result<(), String> {
    let mut out = io::stdout();
    out.write_all(words.as_bytes())
        .and_then(|()| out.flush())
        .map_err(|error| format!("standard output was not written: {error}"))
}

fn run(input: &Path, output: &Path, kind: Kind) -> Result<(), String> {
    let (from, to) = (input.display(), output.display());
    let file = fs::read(input).map_err(|error| format!("{from} was not read: {error}"))?;
    let container = container::read(&file).map_err(|fault| format!("{from}: {fault}"))?;
    let made = make(&container, kind).map_err(|refusal| format!("{from}: {refusal}"))?;
    fs::write(output, made.file).map_err(|error| format!("{to} was not written: {error}"))?;
    let (width, height) = (container.width, container.height);
    let (footprint, total) = (container.footprint, container.blocks.len() / 16);
    let mut said = format!(
        "{width}x{height} pixels, {total} blocks of {footprint}, {} of them magenta\n",
        made.bad
    );
    if let Some(above) = made.above {
        said += &format!("{above} pixels above 1.0\n");
    }
    say(&said)
}

/// Does what the words ask for, or nothing if they ask for nothing known.
fn obey(words: &[OsString]) -> Option<Result<(), String>> {
    match words {
        [word] if word == "--help" || word == "-h" => Some(say(HELP)),
        [input, output] => {
            let kind = Kind::of(Path::new(output))?;
            Some(run(Path::new(input), Path::new(output), kind))
        }
        _ => None,
    }
}

fn main() -> ExitCode {
    let words: Vec<OsString> = env::args_os().skip(1).collect();
    match obey(&words) {
        Some(Ok(())) => ExitCode::SUCCESS,
        Some(Err(reason)) => {
            eprintln!("picture: {reason}");
            ExitCode::from(1)
        }
        None => {
            eprintln!("{USAGE}");
            ExitCode::from(2)
        }
    }
}
