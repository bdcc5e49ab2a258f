//! Holds the archive of the C surface to outside judges, block by block and image by image, and times it beside them.
//!
//! `differential --help` says what it compares and what it takes. On a terminal it shows how far it is.

#[macro_use]
mod screen;

#[cfg(astcenc)]
mod astcenc;
mod blocks;
mod channels;
#[cfg(astcenc)]
mod floats;
mod images;
mod run;
#[cfg(astcenc)]
mod shim;
mod speed;

use run::Options;
use std::process::ExitCode;

const USAGE: &str = "usage: differential blocks|astcenc|channels [--seed N] [--count N] [--threads N], or differential images [--seed N] \
[--count N], or differential speed [PART ..] [--runs N], or differential --help";

const HELP: &str = "\
Holds the archive of the C surface to the original, to the rules of docs/SCOPE.md and to Arm's astcenc, and times it beside them.

    differential blocks [--seed N] [--count N] [--threads N]
        compares answers, words and maps of blocks with the original and with the rules
    differential astcenc [--seed N] [--count N] [--threads N]
        compares legality, parameters and LDR words of blocks with astcenc, where its library (Debian's libastcenc-dev) was there
        to build with
    differential channels [--seed N] [--count N] [--threads N]
        compares channels of blocks with the original, with the rules on them, and with astcenc's floats
    differential images [--seed N] [--count N]
        compares whole images, images in steps and refused ones with the original and with the rules
    differential speed [PART ..] [--runs N]
        times the archive, the original and astcenc on the same images, and says which of the marks that are set for it are met;
        PART is pictures, hdr, floats, kinds, calls, linear, threads or stack, and without one all are measured
    differential --help
        says this

    --seed N     chooses other blocks; without it N is 1
    --count N    how many blocks are made beside those of all first eleven bits at every footprint, or how many images beside the
                 two largest; without it 1000000 blocks, 500000 for channels, or 2000 images
    --threads N  how many threads compare, at least 1; without it one for each processor
    --runs N     how often each decoder paints an image, at least 1; without it 21 times

A comparison prints what it compared. The status is 0 where nothing differs, 1 at a difference or where standard output cannot be
written, and 2 for words that are not known. On a terminal it shows how far it is, on standard error.";

/// The options of a command over so many blocks, if no other number is asked for, or over images, which has one thread.
fn options(words: &[String], count: u64, images: bool) -> Option<Options> {
    let mut options = Options {
        seed: 1,
        count,
        threads: std::thread::available_parallelism().map_or(1, |n| n.get() as u64),
    };
    for pair in words.chunks(2) {
        let number = pair.get(1)?.parse().ok()?;
        match pair[0].as_str() {
            "--seed" => options.seed = number,
            "--count" => options.count = number,
            "--threads" if number > 0 && !images => options.threads = number,
            _ => return None,
        }
    }
    Some(options)
}

#[cfg(astcenc)]
use astcenc::compare as compare_with_astcenc;

/// Says that there is nothing to compare with.
#[cfg(not(astcenc))]
fn compare_with_astcenc(_: &Options) -> bool {
    say!("not compared with astcenc: its library (Debian's libastcenc-dev) or a C++ compiler was not there to build with");
    true
}

/// Does what the words ask for; whether there was no difference, or nothing if they ask for nothing known.
fn obey(words: &[String]) -> Option<bool> {
    let (command, rest) = words.split_first()?;
    if words.iter().any(|word| word == "--help" || word == "-h") {
        say!("{HELP}");
        return Some(true);
    }
    Some(match command.as_str() {
        "blocks" => blocks::compare(&options(rest, 1_000_000, false)?),
        "astcenc" => compare_with_astcenc(&options(rest, 1_000_000, false)?),
        "channels" => channels::compare(&options(rest, 500_000, false)?),
        "images" => images::compare(&options(rest, 2_000, true)?),
        "speed" => speed::measure(rest)?,
        _ => return None,
    })
}

fn main() -> ExitCode {
    let words: Vec<String> = std::env::args_os()
        .skip(1)
        .map(|word| word.to_string_lossy().into_owned())
        .collect();
    let outcome = obey(&words);
    screen::clear();
    match outcome {
        Some(true) => ExitCode::SUCCESS,
        Some(false) => ExitCode::from(1),
        None => {
            eprintln!("differential: {USAGE}");
            ExitCode::from(2)
        }
    }
}
