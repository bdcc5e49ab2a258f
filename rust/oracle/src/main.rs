//! Holds the proved layers to the original, and records the original's answers. `oracle --help` says how.

mod asker;
mod leaves;
mod record;

use std::io::Write;
use std::process::ExitCode;

const USAGE: &str =
    "usage: oracle leaves [--seed N] [--samples N] PROGRAM [ARGUMENT ..], or oracle record, or oracle --help";

const HELP: &str = "\
Holds the proved layers below the block to the original, and records the original's answers.

    oracle leaves [--seed N] [--samples N] PROGRAM [ARGUMENT ..]
        starts the proved program program_leaves by these words, asks it for the values of every layer, and compares them with the
        original's own functions: over the whole domain where that is small, over seeded samples where it is not
    oracle record
        writes the fixed list of the original's answers to standard output, and a summary to standard error
    oracle --help
        says this

    --seed N     chooses other samples; without it N is 1
    --samples N  how many samples each comparison takes; without it 200000

A comparison prints how many values it compared. The status is 0 where nothing differs, 1 at a difference, and 2 for words that are
not known, a program that does not answer, or output that cannot be written.
";

/// The number after an option, if that is the next word.
fn option(words: &mut Vec<String>, name: &str, default: u64) -> Result<u64, String> {
    if words.first().map(String::as_str) != Some(name) {
        return Ok(default);
    }
    let number = words
        .get(1)
        .ok_or(USAGE)?
        .parse()
        .map_err(|_| format!("{name} takes a number; {USAGE}"))?;
    words.drain(..2);
    Ok(number)
}

fn leaves(mut words: Vec<String>) -> Result<bool, String> {
    let seed = option(&mut words, "--seed", 1)?;
    let samples = option(&mut words, "--samples", 200_000)?;
    let (program, arguments) = words.split_first().ok_or(USAGE)?;
    leaves::compare(program, arguments, seed, samples)
}

fn record(words: Vec<String>) -> Result<bool, String> {
    if !words.is_empty() {
        return Err(USAGE.into());
    }
    let (list, summary) = record::record();
    say(&list)?;
    eprint!("{summary}");
    Ok(true)
}

/// Writes to standard output.
fn say(bytes: &[u8]) -> Result<(), String> {
    let mut out = std::io::stdout();
    out.write_all(bytes)
        .and_then(|()| out.flush())
        .map_err(|error| format!("standard output was not written: {error}"))
}

fn run() -> Result<bool, String> {
    let mut words: Vec<String> = std::env::args_os()
        .skip(1)
        .map(|word| word.to_string_lossy().into_owned())
        .collect();
    if words.is_empty() {
        return Err(USAGE.into());
    }
    match words.remove(0).as_str() {
        "leaves" => leaves(words),
        "record" => record(words),
        "--help" | "-h" => say(HELP.as_bytes()).map(|()| true),
        _ => Err(USAGE.into()),
    }
}

fn main() -> ExitCode {
    match run() {
        Ok(true) => ExitCode::SUCCESS,
        Ok(false) => ExitCode::from(1),
        Err(message) => {
            eprintln!("oracle: {message}");
            ExitCode::from(2)
        }
    }
}
