//! A coverage-guided fuzz target over the C surface: the bytes of an input choose a function, its sizes and its blocks, and the archive
//! is held to the original and to the rules of docs/SCOPE.md. A difference ends the program, and libFuzzer keeps the input.
//!
//! `fuzz seeds FOLDER` writes inputs to start from. All other words are libFuzzer's: its options, and folders of inputs, or files to
//! be tried alone. `tools/fuzz` builds the program, with the archive and itself instrumented, and runs it. Built without libFuzzer, it
//! tries files alone.

mod fence;
mod input;
#[cfg(libfuzzer)]
mod libfuzzer;
mod seeds;
mod trial;

use std::env;
use std::path::Path;
use std::process::ExitCode;

#[cfg(libfuzzer)]
use libfuzzer::run;

/// Tries the files that the words name; the status to end with.
#[cfg(not(libfuzzer))]
fn run() -> u8 {
    for name in env::args_os().skip(1) {
        match std::fs::read(&name) {
            Ok(input) => trial::judge(&input),
            Err(error) => {
                eprintln!("fuzz: {name:?} was not read: {error}");
                return 2;
            }
        }
    }
    0
}

fn main() -> ExitCode {
    let words: Vec<String> = env::args().skip(1).collect();
    let words: Vec<&str> = words.iter().map(String::as_str).collect();
    match words[..] {
        ["seeds", folder] => match seeds::write(Path::new(folder)) {
            Ok(()) => ExitCode::SUCCESS,
            Err(error) => {
                eprintln!("fuzz: no seeds were written to {folder}: {error}");
                ExitCode::FAILURE
            }
        },
        _ => ExitCode::from(run()),
    }
}
