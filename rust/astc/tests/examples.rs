//! The examples, which `cargo test` builds beside the tests, as a user runs them.

use std::path::{Path, PathBuf};
use std::process::{self, Command, Output};
use std::{env, fs};

/// Runs an example; what it said, and how it ended.
fn run(name: &str, words: &[&Path]) -> Output {
    let test = env::current_exe().unwrap();
    let built = test.parent().and_then(Path::parent).unwrap();
    let example = built.join("examples").join(name);
    Command::new(&example)
        .args(words)
        .output()
        .unwrap_or_else(|error| panic!("{} was not run: {error}", example.display()))
}

/// A stored picture.
fn picture(name: &str) -> PathBuf {
    let here = Path::new(env!("CARGO_MANIFEST_DIR"));
    here.join("../../pictures").join(name)
}

#[test]
fn a_file_is_decoded() {
    let said = run("decode_file", &[&picture("4x4.astc")]);
    assert!(said.status.success() && said.stderr.is_empty());
    assert_eq!(said.stdout, b"the first pixel is ff0000c8\n");
}

/// Runs the decoder of files, which must refuse; its reason.
fn refusal(words: &[&Path]) -> String {
    let said = run("decode_file", words);
    assert_eq!(said.status.code(), Some(1));
    assert!(said.stdout.is_empty());
    String::from_utf8(said.stderr).unwrap()
}

#[test]
fn a_file_that_cannot_be_decoded_is_an_error() {
    assert_eq!(refusal(&[]), "decode_file: usage: decode_file IN.astc\n");
    assert!(refusal(&[&picture("none.astc")]).contains("No such file"));
    let no_picture = Path::new(env!("CARGO_MANIFEST_DIR")).join("Cargo.toml");
    assert_eq!(
        refusal(&[&no_picture]),
        "decode_file: it is no .astc file\n"
    );
}

#[test]
fn a_file_that_was_cut_is_an_error() {
    let file = fs::read(picture("4x4.astc")).unwrap();
    let cut = Path::new(env!("CARGO_TARGET_TMPDIR")).join(format!("{}-cut.astc", process::id()));
    for (length, reason) in [
        (15, "the file has no header"),
        (
            file.len() - 1,
            "the data is not exactly 16 bytes a block (answer 31)",
        ),
    ] {
        fs::write(&cut, &file[..length]).unwrap();
        assert_eq!(refusal(&[&cut]), format!("decode_file: {reason}\n"));
    }
    fs::remove_file(&cut).unwrap();
}

#[test]
fn an_image_in_steps_has_one_bad_block() {
    let said = run("steps", &[]);
    assert!(said.status.success() && said.stderr.is_empty());
    let lines = [
        "2 of 5 blocks, 0 bad",
        "4 of 5 blocks, 1 bad",
        "5 of 5 blocks, 1 bad",
        "1 bad block: pixels 15 and 16 are [ffff0000, ffff00ff]",
    ];
    assert_eq!(said.stdout, (lines.join("\n") + "\n").as_bytes());
}
