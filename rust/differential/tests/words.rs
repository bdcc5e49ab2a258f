//! What the program makes of the words on its command line.

use std::process::{Command, Output};

fn run(words: &[&str]) -> Output {
    Command::new(env!("CARGO_BIN_EXE_differential"))
        .args(words)
        .output()
        .unwrap()
}

#[test]
fn help_goes_to_standard_output() {
    for words in [&["--help"][..], &["-h"], &["speed", "--help"]] {
        let said = run(words);
        assert_eq!(said.status.code(), Some(0));
        assert!(said.stdout.starts_with(b"Holds the archive"));
        assert!(said.stderr.is_empty());
    }
}

#[test]
fn other_words_are_refused() {
    for words in [
        &[][..],
        &["block"],
        &["blocks", "--seed"],
        &["blocks", "--seed", "one"],
        &["blocks", "--threads", "0"],
        &["blocks", "more"],
        &["images", "--threads", "2"],
        &["speed", "everything"],
        &["speed", "--runs", "0"],
    ] {
        let said = run(words);
        assert_eq!(said.status.code(), Some(2), "{words:?}");
        assert!(said.stdout.is_empty());
        assert!(said.stderr.starts_with(b"differential: usage: "));
    }
}

#[test]
fn no_line_tells_how_far_it_is_where_there_is_no_terminal() {
    let said = run(&["blocks", "--count", "1000"]);
    assert_eq!(said.status.code(), Some(0));
    assert!(said.stderr.is_empty());
    let told = String::from_utf8(said.stdout).unwrap();
    assert!(told.contains("\n29672 blocks, 0 differences, "), "{told}");
    assert!(!told.contains('\r'));
}
