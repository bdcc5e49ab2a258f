//! What the program makes of the words on its command line.

use std::process::{Command, Output};

fn run(words: &[&str]) -> Output {
    Command::new(env!("CARGO_BIN_EXE_oracle"))
        .args(words)
        .output()
        .unwrap()
}

#[test]
fn help_goes_to_standard_output() {
    for word in ["--help", "-h"] {
        let said = run(&[word]);
        assert_eq!(said.status.code(), Some(0));
        assert!(said.stdout.starts_with(b"Holds the proved layers"));
        assert!(said.stderr.is_empty());
    }
}

#[test]
fn other_words_are_refused() {
    for words in [
        &[][..],
        &["leaf"],
        &["leaves"],
        &["leaves", "--seed"],
        &["leaves", "--seed", "one", "program"],
        &["leaves", "--samples", "-1", "program"],
        &["record", "more"],
    ] {
        let said = run(words);
        assert_eq!(said.status.code(), Some(2), "{words:?}");
        assert!(said.stdout.is_empty());
        let told = String::from_utf8(said.stderr).unwrap();
        assert!(told.contains("usage: oracle leaves"), "{told}");
    }
}

#[test]
fn a_program_that_is_not_there_is_an_error() {
    let said = run(&["leaves", "/no/such/program"]);
    assert_eq!(said.status.code(), Some(2));
    assert!(said.stderr.starts_with(b"oracle: "));
}
