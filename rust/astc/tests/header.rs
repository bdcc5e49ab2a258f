//! The answers are those of the C header, number for number.

use astc::Answer;

#[test]
fn the_header_has_the_same_numbers() {
    let header = include_str!("../../../include/astc.h");
    let from = header
        .find("enum astc_answer {")
        .expect("the header has the answers");
    let answers = &header[from..from + header[from..].find("};").unwrap()];
    let numbers: Vec<u32> = answers
        .lines()
        .filter_map(|line| line.split_once(" = "))
        .map(|(_, rest)| {
            let digits: String = rest.chars().take_while(char::is_ascii_digit).collect();
            digits.parse().unwrap()
        })
        .collect();
    let ours: Vec<u32> = Answer::ALL.iter().map(|a| a.number()).collect();
    assert_eq!(numbers, ours);
}
