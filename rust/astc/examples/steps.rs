//! Decodes an image in steps of two blocks, and counts the blocks that break a rule and are magenta.

use astc::{Answer, Cursor, Footprint};
use std::error::Error;
use std::process::ExitCode;

/// Red void-extent blocks, but for the third, whose mode is reserved.
fn image() -> Vec<u8> {
    let red = [
        0xfc, 0xfd, 0xff, 0xff, 0xff, 0xff, 0xff, 0xff, 0xff, 0xff, 0, 0, 0, 0, 0xff, 0xff,
    ];
    [red, red, [0; 16], red, red].concat()
}

/// Paints all blocks of an image; how many of them are bad.
fn paint(data: &[u8], mut cursor: Cursor, words: &mut [u32]) -> Result<usize, Answer> {
    let total = cursor.footprint.blocks(cursor.width, cursor.height);
    let mut bad = 0;
    while cursor.next < total {
        let step = cursor.step(data, 2, words)?;
        bad += step.bad;
        cursor = step.cursor;
        println!("{} of {total} blocks, {bad} bad", cursor.next);
    }
    Ok(bad)
}

fn run() -> Result<(), Box<dyn Error>> {
    let footprint: Footprint = "8x8".parse()?;
    let cursor = Cursor::new(40, 8, footprint);
    let mut words = vec![0; cursor.width * cursor.height];
    let bad = paint(&image(), cursor, &mut words)?;
    println!(
        "{bad} bad block: pixels 15 and 16 are {:08x?}",
        &words[15..17]
    );
    Ok(())
}

fn main() -> ExitCode {
    match run() {
        Ok(()) => ExitCode::SUCCESS,
        Err(reason) => {
            eprintln!("steps: {reason}");
            ExitCode::FAILURE
        }
    }
}
