//! Decodes an .astc file, a header of sixteen bytes and the blocks, and prints its first pixel: `decode_file IN.astc`.

use astc::{decode_image, Footprint};
use std::error::Error;
use std::io::Write;
use std::process::ExitCode;
use std::{env, fs, io};

/// A number of three bytes, the low one first.
fn three(bytes: &[u8]) -> usize {
    usize::from(bytes[0]) | usize::from(bytes[1]) << 8 | usize::from(bytes[2]) << 16
}

fn run() -> Result<(), Box<dyn Error>> {
    let name = env::args().nth(1).ok_or("usage: decode_file IN.astc")?;
    let file = fs::read(name)?;
    let (header, blocks) = file.split_at_checked(16).ok_or("the file has no header")?;
    if header[..4] != [0x13, 0xab, 0xa1, 0x5c] {
        return Err("it is no .astc file".into());
    }
    let footprint = Footprint::new(header[4].into(), header[5].into())
        .ok_or("its footprint is none of the fourteen")?;
    let (width, height) = (three(&header[7..]), three(&header[10..]));
    let mut words = vec![0; width.min(4096) * height.min(4096)];
    decode_image(blocks, width, height, footprint, &mut words)?;
    writeln!(io::stdout(), "the first pixel is {:08x}", words[0])?;
    Ok(())
}

fn main() -> ExitCode {
    match run() {
        Ok(()) => ExitCode::SUCCESS,
        Err(reason) => {
            eprintln!("decode_file: {reason}");
            ExitCode::FAILURE
        }
    }
}
