//! The .astc file: a header of sixteen bytes, and the blocks.

use astc::Footprint;
use std::fmt;

/// What the header says, and the blocks after it.
#[derive(Debug, PartialEq, Eq)]
pub struct Container<'a> {
    pub footprint: Footprint,
    pub width: usize,
    pub height: usize,
    pub blocks: &'a [u8],
}

/// Why a file is not taken.
#[derive(Debug, PartialEq, Eq)]
pub enum Fault {
    /// It is shorter than a header.
    NoHeader,
    /// It does not begin as an .astc file.
    NotAstc,
    /// It holds blocks or an image of three dimensions.
    ThreeDimensions,
    /// It has blocks of this width and height, which are not listed.
    Footprint(u8, u8),
    /// A side of the image is 0 or over 4,096.
    Side(usize, usize),
    /// It has so many bytes of blocks where so many are needed.
    Data { has: usize, needs: usize },
}

impl fmt::Display for Fault {
    fn fmt(&self, f: &mut fmt::Formatter) -> fmt::Result {
        match self {
            Fault::NoHeader => write!(f, "it is shorter than the header of an .astc file"),
            Fault::NotAstc => write!(f, "it is no .astc file: it does not begin with 13 AB A1 5C"),
            Fault::ThreeDimensions => write!(f, "its blocks or its image have three dimensions"),
            Fault::Footprint(w, h) => write!(
                f,
                "its blocks are {w}x{h}, which is no 2D footprint of ASTC"
            ),
            Fault::Side(w, h) => write!(f, "its image is {w}x{h}; a side is 1 to 4096 pixels"),
            Fault::Data { has, needs } => {
                write!(
                    f,
                    "it has {has} bytes of blocks, and its image needs {needs}"
                )
            }
        }
    }
}

impl std::error::Error for Fault {}

const MAGIC: [u8; 4] = [0x13, 0xab, 0xa1, 0x5c];

/// A number of three bytes, the low one first.
fn three(bytes: &[u8]) -> usize {
    usize::from(bytes[0]) | usize::from(bytes[1]) << 8 | usize::from(bytes[2]) << 16
}

/// Reads a file's header and finds its blocks. Bytes after them are left alone.
pub fn read(file: &[u8]) -> Result<Container<'_>, Fault> {
    let (header, rest) = file.split_at_checked(16).ok_or(Fault::NoHeader)?;
    if header[..4] != MAGIC {
        return Err(Fault::NotAstc);
    }
    let (bw, bh, bd) = (header[4], header[5], header[6]);
    let (width, height, depth) = (
        three(&header[7..]),
        three(&header[10..]),
        three(&header[13..]),
    );
    if bd != 1 || depth != 1 {
        return Err(Fault::ThreeDimensions);
    }
    let footprint = Footprint::new(bw.into(), bh.into()).ok_or(Fault::Footprint(bw, bh))?;
    let sides = 1..=4096;
    if !sides.contains(&width) || !sides.contains(&height) {
        return Err(Fault::Side(width, height));
    }
    let needs = 16 * footprint.blocks(width, height);
    let has = rest.len();
    let blocks = rest.get(..needs).ok_or(Fault::Data { has, needs })?;
    Ok(Container {
        footprint,
        width,
        height,
        blocks,
    })
}

#[cfg(test)]
mod tests {
    use super::*;

    fn file(header: [u8; 12], blocks: usize) -> Vec<u8> {
        let mut file = MAGIC.to_vec();
        file.extend(header);
        file.resize(16 + 16 * blocks, 0);
        file
    }

    const FIVE_BY_FOUR: [u8; 12] = [5, 4, 1, 11, 0, 0, 4, 0, 0, 1, 0, 0];

    #[test]
    fn a_whole_file_and_one_with_more() {
        for blocks in [3, 4] {
            let file = file(FIVE_BY_FOUR, blocks);
            let container = read(&file).unwrap();
            assert_eq!((container.width, container.height), (11, 4));
            assert_eq!(container.blocks.len(), 48);
        }
    }

    #[test]
    fn every_fault_is_told() {
        let changed = |place: usize, byte: u8| {
            let mut header = FIVE_BY_FOUR;
            header[place] = byte;
            file(header, 3)
        };
        assert_eq!(read(&[0x13; 15]), Err(Fault::NoHeader));
        assert_eq!(read(&[0; 64]), Err(Fault::NotAstc));
        assert_eq!(read(&changed(2, 4)), Err(Fault::ThreeDimensions));
        assert_eq!(read(&changed(9, 2)), Err(Fault::ThreeDimensions));
        assert_eq!(read(&changed(1, 6)), Err(Fault::Footprint(5, 6)));
        assert_eq!(read(&changed(3, 0)), Err(Fault::Side(0, 4)));
        assert_eq!(read(&changed(5, 1)), Err(Fault::Side(65547, 4)));
        assert_eq!(
            read(&file(FIVE_BY_FOUR, 2)),
            Err(Fault::Data { has: 32, needs: 48 })
        );
    }
}
