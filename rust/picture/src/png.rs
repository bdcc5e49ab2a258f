//! Pictures of red, green, blue and alpha, eight bits each: PNG and PAM.

use crate::deflate::zlib;

/// A word's channels in the order red, green, blue, alpha.
fn channels(word: u32) -> [u8; 4] {
    let [blue, green, red, alpha] = word.to_le_bytes();
    [red, green, blue, alpha]
}

/// A PAM file.
pub fn pam(words: &[u32], width: usize, height: usize) -> Vec<u8> {
    let header = format!(
        "P7\nWIDTH {width}\nHEIGHT {height}\nDEPTH 4\nMAXVAL 255\nTUPLTYPE RGB_ALPHA\nENDHDR\n"
    );
    header
        .into_bytes()
        .into_iter()
        .chain(words.iter().copied().flat_map(channels))
        .collect()
}

/// The remainder that ends a chunk.
fn crc(parts: [&[u8]; 2]) -> u32 {
    let mut crc = u32::MAX;
    for &byte in parts.into_iter().flatten() {
        crc ^= u32::from(byte);
        for _ in 0..8 {
            crc = crc >> 1 ^ if crc & 1 == 1 { 0xedb8_8320 } else { 0 };
        }
    }
    !crc
}

fn chunk(file: &mut Vec<u8>, kind: &[u8; 4], data: &[u8]) {
    file.extend((data.len() as u32).to_be_bytes());
    file.extend(kind);
    file.extend(data);
    file.extend(crc([kind, data]).to_be_bytes());
}

/// The byte among those to the left, above, and above to the left that is nearest to what they lead to expect; the first of them if
/// several are.
fn paeth(left: u8, above: u8, corner: u8) -> u8 {
    let [a, b, c] = [left, above, corner].map(i32::from);
    let expected = a + b - c;
    let (far_a, far_b, far_c) = (
        (expected - a).abs(),
        (expected - b).abs(),
        (expected - c).abs(),
    );
    if far_a <= far_b && far_a <= far_c {
        left
    } else if far_b <= far_c {
        above
    } else {
        corner
    }
}

/// What PNG's filters subtract from a byte, by the bytes to its left, above it, and above to the left.
const FILTERS: [fn(u8, u8, u8) -> u8; 5] = [
    |_, _, _| 0,
    |left, _, _| left,
    |_, above, _| above,
    |left, above, _| ((u16::from(left) + u16::from(above)) / 2) as u8,
    paeth,
];

/// A row as a filter leaves it, its number first. A pixel has so many bytes.
fn filtered(filter: usize, row: &[u8], above: &[u8], pixel: usize) -> Vec<u8> {
    let to_left = |row: &[u8], i: usize| i.checked_sub(pixel).map_or(0, |left| row[left]);
    let bytes = row.iter().zip(above).enumerate().map(|(i, (byte, up))| {
        let expected = FILTERS[filter](to_left(row, i), *up, to_left(above, i));
        byte.wrapping_sub(expected)
    });
    [filter as u8].into_iter().chain(bytes).collect()
}

/// How far a filtered row is from nothing: bytes above 127 stand for negative numbers.
fn size(filtered: &[u8]) -> u32 {
    let sizes = filtered[1..]
        .iter()
        .map(|&byte| (byte as i8).unsigned_abs());
    sizes.map(u32::from).sum()
}

/// The rows of some bytes, each by the filter that leaves the least.
fn rows(bytes: &[u8], width: usize, pixel: usize) -> Vec<u8> {
    let mut rows = Vec::with_capacity(bytes.len());
    let mut above = vec![0; width * pixel];
    for row in bytes.chunks(width * pixel) {
        let best = (0..FILTERS.len())
            .map(|filter| filtered(filter, row, &above, pixel))
            .min_by_key(|filtered| size(filtered));
        rows.extend(best.into_iter().flatten());
        above.copy_from_slice(row);
    }
    rows
}

/// A PNG file, with alpha where a pixel is not opaque.
pub fn png(words: &[u32], width: usize, height: usize) -> Vec<u8> {
    let opaque = words.iter().all(|word| word >> 24 == 255);
    let (kind, pixel) = if opaque { (2, 3) } else { (6, 4) };
    let mut header = Vec::new();
    header.extend((width as u32).to_be_bytes());
    header.extend((height as u32).to_be_bytes());
    header.extend([8, kind, 0, 0, 0]);
    let bytes: Vec<u8> = words
        .iter()
        .flat_map(|&word| channels(word).into_iter().take(pixel))
        .collect();
    let mut file = b"\x89PNG\r\n\x1a\n".to_vec();
    chunk(&mut file, b"IHDR", &header);
    chunk(&mut file, b"IDAT", &zlib(&rows(&bytes, width, pixel)));
    chunk(&mut file, b"IEND", &[]);
    file
}

#[cfg(test)]
mod tests {
    use super::*;

    #[test]
    fn known_remainders() {
        assert_eq!(crc([b"IEND", b""]), 0xae42_6082);
        assert_eq!(crc([b"123", b"456789"]), 0xcbf4_3926);
    }

    #[test]
    fn red_comes_first() {
        let file = pam(&[0x0403_0201], 1, 1);
        assert!(file.ends_with(b"ENDHDR\n\x03\x02\x01\x04"));
    }

    #[test]
    fn the_nearest_neighbour() {
        assert_eq!(paeth(10, 20, 10), 20);
        assert_eq!(paeth(20, 10, 10), 20);
        assert_eq!(paeth(10, 20, 15), 15);
        assert_eq!(paeth(255, 255, 0), 255);
        assert_eq!(paeth(0, 0, 255), 0);
    }

    #[test]
    fn rows_have_the_filter_that_leaves_the_least() {
        // a ramp by its left neighbours, a row like the one above it, and one like nothing
        let bytes = [[10, 20, 30, 40], [10, 20, 30, 40], [200, 7, 99, 1]].concat();
        let rows = rows(&bytes, 4, 1);
        assert_eq!(rows[..5], [1, 10, 10, 10, 10]);
        assert_eq!(rows[5..10], [2, 0, 0, 0, 0]);
        assert_eq!(rows.len(), 15);
    }
}
