//! A reader of PNG files and of zlib data, written from RFC 1950, RFC 1951 and the PNG specification alone: it shares nothing with the
//! writer. What is not as it should be is a panic.

/// Bits of bytes, the low bit of a byte first.
struct Bits<'a> {
    bytes: &'a [u8],
    at: usize,
}

impl Bits<'_> {
    fn bit(&mut self) -> usize {
        let bit = self.bytes[self.at / 8] >> (self.at % 8) & 1;
        self.at += 1;
        bit.into()
    }

    fn number(&mut self, bits: usize) -> usize {
        (0..bits).map(|k| self.bit() << k).sum()
    }

    /// The next symbol, where each has a code of this length: its bits are read until they are a code.
    fn symbol(&mut self, lengths: &[usize]) -> usize {
        let (mut code, mut first) = (0, 0);
        for length in 1..=15 {
            code = 2 * code + self.bit();
            first *= 2;
            let of_length = lengths.iter().filter(|&&l| l == length).count();
            if code < first + of_length {
                let mut symbols = (0..lengths.len()).filter(|&s| lengths[s] == length);
                return symbols.nth(code - first).unwrap();
            }
            first += of_length;
        }
        panic!("no code is longer than 15 bits");
    }
}

/// The least length of each symbol from 257 on, and how many bits after it are added.
const LENGTHS: [usize; 29] = [
    3, 4, 5, 6, 7, 8, 9, 10, 11, 13, 15, 17, 19, 23, 27, 31, 35, 43, 51, 59, 67, 83, 99, 115, 131,
    163, 195, 227, 258,
];
const LENGTH_BITS: [usize; 29] = [
    0, 0, 0, 0, 0, 0, 0, 0, 1, 1, 1, 1, 2, 2, 2, 2, 3, 3, 3, 3, 4, 4, 4, 4, 5, 5, 5, 5, 0,
];

/// The least distance of each symbol, and how many bits after it are added.
const DISTANCES: [usize; 30] = [
    1, 2, 3, 4, 5, 7, 9, 13, 17, 25, 33, 49, 65, 97, 129, 193, 257, 385, 513, 769, 1025, 1537,
    2049, 3073, 4097, 6145, 8193, 12289, 16385, 24577,
];
const DISTANCE_BITS: [usize; 30] = [
    0, 0, 0, 0, 1, 1, 2, 2, 3, 3, 4, 4, 5, 5, 6, 6, 7, 7, 8, 8, 9, 9, 10, 10, 11, 11, 12, 12, 13,
    13,
];

/// The lengths of a block's two codes.
fn lengths(bits: &mut Bits) -> (Vec<usize>, Vec<usize>) {
    let symbols = bits.number(5) + 257;
    let distances = bits.number(5) + 1;
    let count = bits.number(4) + 4;
    let order = [
        16, 17, 18, 0, 8, 7, 9, 6, 10, 5, 11, 4, 12, 3, 13, 2, 14, 1, 15,
    ];
    let mut code = [0; 19];
    for place in &order[..count] {
        code[*place] = bits.number(3);
    }
    let mut all: Vec<usize> = Vec::new();
    while all.len() < symbols + distances {
        match bits.symbol(&code) {
            16 => all.extend(vec![*all.last().unwrap(); 3 + bits.number(2)]),
            17 => all.extend(vec![0; 3 + bits.number(3)]),
            18 => all.extend(vec![0; 11 + bits.number(7)]),
            length => all.push(length),
        }
    }
    assert_eq!(all.len(), symbols + distances);
    let distances = all.split_off(symbols);
    (all, distances)
}

/// The data of a zlib file of blocks with codes of their own.
pub fn unzlib(file: &[u8]) -> Vec<u8> {
    let (body, sums) = file.split_at(file.len() - 4);
    assert_eq!(body[0], 0x78);
    assert_eq!(u16::from_be_bytes([body[0], body[1]]) % 31, 0);
    let mut bits = Bits {
        bytes: &body[2..],
        at: 0,
    };
    let mut data: Vec<u8> = Vec::new();
    loop {
        let last = bits.bit() == 1;
        assert_eq!(bits.number(2), 2);
        let (symbols, distances) = lengths(&mut bits);
        loop {
            match bits.symbol(&symbols) {
                256 => break,
                byte @ ..=255 => data.push(byte as u8),
                symbol => {
                    let length = LENGTHS[symbol - 257] + bits.number(LENGTH_BITS[symbol - 257]);
                    let symbol = bits.symbol(&distances);
                    let distance = DISTANCES[symbol] + bits.number(DISTANCE_BITS[symbol]);
                    for _ in 0..length {
                        data.push(data[data.len() - distance]);
                    }
                }
            }
        }
        if last {
            break;
        }
    }
    assert_eq!(bits.at.div_ceil(8), body.len() - 2);
    let (a, b) = data.iter().fold((1, 0), |(a, b), &byte| {
        let a = (a + u32::from(byte)) % 65521;
        (a, (b + a) % 65521)
    });
    assert_eq!(sums, (b << 16 | a).to_be_bytes());
    data
}

/// The chunks of a file: the name of each and its data. Their remainders are not looked at.
fn chunks(file: &[u8]) -> Vec<(&[u8], &[u8])> {
    let mut rest = file.strip_prefix(b"\x89PNG\r\n\x1a\n").unwrap();
    let mut chunks = Vec::new();
    while !rest.is_empty() {
        let length = u32::from_be_bytes(rest[..4].try_into().unwrap()) as usize;
        chunks.push((&rest[4..8], &rest[8..8 + length]));
        rest = &rest[12 + length..];
    }
    chunks
}

/// The words of a PNG file of eight bits a channel, with alpha or without, its width and its height.
pub fn unpng(file: &[u8]) -> (Vec<u32>, usize, usize) {
    let chunks = chunks(file);
    let names: Vec<&[u8]> = chunks.iter().map(|chunk| chunk.0).collect();
    assert_eq!(names, [b"IHDR", b"IDAT", b"IEND"]);
    let header = chunks[0].1;
    let side = |at: usize| u32::from_be_bytes(header[at..at + 4].try_into().unwrap()) as usize;
    let (width, height) = (side(0), side(4));
    let pixel = match header[8..] {
        [8, 2, 0, 0, 0] => 3,
        [8, 6, 0, 0, 0] => 4,
        _ => panic!("the header is {header:?}"),
    };
    let mut above = vec![0; width * pixel];
    let mut words = Vec::new();
    let rows = unzlib(chunks[1].1);
    assert_eq!(rows.len(), height * (1 + width * pixel));
    for row in rows.chunks(1 + width * pixel) {
        above = unfiltered(row[0], &row[1..], &above, pixel);
        words.extend(above.chunks(pixel).map(|p| {
            let alpha = p.get(3).copied().unwrap_or(255);
            u32::from_le_bytes([p[2], p[1], p[0], alpha])
        }));
    }
    (words, width, height)
}

/// A row as it was before its filter.
fn unfiltered(filter: u8, row: &[u8], above: &[u8], pixel: usize) -> Vec<u8> {
    let mut out: Vec<u8> = Vec::new();
    for (i, byte) in row.iter().enumerate() {
        let (a, c) = match i.checked_sub(pixel) {
            Some(left) => (i32::from(out[left]), i32::from(above[left])),
            None => (0, 0),
        };
        let b = i32::from(above[i]);
        let nearest = [a, b, c].into_iter().min_by_key(|n| (a + b - c - n).abs());
        let expected = match filter {
            0 => 0,
            1 => a,
            2 => b,
            3 => (a + b) / 2,
            4 => nearest.unwrap(),
            _ => panic!("there is no filter {filter}"),
        };
        out.push(byte.wrapping_add(expected as u8));
    }
    out
}
