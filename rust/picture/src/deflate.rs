//! Data in the zlib format (RFC 1950), compressed by deflate (RFC 1951): in blocks, each with Huffman codes made for it, of bytes and
//! of repetitions of earlier bytes.

use std::cmp::Reverse;
use std::collections::BinaryHeap;

/// The bytes of a repetition.
const SHORTEST: usize = 3;
const LONGEST: usize = 258;

/// How far back a repetition may reach.
const FARTHEST: usize = 32_768;

/// The symbols of bytes, of the end and of lengths; and of distances.
const SYMBOLS: usize = 286;
const DISTANCES: usize = 30;

/// The symbol that ends a block. Those before it are bytes, those after it lengths.
const END: usize = 256;

/// The most bytes and repetitions of a block.
const BLOCK: usize = 1 << 15;

/// The most bits of a code.
const LONGEST_CODE: u32 = 15;

/// A part of the data.
#[derive(Clone, Copy, Debug, PartialEq, Eq)]
enum Token {
    Byte(u8),
    /// So many bytes, as they stand so far before.
    Repeat {
        length: usize,
        distance: usize,
    },
}

/// Where three bytes were last seen: places by a hash of the bytes.
struct Seen(Vec<usize>);

impl Seen {
    const BITS: u32 = 15;

    fn new() -> Seen {
        Seen(vec![usize::MAX; 1 << Seen::BITS])
    }

    /// Where the bytes at a place may have been seen before, and notes that they are here.
    fn note(&mut self, data: &[u8], at: usize) -> Option<usize> {
        let three = data.get(at..at + SHORTEST)?;
        let number = u32::from_le_bytes([three[0], three[1], three[2], 0]);
        let slot = number.wrapping_mul(0x9e37_79b1) >> (32 - Seen::BITS);
        let before = std::mem::replace(&mut self.0[slot as usize], at);
        (before != usize::MAX).then_some(before)
    }
}

/// How many bytes from one place on are those from a later one on, at most as many as a repetition has.
fn alike(data: &[u8], before: usize, at: usize) -> usize {
    let pairs = data[before..].iter().zip(&data[at..]);
    pairs.take(LONGEST).take_while(|(a, b)| a == b).count()
}

/// The data as bytes and repetitions. Each place is tried with the last place that had the same three bytes.
struct Tokens<'a> {
    data: &'a [u8],
    at: usize,
    seen: Seen,
}

impl Tokens<'_> {
    fn of(data: &[u8]) -> Tokens<'_> {
        Tokens {
            data,
            at: 0,
            seen: Seen::new(),
        }
    }

    /// The repetition from here on, if there is one.
    fn repetition(&mut self) -> Option<(usize, usize)> {
        let before = self.seen.note(self.data, self.at)?;
        let distance = self.at - before;
        let length = alike(self.data, before, self.at);
        (distance <= FARTHEST && length >= SHORTEST).then_some((length, distance))
    }
}

impl Iterator for Tokens<'_> {
    type Item = Token;

    fn next(&mut self) -> Option<Token> {
        let byte = *self.data.get(self.at)?;
        let Some((length, distance)) = self.repetition() else {
            self.at += 1;
            return Some(Token::Byte(byte));
        };
        for passed in self.at + 1..self.at + length {
            self.seen.note(self.data, passed);
        }
        self.at += length;
        Some(Token::Repeat { length, distance })
    }
}

/// A number that is a symbol and some bits after it: the symbols stand for ranges of numbers.
struct Ranged {
    symbol: usize,
    bits: u32,
    rest: usize,
}

/// The symbol of a number from 0 on. Symbols come in groups of a size: those of the first two groups stand for one number each, and
/// those of every further group have one bit more after them than those of the group before.
fn ranged(number: usize, group: usize) -> Ranged {
    if number < 2 * group {
        return Ranged {
            symbol: number,
            bits: 0,
            rest: 0,
        };
    }
    let bits = (number / group).ilog2();
    let step = number >> bits;
    Ranged {
        symbol: group * bits as usize + step,
        bits,
        rest: number - (step << bits),
    }
}

/// The symbol of a length. The longest has one of its own.
fn of_length(length: usize) -> Ranged {
    if length == LONGEST {
        return Ranged {
            symbol: SYMBOLS - 1,
            bits: 0,
            rest: 0,
        };
    }
    let ranged = ranged(length - SHORTEST, 4);
    Ranged {
        symbol: END + 1 + ranged.symbol,
        ..ranged
    }
}

/// The symbol of a distance.
fn of_distance(distance: usize) -> Ranged {
    ranged(distance - 1, 2)
}

/// The depth of each symbol in a Huffman tree for such counts, of which at least two are not 0; 0 for a symbol that never comes.
fn depths(counts: &[u64]) -> Vec<u32> {
    let mut parents = vec![0; 2 * counts.len()];
    let mut next = counts.len();
    let mut trees: BinaryHeap<_> = (0..counts.len())
        .filter(|&symbol| counts[symbol] > 0)
        .map(|symbol| Reverse((counts[symbol], symbol)))
        .collect();
    while let (Some(Reverse(least)), Some(Reverse(second))) = (trees.pop(), trees.pop()) {
        parents[least.1] = next;
        parents[second.1] = next;
        trees.push(Reverse((least.0 + second.0, next)));
        next += 1;
        if trees.len() == 1 {
            break;
        }
    }
    let root = next - 1;
    let mut depths = vec![0; next];
    for node in (0..root).rev().filter(|&node| parents[node] > 0) {
        depths[node] = depths[parents[node]] + 1;
    }
    depths.truncate(counts.len());
    depths
}

/// The lengths of the codes of symbols that come so often. Two symbols have a code even if they never come, since a tree has two
/// branches; and counts are brought closer together until no code is too long.
fn lengths(mut counts: Vec<u64>) -> Vec<u32> {
    for count in &mut counts[..2] {
        *count = (*count).max(1);
    }
    loop {
        let depths = depths(&counts);
        if depths.iter().all(|&depth| depth <= LONGEST_CODE) {
            return depths;
        }
        for count in counts.iter_mut().filter(|count| **count > 0) {
            *count = *count / 2 + 1;
        }
    }
}

/// The codes of symbols whose codes are so long: shorter ones first, and of one length in the order of the symbols.
fn codes(lengths: &[u32]) -> Vec<u32> {
    let mut codes = vec![0; lengths.len()];
    let mut code = 0;
    for length in 1..=LONGEST_CODE {
        for (symbol, _) in lengths.iter().enumerate().filter(|(_, &l)| l == length) {
            codes[symbol] = code;
            code += 1;
        }
        code <<= 1;
    }
    codes
}

/// A Huffman code.
struct Code {
    lengths: Vec<u32>,
    codes: Vec<u32>,
}

impl Code {
    fn new(counts: Vec<u64>) -> Code {
        let lengths = lengths(counts);
        let codes = codes(&lengths);
        Code { lengths, codes }
    }
}

/// Bits that become bytes, the low bit of a byte first.
#[derive(Default)]
struct Bits {
    bytes: Vec<u8>,
    last: u64,
    count: u32,
}

impl Bits {
    /// A number of so many bits, its low bit first.
    fn number(&mut self, number: usize, bits: u32) {
        self.last |= (number as u64) << self.count;
        self.count += bits;
        while self.count >= 8 {
            self.bytes.push(self.last as u8);
            self.last >>= 8;
            self.count -= 8;
        }
    }

    /// A symbol's code, its high bit first.
    fn symbol(&mut self, code: &Code, symbol: usize) {
        let length = code.lengths[symbol];
        let reversed = code.codes[symbol].reverse_bits() >> (32 - length);
        self.number(reversed as usize, length);
    }

    fn ranged(&mut self, code: &Code, ranged: Ranged) {
        self.symbol(code, ranged.symbol);
        self.number(ranged.rest, ranged.bits);
    }

    /// All bytes; the last is filled with zeros.
    fn end(mut self) -> Vec<u8> {
        self.number(0, 7);
        self.bytes
    }
}

/// The two codes for some tokens: of bytes, the end and lengths; and of distances.
fn codes_for(tokens: &[Token]) -> (Code, Code) {
    let (mut symbols, mut distances) = (vec![0; SYMBOLS], vec![0; DISTANCES]);
    symbols[END] = 1;
    for token in tokens {
        match *token {
            Token::Byte(byte) => symbols[usize::from(byte)] += 1,
            Token::Repeat { length, distance } => {
                symbols[of_length(length).symbol] += 1;
                distances[of_distance(distance).symbol] += 1;
            }
        }
    }
    (Code::new(symbols), Code::new(distances))
}

/// Writes the lengths of both codes. They are written by a code of their own, which gives each length 0 to 15 the four bits of its
/// number, and no code to the three symbols for repeated lengths, which stand first in the list of that code's lengths.
fn write_codes(bits: &mut Bits, symbols: &Code, distances: &Code) {
    bits.number(SYMBOLS - 257, 5);
    bits.number(DISTANCES - 1, 5);
    bits.number(19 - 4, 4);
    for place in 0..19 {
        bits.number(if place < 3 { 0 } else { 4 }, 3);
    }
    for &length in symbols.lengths.iter().chain(&distances.lengths) {
        let reversed = length.reverse_bits() >> 28;
        bits.number(reversed as usize, 4);
    }
}

/// The sums that end the data.
fn adler(bytes: &[u8]) -> u32 {
    let (mut a, mut b) = (1u32, 0u32);
    for &byte in bytes {
        a = (a + u32::from(byte)) % 65521;
        b = (b + a) % 65521;
    }
    b << 16 | a
}

/// Writes a block of tokens.
fn write_block(bits: &mut Bits, tokens: &[Token], last: bool) {
    let (symbols, distances) = codes_for(tokens);
    bits.number(last.into(), 1);
    // it has codes of its own
    bits.number(2, 2);
    write_codes(bits, &symbols, &distances);
    for token in tokens {
        match *token {
            Token::Byte(byte) => bits.symbol(&symbols, byte.into()),
            Token::Repeat { length, distance } => {
                bits.ranged(&symbols, of_length(length));
                bits.ranged(&distances, of_distance(distance));
            }
        }
    }
    bits.symbol(&symbols, END);
}

/// The data in the zlib format.
pub fn zlib(data: &[u8]) -> Vec<u8> {
    let mut bits = Bits::default();
    // deflate with distances up to 32,768; the two bytes are a multiple of 31
    bits.number(0x0178, 16);
    let mut tokens = Tokens::of(data).peekable();
    let mut last = false;
    while !last {
        let block: Vec<Token> = tokens.by_ref().take(BLOCK).collect();
        last = tokens.peek().is_none();
        write_block(&mut bits, &block, last);
    }
    let mut file = bits.end();
    file.extend(adler(data).to_be_bytes());
    file
}

#[cfg(test)]
mod tests {
    use super::*;

    #[test]
    fn a_known_sum() {
        assert_eq!(adler(b"Wikipedia"), 0x11e6_0398);
    }

    /// As RFC 1951 has them in 3.2.5: symbol, its bits, and the least number that it stands for.
    #[test]
    fn symbols_of_lengths_and_distances() {
        for (length, symbol, bits, least) in [
            (3, 257, 0, 3),
            (10, 264, 0, 10),
            (12, 265, 1, 11),
            (18, 268, 1, 17),
            (19, 269, 2, 19),
            (130, 280, 4, 115),
            (131, 281, 5, 131),
            (257, 284, 5, 227),
            (258, 285, 0, 258),
        ] {
            let of = of_length(length);
            let found = (of.symbol, of.bits, of.rest);
            assert_eq!(found, (symbol, bits, length - least), "{length}");
        }
        for (distance, symbol, bits, least) in [
            (1, 0, 0, 1),
            (4, 3, 0, 4),
            (5, 4, 1, 5),
            (8, 5, 1, 7),
            (9, 6, 2, 9),
            (192, 14, 6, 129),
            (24_576, 28, 13, 16_385),
            (24_577, 29, 13, 24_577),
            (32_768, 29, 13, 24_577),
        ] {
            let of = of_distance(distance);
            let found = (of.symbol, of.bits, of.rest);
            assert_eq!(found, (symbol, bits, distance - least), "{distance}");
        }
    }

    /// Four symbols of RFC 1951's example in 3.2.2, and a tree that would be too deep.
    #[test]
    fn codes_are_canonical_and_not_too_long() {
        assert_eq!(codes(&[2, 1, 3, 3]), [0b10, 0b0, 0b110, 0b111]);
        let (mut a, mut b) = (1, 1);
        let fibonacci = (0..40).map(|_| {
            (a, b) = (b, a + b);
            a
        });
        let lengths = lengths(fibonacci.collect());
        assert!(lengths.iter().all(|&l| (1..=LONGEST_CODE).contains(&l)));
        // the tree has no free branch
        let full: u32 = lengths.iter().map(|&l| 1 << (LONGEST_CODE - l)).sum();
        assert_eq!(full, 1 << LONGEST_CODE);
    }

    #[test]
    fn runs_are_repetitions() {
        let repeat = Token::Repeat {
            length: 7,
            distance: 1,
        };
        assert!(Tokens::of(&[5; 8]).eq([Token::Byte(5), repeat]));
        assert!(Tokens::of(&[5; 2]).eq([Token::Byte(5); 2]));
    }
}
