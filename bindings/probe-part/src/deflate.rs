//! Deflate streams (RFC 1951) in a zlib wrapper (RFC 1950): one block of the fixed codes, with repeats found by a table of
//! the last place of every three bytes.

/// The longest and the shortest repeat.
const LONGEST: usize = 258;
const SHORTEST: usize = 3;

/// How far back a repeat may lie.
const WINDOW: usize = 32_768;

/// The table of places has two to this power entries.
const TABLE_BITS: u32 = 15;

/// The shortest length of each length code from 257 on, and its extra bits.
const LENGTHS: [(usize, u32); 29] = [
    (3, 0),
    (4, 0),
    (5, 0),
    (6, 0),
    (7, 0),
    (8, 0),
    (9, 0),
    (10, 0),
    (11, 1),
    (13, 1),
    (15, 1),
    (17, 1),
    (19, 2),
    (23, 2),
    (27, 2),
    (31, 2),
    (35, 3),
    (43, 3),
    (51, 3),
    (59, 3),
    (67, 4),
    (83, 4),
    (99, 4),
    (115, 4),
    (131, 5),
    (163, 5),
    (195, 5),
    (227, 5),
    (258, 0),
];

/// The zlib stream of some bytes.
pub fn zlib(bytes: &[u8]) -> Vec<u8> {
    let mut bits = Bits {
        out: vec![0x78, 0x01],
        held: 0,
        count: 0,
    };
    // the last block, of the fixed codes
    bits.push(1, 1);
    bits.push(1, 2);
    block(bytes, &mut bits);
    let mut stream = bits.end();
    stream.extend(adler(bytes).to_be_bytes());
    stream
}

/// Bits in order, from the lowest of each byte on.
struct Bits {
    out: Vec<u8>,
    held: u32,
    count: u32,
}

impl Bits {
    /// Adds the low bits of a number, the lowest first.
    fn push(&mut self, value: u32, count: u32) {
        self.held |= value << self.count;
        self.count += count;
        while self.count >= 8 {
            self.out.push(self.held as u8);
            self.held >>= 8;
            self.count -= 8;
        }
    }

    /// Adds a code, its highest bit first.
    fn code(&mut self, code: u32, count: u32) {
        self.push(code.reverse_bits() >> (32 - count), count);
    }

    /// A literal, a length code or the end of the block, by the fixed codes.
    fn symbol(&mut self, symbol: u32) {
        match symbol {
            0..=143 => self.code(0x30 + symbol, 8),
            144..=255 => self.code(0x190 + symbol - 144, 9),
            256..=279 => self.code(symbol - 256, 7),
            _ => self.code(0xc0 + symbol - 280, 8),
        }
    }

    fn end(mut self) -> Vec<u8> {
        if self.count > 0 {
            self.out.push(self.held as u8);
        }
        self.out
    }
}

/// Adds the literals and repeats of some bytes, and the end of the block.
fn block(bytes: &[u8], bits: &mut Bits) {
    let mut last = vec![usize::MAX; 1 << TABLE_BITS];
    let mut at = 0;
    while at < bytes.len() {
        let before = place(bytes, at).map(|slot| std::mem::replace(&mut last[slot], at));
        let length = before.map_or(0, |before| repeat(bytes, before, at));
        match before {
            Some(before) if length >= SHORTEST => {
                write_repeat(bits, length, at - before);
                for inner in at + 1..at + length {
                    if let Some(slot) = place(bytes, inner) {
                        last[slot] = inner;
                    }
                }
                at += length;
            }
            _ => {
                bits.symbol(u32::from(bytes[at]));
                at += 1;
            }
        }
    }
    bits.symbol(256);
}

/// Where the table keeps the last place of the three bytes from here on, if there are three.
fn place(bytes: &[u8], at: usize) -> Option<usize> {
    let three = bytes.get(at..at + SHORTEST)?;
    let number = u32::from_le_bytes([three[0], three[1], three[2], 0]);
    Some((number.wrapping_mul(0x9e37_79b1) >> (32 - TABLE_BITS)) as usize)
}

/// How many bytes from here on are as those from an earlier place on.
fn repeat(bytes: &[u8], before: usize, at: usize) -> usize {
    if before >= at || at - before > WINDOW {
        return 0;
    }
    let pairs = bytes[before..].iter().zip(&bytes[at..]);
    pairs.take(LONGEST).take_while(|(a, b)| a == b).count()
}

fn write_repeat(bits: &mut Bits, length: usize, distance: usize) {
    let code = LENGTHS.iter().rposition(|&(least, _)| least <= length);
    let code = code.unwrap_or(0);
    let (least, extra) = LENGTHS[code];
    bits.symbol(257 + code as u32);
    bits.push((length - least) as u32, extra);
    let (code, least, extra) = distance_code(distance);
    bits.code(code, 5);
    bits.push((distance - least) as u32, extra);
}

/// The code of a distance, the least distance of that code, and its extra bits: two codes for each power of two.
fn distance_code(distance: usize) -> (u32, usize, u32) {
    if distance <= 4 {
        return (distance as u32 - 1, distance, 0);
    }
    let extra = (distance - 1).ilog2() - 1;
    let upper = (distance - 1) >> extra & 1;
    let least = ((2 + upper) << extra) + 1;
    (2 * extra + 2 + upper as u32, least, extra)
}

/// The check sum of a zlib stream (Adler-32).
pub fn adler(bytes: &[u8]) -> u32 {
    let (mut a, mut b) = (1_u32, 0_u32);
    for &byte in bytes {
        a = (a + u32::from(byte)) % 65_521;
        b = (b + a) % 65_521;
    }
    b << 16 | a
}
