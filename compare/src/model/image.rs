//! Images: their header, their bytes, and what the two openers make of them.

use super::rank;
use crate::ours::{BAD_MAGIC, BAD_VERSION, BAD_WIDTH, DONE, G_LENGTH, SHORT_PREAD, ZERO_MODULUS};

/// The bytes of a header of either kind.
pub const HEADER: usize = 32;
/// "42 44 5A 32" and "42 44 5A 33": BDZ2 and BDZ3.
const MAGICS: [u64; 2] = [0x325a_4442, 0x335a_4442];
/// "BDZ3 uses 2".
pub const COMPACT_WIDTH: u32 = 2;

/// A field of a header: where it starts, and its bytes.
pub type Field = (usize, usize);

pub const MAGIC: Field = (0, 4);
pub const VERSION: Field = (4, 4);
pub const N: Field = (8, 4);
pub const M: Field = (12, 4);
pub const SEED: Field = (16, 8);
pub const MODULUS: Field = (24, 4);
pub const WIDTH: Field = (28, 4);
pub const FIELDS: [Field; 7] = [MAGIC, VERSION, N, M, SEED, MODULUS, WIDTH];

/// "All fields little-endian".
pub fn get(header: &[u8], (start, length): Field) -> u64 {
    let mut whole = [0; 8];
    whole[..length].copy_from_slice(&header[start..start + length]);
    u64::from_le_bytes(whole)
}

/// As much of the value as fits the field.
pub fn put(header: &mut [u8], (start, length): Field, value: u64) {
    header[start..start + length].copy_from_slice(&value.to_le_bytes()[..length]);
}

/// The magic of a kind, as a field has it.
pub fn magic(compact: bool) -> u64 {
    MAGICS[usize::from(compact)]
}

/// What an opening comes to: the refusal, and n, m, seed, modulus and width, or five zeros.
#[derive(Clone, Copy, PartialEq, Debug)]
pub struct Opened {
    pub refusal: u32,
    pub answer: [u64; 5],
}

/// "Width is 1 for modulus up to 1, else the bits of modulus-1".
pub fn width(modulus: u32) -> u32 {
    match modulus {
        0 | 1 => 1,
        _ => (1..=32)
            .find(|&bits| u64::from(modulus - 1) < 1 << bits)
            .expect("a number has at most 32 bits"),
    }
}

/// The bytes of a packed table.
pub fn table_bytes(words: u32, width: u32) -> u64 {
    (u64::from(words) * u64::from(width)).div_ceil(8)
}

/// The bytes of an image, by m as it is opened.
pub fn length(compact: bool, m: u32, width: u32) -> u64 {
    let occupancy = match compact {
        true => rank::needs(m).0 as u64,
        false => 0,
    };
    HEADER as u64 + table_bytes(m, width) + occupancy
}

/// Where the table starts and ends, and where the image ends, by the numbers of a record: "for n = 0
/// .. the header alone".
pub fn parts(compact: bool, n: u32, m: u32, width: u32) -> [u64; 3] {
    let words = if n == 0 { 0 } else { m };
    let start = HEADER as u64;
    [
        start,
        start + table_bytes(words, width),
        length(compact, words, width),
    ]
}

/// How many bytes a header asks for, whether or not it is refused before that is asked.
pub fn asked(compact: bool, header: &[u8]) -> u64 {
    let [n, m, width] = [N, M, WIDTH].map(|field| get(header, field) as u32);
    length(compact, opened_m(n, m), width.min(32))
}

/// "An opened image of n = 0 has m and seed 0; of n = 1, m 1".
fn opened_m(n: u32, m: u32) -> u32 {
    match n {
        0 | 1 => n,
        _ => m,
    }
}

/// Opens an image of so many bytes, of which these are the first, by the opener of a kind.
pub fn open(compact: bool, first: &[u8], length: u64) -> Opened {
    let refusal = refusal(compact, first, length);
    let answer = match refusal {
        DONE => fields(compact, first),
        _ => [0; 5],
    };
    Opened { refusal, answer }
}

/// "Open BDZ2: 6, 8, 9, 10 (width 0 or over 32), n = 0 accepted, 11 (n over 1 with m or modulus 0),
/// 7. Open BDZ3: 7 (header), 8, 9, 10 (width not 2), n = 0 accepted, 7".
fn refusal(compact: bool, first: &[u8], length: u64) -> u32 {
    if first.len() < HEADER || length < HEADER as u64 {
        return match compact {
            true => G_LENGTH,
            false => SHORT_PREAD,
        };
    }
    let [n, m, modulus, width] = [N, M, MODULUS, WIDTH].map(|field| get(first, field));
    let widths = match compact {
        true => 2..=2,
        false => 1..=32,
    };
    if get(first, MAGIC) != magic(compact) {
        BAD_MAGIC
    } else if get(first, VERSION) != 1 {
        BAD_VERSION
    } else if !widths.contains(&width) {
        BAD_WIDTH
    } else if n == 0 {
        DONE
    } else if !compact && n > 1 && (m == 0 || modulus == 0) {
        ZERO_MODULUS
    } else if length < asked(compact, first) {
        G_LENGTH
    } else {
        DONE
    }
}

/// "Bytes 24 to 27 of BDZ3 are ignored, and the opened modulus is n".
fn fields(compact: bool, header: &[u8]) -> [u64; 5] {
    let [n, m, seed, modulus, width] = [N, M, SEED, MODULUS, WIDTH].map(|field| get(header, field));
    let modulus = match compact {
        true => n,
        false => modulus,
    };
    let seed = match n {
        0 => 0,
        _ => seed,
    };
    [
        n,
        u64::from(opened_m(n as u32, m as u32)),
        seed,
        modulus,
        width,
    ]
}

/// A header of a kind, with its magic and version.
pub fn header(compact: bool, [n, m, seed, modulus, width]: [u64; 5]) -> Vec<u8> {
    let mut header = vec![0; HEADER];
    let values = [magic(compact), 1, n, m, seed, modulus, width];
    for (field, value) in FIELDS.into_iter().zip(values) {
        put(&mut header, field, value);
    }
    header
}

/// "The table, low bits first, last byte padded with zeros". "A word wider than the width is
/// masked".
pub fn packed(table: &[u32], width: u32) -> Vec<u8> {
    let mut bytes = vec![0; table_bytes(table.len() as u32, width) as usize];
    for (word, start) in table.iter().zip((0..).step_by(width as usize)) {
        for bit in 0..width as usize {
            let place: usize = start + bit;
            bytes[place / 8] |= ((word >> bit & 1) as u8) << (place % 8);
        }
    }
    bytes
}

/// The image of an index of one key or more, whose table and occupancy are as long as m asks.
/// "Modulus 4 (0 in BDZ3)"; "BDZ3 then ceil(m/8) occupancy bytes".
pub fn written(
    compact: bool,
    [n, m, seed, modulus]: [u64; 4],
    table: &[u32],
    occupancy: &[u8],
) -> Vec<u8> {
    let (modulus, width) = match compact {
        true => (0, COMPACT_WIDTH),
        false => (modulus, width(modulus as u32)),
    };
    let header = header(compact, [n, m, seed, modulus, u64::from(width)]);
    let occupancy = match compact {
        true => occupancy,
        false => &[],
    };
    [&header[..], &packed(table, width), occupancy].concat()
}
