//! The attack on openers and audit finds what is wrong: it passes plain ones that stand in for ours,
//! and not the same with any one of these faults.

use compare::attack::openings::{self, Calls};
use compare::attack::prefixes;
use compare::ours::{
    BAD_MAGIC, BAD_VERSION, BAD_WIDTH, DONE, G_LENGTH, NO_ROOM, OCC_TRUNCATED, SHORT_PREAD,
    ZERO_MODULUS,
};
use compare::rng::Rng;
use compare::tally::Tally;

const NO_FAULT: u32 = 0;
/// Compares the length with one byte less than the image has.
const ONE_BYTE_LESS: u32 = 1;
const ANY_VERSION: u32 = 2;
/// Knows an image by the first three bytes of its magic.
const EITHER_MAGIC: u32 = 3;
const WIDTH_33: u32 = 4;
/// Opens a BDZ3 of any width that a BDZ2 can have.
const ANY_COMPACT_WIDTH: u32 = 5;
/// Tests the zero modulus after the length.
const MODULUS_LATE: u32 = 6;
/// Tests the zero modulus of one key too.
const MODULUS_OF_ONE: u32 = 7;
/// Tests a BDZ3 for it as well.
const MODULUS_OF_COMPACT: u32 = 8;
/// Takes bytes 24 to 27 of a BDZ3 as its modulus.
const COMPACT_MODULUS: u32 = 9;
/// Leaves m and seed of an image of no keys as they stand in it.
const M_OF_NONE: u32 = 10;
/// Takes m of one key as it stands in the image.
const M_OF_ONE: u32 = 11;
/// Tells the fields of a refused image.
const TELLS_REFUSED: u32 = 12;
/// Tests the room for the answer after the image.
const ROOM_LATE: u32 = 13;
/// Asks for a whole header of first bytes, but for no length.
const NO_LENGTH: u32 = 14;
/// Computes the length in 32 bits.
const SHORT_SUM: u32 = 15;
/// Allows no bytes behind an image.
const NOTHING_BEHIND: u32 = 16;
/// Has one number for a short header of either kind.
const ONE_NUMBER: u32 = 17;
/// Counts one too many.
const OFF_BY_ONE: u32 = 18;
/// Counts the ones below m alone.
const BELOW_M: u32 = 19;
/// Counts all bytes that are lent.
const ALL_BYTES: u32 = 20;
/// Is full when there are n ones or more.
const FULL_OF_MORE: u32 = 21;
/// Asks for one byte less than it counts.
const LAST_BYTE_MISSING: u32 = 22;
/// Leaves the answer alone where it refuses.
const TELLS_NOTHING: u32 = 23;
/// Takes m words for the parts of an image of no keys.
const PARTS_OF_NONE: u32 = 24;
/// Has an occupancy in the parts of a BDZ2.
const PARTS_OF_BOTH: u32 = 25;
/// Starts the table at the header.
const PARTS_AT_ONCE: u32 = 26;
const FAULTS: u32 = 27;

/// The four bytes from there on.
fn word(first: &[u8], at: usize) -> u32 {
    u32::from_le_bytes(first[at..at + 4].try_into().unwrap())
}

fn length_of<const COMPACT: bool, const FAULT: u32>(m: u32, width: u32) -> u64 {
    let (m, width) = (u64::from(m), u64::from(width));
    let occupancy = if COMPACT { m.div_ceil(8) } else { 0 };
    let length = 32 + (m * width).div_ceil(8) + occupancy;
    match FAULT {
        ONE_BYTE_LESS => length - 1,
        SHORT_SUM => u64::from(length as u32),
        _ => length,
    }
}

/// The m of an index.
fn opened_m<const FAULT: u32>(first: &[u8]) -> u32 {
    match word(first, 8) {
        0 if FAULT != M_OF_NONE => 0,
        1 if FAULT != M_OF_ONE => 1,
        _ => word(first, 12),
    }
}

/// Whether m and modulus must not be 0.
fn asks_modulus<const COMPACT: bool, const FAULT: u32>(n: u32) -> bool {
    let of_kind = !COMPACT || FAULT == MODULUS_OF_COMPACT;
    of_kind && (n > 1 || FAULT == MODULUS_OF_ONE)
}

fn refusal<const COMPACT: bool, const FAULT: u32>(first: &[u8], length: u64) -> u32 {
    if first.len() < 32 || length < 32 && FAULT != NO_LENGTH {
        return match COMPACT && FAULT != ONE_NUMBER {
            true => G_LENGTH,
            false => SHORT_PREAD,
        };
    }
    let magic = if COMPACT { b"BDZ3" } else { b"BDZ2" };
    let compared = if FAULT == EITHER_MAGIC { 3 } else { 4 };
    if first[..compared] != magic[..compared] {
        return BAD_MAGIC;
    }
    if word(first, 4) != 1 && FAULT != ANY_VERSION {
        return BAD_VERSION;
    }
    let (n, m, modulus, width) = (
        word(first, 8),
        word(first, 12),
        word(first, 24),
        word(first, 28),
    );
    let most = if FAULT == WIDTH_33 { 33 } else { 32 };
    let two = COMPACT && FAULT != ANY_COMPACT_WIDTH;
    if width == 0 || width > most || two && width != 2 {
        return BAD_WIDTH;
    }
    if n == 0 {
        return DONE;
    }
    let zero = asks_modulus::<COMPACT, FAULT>(n) && (m == 0 || modulus == 0);
    if zero && FAULT != MODULUS_LATE {
        return ZERO_MODULUS;
    }
    let asked = length_of::<COMPACT, FAULT>(opened_m::<FAULT>(first), width);
    if length < asked || FAULT == NOTHING_BEHIND && length > asked {
        return G_LENGTH;
    }
    if zero {
        return ZERO_MODULUS;
    }
    DONE
}

fn open<const COMPACT: bool, const FAULT: u32>(
    first: &[u8],
    length: u64,
    answer: &mut [u64],
) -> u32 {
    let number = refusal::<COMPACT, FAULT>(first, length);
    if answer.len() < 5 {
        return match FAULT {
            ROOM_LATE if number != DONE => number,
            _ => NO_ROOM,
        };
    }
    answer[..5].fill(0);
    if number == DONE || FAULT == TELLS_REFUSED && first.len() >= 32 {
        let n = word(first, 8);
        let seed = u64::from_le_bytes(first[16..24].try_into().unwrap());
        let seed = if n == 0 && FAULT != M_OF_NONE {
            0
        } else {
            seed
        };
        let modulus = match COMPACT && FAULT != COMPACT_MODULUS {
            true => n,
            false => word(first, 24),
        };
        let m = opened_m::<FAULT>(first);
        answer[2] = seed;
        for (at, number) in [(0, n), (1, m), (3, modulus), (4, word(first, 28))] {
            answer[at] = u64::from(number);
        }
    }
    number
}

fn audit<const FAULT: u32>(n: u32, m: u32, bits: &[u8], answer: &mut [u64]) -> u32 {
    if answer.len() < 2 {
        return NO_ROOM;
    }
    let need = m.div_ceil(8) as usize;
    let asked = need - usize::from(FAULT == LAST_BYTE_MISSING && need > 0);
    if bits.len() < asked {
        if FAULT != TELLS_NOTHING {
            answer[..2].fill(0);
        }
        return OCC_TRUNCATED;
    }
    let counted = match FAULT {
        ALL_BYTES => 8 * bits.len(),
        BELOW_M => m as usize,
        _ => 8 * need,
    };
    let bit = |at: usize| {
        bits.get(at / 8)
            .map_or(0, |byte| u64::from(byte >> (at % 8) & 1))
    };
    let ones = (0..counted).map(bit).sum::<u64>() + u64::from(FAULT == OFF_BY_ONE);
    let full = match FAULT {
        FULL_OF_MORE => ones >= u64::from(n),
        _ => ones == u64::from(n),
    };
    answer[..2].copy_from_slice(&[ones, u64::from(full)]);
    DONE
}

fn parts<const FAULT: u32>(compact: u32, n: u32, m: u32, width: u32) -> [u64; 3] {
    let m = match n {
        0 if FAULT != PARTS_OF_NONE => 0,
        _ => m,
    };
    let table = length_of::<false, NO_FAULT>(m, width);
    let end = match compact != 0 || FAULT == PARTS_OF_BOTH {
        true => length_of::<true, NO_FAULT>(m, width),
        false => table,
    };
    [if FAULT == PARTS_AT_ONCE { 0 } else { 32 }, table, end]
}

fn calls<const FAULT: u32>() -> Calls {
    Calls {
        parts: parts::<FAULT>,
        packed: open::<false, FAULT>,
        compact: open::<true, FAULT>,
        audit: audit::<FAULT>,
    }
}

/// What one round of the attack finds first, if it finds anything.
fn found(calls: Calls) -> Option<&'static str> {
    let attacked = openings::run(&mut Tally::default(), &mut Rng::new(1), calls, 0);
    attacked.err().map(|difference| difference.what)
}

/// What the prefixes of some images find.
fn found_by_prefixes(calls: Calls) -> Option<&'static str> {
    let attacked = prefixes::run(&mut Tally::default(), &mut Rng::new(1), calls, 2..=40);
    attacked.err().map(|difference| difference.what)
}

#[test]
fn openers_without_fault_pass() {
    assert_eq!(found(calls::<NO_FAULT>()), None);
    assert_eq!(found_by_prefixes(calls::<NO_FAULT>()), None);
}

#[test]
fn every_fault_is_found() {
    let faulty = [
        (ONE_BYTE_LESS, calls::<ONE_BYTE_LESS>()),
        (ANY_VERSION, calls::<ANY_VERSION>()),
        (EITHER_MAGIC, calls::<EITHER_MAGIC>()),
        (WIDTH_33, calls::<WIDTH_33>()),
        (ANY_COMPACT_WIDTH, calls::<ANY_COMPACT_WIDTH>()),
        (MODULUS_LATE, calls::<MODULUS_LATE>()),
        (MODULUS_OF_ONE, calls::<MODULUS_OF_ONE>()),
        (MODULUS_OF_COMPACT, calls::<MODULUS_OF_COMPACT>()),
        (COMPACT_MODULUS, calls::<COMPACT_MODULUS>()),
        (M_OF_NONE, calls::<M_OF_NONE>()),
        (M_OF_ONE, calls::<M_OF_ONE>()),
        (TELLS_REFUSED, calls::<TELLS_REFUSED>()),
        (ROOM_LATE, calls::<ROOM_LATE>()),
        (NO_LENGTH, calls::<NO_LENGTH>()),
        (SHORT_SUM, calls::<SHORT_SUM>()),
        (NOTHING_BEHIND, calls::<NOTHING_BEHIND>()),
        (ONE_NUMBER, calls::<ONE_NUMBER>()),
        (OFF_BY_ONE, calls::<OFF_BY_ONE>()),
        (BELOW_M, calls::<BELOW_M>()),
        (ALL_BYTES, calls::<ALL_BYTES>()),
        (FULL_OF_MORE, calls::<FULL_OF_MORE>()),
        (LAST_BYTE_MISSING, calls::<LAST_BYTE_MISSING>()),
        (TELLS_NOTHING, calls::<TELLS_NOTHING>()),
        (PARTS_OF_NONE, calls::<PARTS_OF_NONE>()),
        (PARTS_OF_BOTH, calls::<PARTS_OF_BOTH>()),
        (PARTS_AT_ONCE, calls::<PARTS_AT_ONCE>()),
    ];
    assert!(faulty.iter().map(|(fault, _)| *fault).eq(1..FAULTS));
    for (fault, calls) in faulty {
        assert!(found(calls).is_some(), "fault {fault} is not found");
    }
}

/// A cut image that opens is found by cutting alone, for either kind.
#[test]
fn prefixes_find_a_cut_image_that_opens() {
    let (sound, faulty) = (calls::<NO_FAULT>(), calls::<ONE_BYTE_LESS>());
    for (calls, what) in [
        (
            Calls {
                packed: faulty.packed,
                ..sound
            },
            "bdz_open_packed",
        ),
        (
            Calls {
                compact: faulty.compact,
                ..sound
            },
            "bdz_open_compact",
        ),
    ] {
        assert_eq!(found_by_prefixes(calls), Some(what));
    }
}
