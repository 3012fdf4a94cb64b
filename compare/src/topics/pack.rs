//! Packing words into a body.

use super::Topic;
use crate::bdz;
use crate::ours::{self, BAD_WIDTH, DONE, NO_ROOM};
use crate::rng::Rng;
use crate::tally::{Difference, Tally};

/// Some of the words are boundary values; well over a million of these are random.
const RANDOM: u64 = 2_000_000;

pub const TOPIC: Topic = Topic {
    name: "pack",
    needs: &[
        ("words of short bodies", 32 * 70 * 71 / 2),
        ("words of long bodies", 400_000),
        ("words of random bodies", RANDOM),
        ("empty bodies", 32),
        ("body longer than the words", 32 * 71),
        ("body too short", 32 * 70),
        ("bad width", 3 * 71),
    ],
    run,
};

/// Bytes on each side of what a call is given, which it must leave alone.
const FENCE: usize = 16;

fn run(tally: &mut Tally, rng: &mut Rng) -> Result<(), Difference> {
    for count in 0..=70 {
        let words = words(rng, count);
        for width in 1..=32 {
            check(tally, rng, "words of short bodies", &words, width)?;
        }
        for width in [0, 33, 34, 64, u32::MAX] {
            refuse_width(tally, rng, &words, width)?;
        }
    }
    for width in 1..=32 {
        for count in long_counts(width) {
            let words = words(rng, count);
            check(tally, rng, "words of long bodies", &words, width)?;
        }
    }
    while tally.count("words of random bodies") < RANDOM {
        for width in 1..=32 {
            let count = 1 + rng.below_usize(5_000);
            let words = words(rng, count);
            check(tally, rng, "words of random bodies", &words, width)?;
        }
    }
    Ok(())
}

/// The longest count that the random ones can reach, and those about the end of the first page that
/// the Rust packs into.
pub fn long_counts(width: u32) -> [usize; 4] {
    let page = bdz::G_PAGE_BYTES * 8 / width as usize;
    [5_000, page - 1, page, page + 1]
}

/// Words of all 32 bits, so that most are wider than the width they are packed to.
pub fn words(rng: &mut Rng, count: usize) -> Vec<u32> {
    match rng.below(8) {
        0 => vec![u32::MAX; count],
        1 | 2 => (0..count).map(|_| rng.edge_u32()).collect(),
        _ => rng.words(count),
    }
}

/// The body that the Rust packs.
pub fn rust_body(words: &[u32], width: u32) -> Vec<u8> {
    let mut body = Vec::new();
    bdz::pack_g_write(words, width, &mut body).expect("a vector takes every byte");
    assert_eq!(
        body.len() as u64,
        bdz::packed_g_bytes(words.len() as u32, width)
    );
    body
}

fn check(
    tally: &mut Tally,
    rng: &mut Rng,
    what: &'static str,
    words: &[u32],
    width: u32,
) -> Result<(), Difference> {
    let rust = rust_body(words, width);
    let counted = match words.len() {
        0 => ("empty bodies", 1),
        count => (what, count),
    };
    compare(tally, rng, counted, words, width, &rust, rust.len())?;
    let longer = rust.len() + 1 + rng.below_usize(20);
    let counted = ("body longer than the words", 1);
    compare(tally, rng, counted, words, width, &rust, longer)?;
    if !rust.is_empty() {
        let any = rng.below_usize(rust.len());
        refuse(tally, rng, words, width, rust.len() - 1, NO_ROOM)?;
        refuse(tally, rng, words, width, any, NO_ROOM)?;
    }
    Ok(())
}

/// Packs into a dirty body of `length` bytes, which is as long as the Rust's or longer.
fn compare(
    tally: &mut Tally,
    rng: &mut Rng,
    counted: (&'static str, usize),
    words: &[u32],
    width: u32,
    rust: &[u8],
    length: usize,
) -> Result<(), Difference> {
    let mut body = rng.bytes(FENCE + length + FENCE);
    let mut expected = body.clone();
    expected[FENCE..FENCE + rust.len()].copy_from_slice(rust);
    let status = ours::pack_g(words, width, &mut body[FENCE..FENCE + length]);
    let (what, inputs) = counted;
    tally.same_all(what, inputs, (status, &body), (DONE, &expected), || {
        describe(words, width, length)
    })
}

fn refuse_width(
    tally: &mut Tally,
    rng: &mut Rng,
    words: &[u32],
    width: u32,
) -> Result<(), Difference> {
    // Neither too little room nor plenty of it changes the answer.
    for length in [0, 1, rng.below_usize(70), 16 * words.len()] {
        refuse(tally, rng, words, width, length, BAD_WIDTH)?;
    }
    Ok(())
}

fn refuse(
    tally: &mut Tally,
    rng: &mut Rng,
    words: &[u32],
    width: u32,
    length: usize,
    expected: u32,
) -> Result<(), Difference> {
    let before = rng.bytes(FENCE + length + FENCE);
    let mut body = before.clone();
    let status = ours::pack_g(words, width, &mut body[FENCE..FENCE + length]);
    let what = match expected {
        BAD_WIDTH => "bad width",
        _ => "body too short",
    };
    tally.same(what, (status, &body), (expected, &before), || {
        describe(words, width, length)
    })
}

fn describe(words: &[u32], width: u32, length: usize) -> String {
    format!(
        "{} words {words:x?}, width {width}, body of {length} bytes; the answers are the status \
         and the body with {FENCE} bytes on each side",
        words.len()
    )
}
