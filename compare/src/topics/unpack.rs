//! Reading words back: a whole body, one vertex, and a window of bits.

use super::pack::{long_counts, rust_body, words};
use super::Topic;
use crate::bdz;
use crate::lent::Fenced;
use crate::ours;
use crate::rng::Rng;
use crate::tally::{Difference, Tally};

/// Some of the words are boundary values; well over a million of these are random.
const RANDOM: u64 = 2_000_000;

pub const TOPIC: Topic = Topic {
    name: "unpack",
    needs: &[
        ("words of short bodies", 32 * 70 * 71 / 2),
        ("words of long bodies", 400_000),
        ("words of random bodies", RANDOM),
        ("words of cut bodies", RANDOM),
        ("words of odd widths", 10_000),
        ("single vertices", 2 * RANDOM),
        ("vertices past the end", 10_000),
        ("windows", 41 * RANDOM_WINDOWS),
    ],
    run,
};

const RANDOM_WINDOWS: u64 = 30_000;
/// Words on each side of what a call is given, which it must leave alone.
const FENCE: usize = 16;

fn run(tally: &mut Tally, rng: &mut Rng) -> Result<(), Difference> {
    for width in 1..=32 {
        for count in 0..=70 {
            packed_body(tally, rng, "words of short bodies", width, count)?;
        }
    }
    for width in 1..=32 {
        for count in long_counts(width) {
            packed_body(tally, rng, "words of long bodies", width, count)?;
        }
    }
    while tally.count("words of random bodies") < RANDOM {
        for width in 1..=32 {
            let count = 1 + rng.below_usize(5_000);
            packed_body(tally, rng, "words of random bodies", width, count)?;
        }
    }
    for width in (0..=70).chain([255, 256, 1 << 31, u32::MAX]) {
        for length in 0..=40 {
            any_body(tally, rng, width, length)?;
        }
    }
    for width in (0..=40).chain([64, 1 << 31, u32::MAX]) {
        for _ in 0..RANDOM_WINDOWS {
            window(tally, rng, width)?;
        }
    }
    Ok(())
}

/// A body as the Rust packs it, whole and cut.
fn packed_body(
    tally: &mut Tally,
    rng: &mut Rng,
    what: &'static str,
    width: u32,
    count: usize,
) -> Result<(), Difference> {
    let body = rust_body(&words(rng, count), width);
    let whole = Fenced::new(rng, &body);
    all_words(tally, rng, what, whole.given(), width, count)?;
    single_vertices(tally, rng, whole.given(), width, count)?;
    let past = count + rng.below_usize(20);
    let kept = rng.below_usize(body.len() + 1);
    let cut = Fenced::new(rng, &body[..kept]);
    all_words(tally, rng, "words of cut bodies", cut.given(), width, past)?;
    single_vertices(tally, rng, cut.given(), width, past)
}

/// A body of any bytes read at any width, those that nothing can be packed to as well.
fn any_body(tally: &mut Tally, rng: &mut Rng, width: u32, length: usize) -> Result<(), Difference> {
    let body = rng.bytes(length);
    let body = Fenced::new(rng, &body);
    let count = 1 + rng.below_usize(8 * length + 20);
    let what = "words of odd widths";
    all_words(tally, rng, what, body.given(), width, count)?;
    single_vertices(tally, rng, body.given(), width, count)
}

fn all_words(
    tally: &mut Tally,
    rng: &mut Rng,
    what: &'static str,
    body: &[u8],
    width: u32,
    count: usize,
) -> Result<(), Difference> {
    let mut out = rng.words(FENCE + count + FENCE);
    let mut expected = out.clone();
    for v in 0..count {
        expected[FENCE + v] = bdz::unpack_g_at(body, v as u32, width);
    }
    ours::unpack_g(body, width, &mut out[FENCE..FENCE + count]);
    tally.same_all(what, count, &out, &expected, || {
        format!(
            "body of {} bytes {body:x?}, width {width}, out of {count} words; the answers are out \
             with {FENCE} words on each side",
            body.len()
        )
    })
}

/// Every vertex of the body, some behind it, and some far away.
fn single_vertices(
    tally: &mut Tally,
    rng: &mut Rng,
    body: &[u8],
    width: u32,
    count: usize,
) -> Result<(), Difference> {
    for v in 0..count as u32 {
        single_vertex(tally, "single vertices", body, v, width)?;
    }
    for away in 0..12 {
        let what = "vertices past the end";
        single_vertex(tally, what, body, count as u32 + away, width)?;
        single_vertex(tally, what, body, rng.edge_u32(), width)?;
    }
    single_vertex(tally, "vertices past the end", body, u32::MAX, width)
}

fn single_vertex(
    tally: &mut Tally,
    what: &'static str,
    body: &[u8],
    v: u32,
    width: u32,
) -> Result<(), Difference> {
    let ours = ours::unpack_g_at(body, v, width);
    let rust = bdz::unpack_g_at(body, v, width);
    tally.same(what, ours, rust, || {
        format!(
            "body of {} bytes {body:x?}, vertex {v}, width {width}",
            body.len()
        )
    })
}

fn window(tally: &mut Tally, rng: &mut Rng, width: u32) -> Result<(), Difference> {
    let length = rng.below_usize(40);
    let part = rng.bytes(length);
    let part = Fenced::new(rng, &part);
    let start = window_start(rng, length as u64 * 8);
    let ours = ours::extract_g_window(part.given(), start, width);
    let rust = rust_window(part.given(), start, width);
    tally.same("windows", ours, rust, || {
        format!(
            "part of {length} bytes {:x?}, start {start}, width {width}",
            part.given()
        )
    })
}

/// Mostly inside, and else at the last bytes, behind the end, or far away.
pub fn window_start(rng: &mut Rng, bits: u64) -> u64 {
    match rng.below(8) {
        0 => bits.saturating_sub(1 + rng.below(48)),
        1 => bits + rng.below(48),
        2 => rng.edge_u64(),
        3 => (rng.edge_u64() / 8) * 8 + rng.below(8),
        _ => rng.below(bits + 1),
    }
}

fn rust_window(part: &[u8], start: u64, width: u32) -> u32 {
    match usize::try_from(start / 8) {
        Ok(byte) if byte < part.len() => {
            bdz::extract_g_window(&part[byte..], None, 0, (start % 8) as u32, width)
        }
        _ => 0,
    }
}
