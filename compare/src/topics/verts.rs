//! The three vertices of a key, for both kinds.

use super::Topic;
use crate::bdz;
use crate::collisions::{crowded_hash, key_of, meetings, Meeting};
use crate::lent::{flag, KeyBytes};
use crate::ours::{self, DONE, NO_ROOM};
use crate::rng::{edges_u32, edges_u64, Rng};
use crate::tally::{Difference, Tally};

const RANDOM: u64 = 1_000_000;
const CROWDED: u64 = 400_000;
/// An m over this is large: keys as they come hardly ever meet there.
const LARGE: u32 = 1 << 16;
/// Sizes that get more keys than chance gives them: 1_230_000 is that of a million keys and
/// 1_320_702_444 that of 2^30 keys, for either kind.
const NAMED_SIZES: [u32; 6] = [
    1_230_000,
    1 << 30,
    1_320_702_443,
    1_320_702_444,
    1_320_702_445,
    u32::MAX,
];

pub const TOPIC: Topic = Topic {
    name: "verts",
    needs: &[
        ("assigned boundary keys", 350_000),
        ("compact boundary keys", 350_000),
        ("assigned random keys", RANDOM),
        ("compact random keys", RANDOM),
        ("assigned crowded keys", CROWDED),
        ("compact crowded keys", CROWDED),
        ("no vertices", 1_000),
        ("out too short", 10_000),
        ("second moves", 10_000),
        ("second wraps", 1_000),
        ("third moves", 10_000),
        ("third moves twice", 1_000),
        ("third wraps", 1_000),
    ],
    run,
};

#[derive(Clone, Copy)]
enum Kind {
    Assigned,
    Compact,
}

fn run(tally: &mut Tally, rng: &mut Rng) -> Result<(), Difference> {
    boundary_keys(tally, rng)?;
    for kind in [Kind::Assigned, Kind::Compact] {
        random_keys(tally, rng, kind)?;
        crowded_keys(tally, rng, kind)?;
        no_vertices(tally, rng, kind)?;
    }
    Ok(())
}

fn boundary_keys(tally: &mut Tally, rng: &mut Rng) -> Result<(), Difference> {
    let keys = edges_u64();
    let seeds = [0, 1, 0x9e37_79b9_7f4a_7c15, 1 << 63, u64::MAX];
    let mut sizes: Vec<u32> = (1..=300).collect();
    sizes.extend(edges_u32().iter().filter(|&&m| m > 300));
    sizes.extend(NAMED_SIZES);
    for m in sizes {
        for seed in seeds {
            let what = "assigned boundary keys";
            check(tally, rng, what, Kind::Assigned, &keys, seed, m)?;
            let what = "compact boundary keys";
            check(tally, rng, what, Kind::Compact, &keys, seed, m)?;
        }
    }
    Ok(())
}

fn random_keys(tally: &mut Tally, rng: &mut Rng, kind: Kind) -> Result<(), Difference> {
    let what = match kind {
        Kind::Assigned => "assigned random keys",
        Kind::Compact => "compact random keys",
    };
    while tally.count(what) < RANDOM {
        let count = rng.below_usize(64);
        let keys = rng.keys(count);
        let (seed, m) = (rng.next_u64(), random_size(rng));
        check(tally, rng, what, kind, &keys, seed, m)?;
        check_short(tally, rng, kind, &keys, seed, m)?;
    }
    Ok(())
}

fn crowded_keys(tally: &mut Tally, rng: &mut Rng, kind: Kind) -> Result<(), Difference> {
    let what = match kind {
        Kind::Assigned => "assigned crowded keys",
        Kind::Compact => "compact crowded keys",
    };
    while tally.count(what) < CROWDED {
        let (seed, m) = (rng.edge_u64(), random_size(rng));
        let hashes: Vec<u64> = (0..8).map(|_| crowded_hash(rng, m)).collect();
        let keys: Vec<u64> = hashes.iter().map(|&hash| key_of(hash, seed)).collect();
        check(tally, rng, what, kind, &keys, seed, m)?;
        if m > LARGE {
            count_meetings(tally, kind, &hashes, m);
        }
    }
    Ok(())
}

/// The counts show that crowded keys do meet where m is large; only the assigned kind moves them.
fn count_meetings(tally: &mut Tally, kind: Kind, hashes: &[u64], m: u32) {
    if matches!(kind, Kind::Compact) {
        return;
    }
    for meeting in hashes.iter().flat_map(|&hash| meetings(hash, m)) {
        let case = match meeting {
            Meeting::SecondMoves => "second moves",
            Meeting::SecondWraps => "second wraps",
            Meeting::ThirdMoves => "third moves",
            Meeting::ThirdMovesTwice => "third moves twice",
            Meeting::ThirdWraps => "third wraps",
        };
        tally.notice(case);
    }
}

/// For m = 0 the vertices are zeros; the Rust has no answer there for the assigned kind.
fn no_vertices(tally: &mut Tally, rng: &mut Rng, kind: Kind) -> Result<(), Difference> {
    let mut keys = edges_u64();
    keys.extend(rng.keys(1_000));
    let seed = rng.next_u64();
    check(tally, rng, "no vertices", kind, &keys, seed, 0)
}

fn random_size(rng: &mut Rng) -> u32 {
    let m = match rng.below(5) {
        0 => rng.edge_u32(),
        1 => rng.below(300) as u32,
        2 => rng.next_u32(),
        3 => NAMED_SIZES[rng.below_usize(NAMED_SIZES.len())],
        _ => rng.any_length_u32(),
    };
    m.max(1)
}

/// The Rust's answer, asked by both of its names.
fn rust_verts(kind: Kind, key: u64, seed: u64, m: u32) -> [u32; 3] {
    if m == 0 {
        return [0; 3];
    }
    let (own, common) = match kind {
        Kind::Assigned => (
            bdz::hash3(key, seed, m),
            bdz::hash_verts(key, seed, m, false),
        ),
        Kind::Compact => (
            bdz::hash3_partite(key, seed, m),
            bdz::hash_verts(key, seed, m, true),
        ),
    };
    assert_eq!(own, common, "the Rust differs from itself");
    own
}

/// Words on each side of what a call is given, which it must leave alone.
const FENCE: usize = 2;

fn check(
    tally: &mut Tally,
    rng: &mut Rng,
    what: &'static str,
    kind: Kind,
    keys: &[u64],
    seed: u64,
    m: u32,
) -> Result<(), Difference> {
    let bytes = KeyBytes::new(rng, keys);
    let compact = flag(rng, matches!(kind, Kind::Compact));
    let length = 3 * keys.len() + rng.below_usize(4);
    let before = rng.words(FENCE + length + FENCE);
    let mut expected = before.clone();
    for (at, &key) in keys.iter().enumerate() {
        let place = FENCE + 3 * at;
        expected[place..place + 3].copy_from_slice(&rust_verts(kind, key, seed, m));
    }
    let mut out = before;
    let given = &mut out[FENCE..FENCE + length];
    let status = ours::hash_verts(bytes.given(), seed, m, compact, given);
    tally.same_all(what, keys.len(), (status, &out), (DONE, &expected), || {
        describe(keys, &bytes, seed, m, compact, length)
    })
}

fn check_short(
    tally: &mut Tally,
    rng: &mut Rng,
    kind: Kind,
    keys: &[u64],
    seed: u64,
    m: u32,
) -> Result<(), Difference> {
    if keys.is_empty() {
        return Ok(());
    }
    let bytes = KeyBytes::new(rng, keys);
    let compact = flag(rng, matches!(kind, Kind::Compact));
    let length = match rng.below(2) {
        0 => 3 * keys.len() - 1,
        _ => rng.below_usize(3 * keys.len()),
    };
    let before = rng.words(FENCE + length + FENCE);
    let mut out = before.clone();
    let given = &mut out[FENCE..FENCE + length];
    let status = ours::hash_verts(bytes.given(), seed, m, compact, given);
    let what = "out too short";
    tally.same(what, (status, &out), (NO_ROOM, &before), || {
        describe(keys, &bytes, seed, m, compact, length)
    })
}

fn describe(
    keys: &[u64],
    bytes: &KeyBytes,
    seed: u64,
    m: u32,
    compact: u32,
    length: usize,
) -> String {
    format!(
        "keys {keys:x?} with the bytes {:x?} behind them, seed {seed:#x}, m {m}, \
         compact {compact}, out of {length} words; the answers are the status and out \
         with {FENCE} words on each side",
        &bytes.given()[keys.len() * 8..]
    )
}
