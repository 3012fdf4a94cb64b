//! The ones of an occupancy: between two places, before each block of 512 bits, and below a vertex.

use super::pack::words;
use super::unpack::window_start;
use super::Topic;
use crate::bdz::{self, CompactRank, OccBits, RANK_SUPER_BITS};
use crate::lent::{lengthened, shorter, Fenced, Left, Lent};
use crate::model::rank::needs;
use crate::ours::{self, DONE, NO_ROOM, OCC_TRUNCATED};
use crate::rng::{occupancy, Rng, OCCUPANCIES, SIZES};
use crate::tally::{listed, Difference, Tally};

/// Sizes up to this are drawn besides.
const LARGEST: u64 = 4_000;
const DRAWN: usize = 60;
/// That of a million keys: its super counts alone are compared.
const LONG: u32 = 1_230_000;
const WINDOWS: u64 = 400_000;
/// How far past the end of the bytes the Rust is let walk.
const FAR: u64 = 1_000;

pub const TOPIC: Topic = Topic {
    name: "ranks",
    needs: &[
        ("ones of small windows", 30_000),
        ("ones of windows", WINDOWS),
        ("window past the end", WINDOWS / 10),
        (
            "super counts",
            2 * (SIZES.len() + DRAWN + 1) as u64 * OCCUPANCIES,
        ),
        ("ranks", 300_000),
        ("ranks past m", 4_000),
        ("ranks by other super counts", 300_000),
        ("ones that wrap", 10_000),
        ("occupancy too short", 15_000),
        ("super counts too short", 7_500),
    ],
    run,
};

fn run(tally: &mut Tally, rng: &mut Rng) -> Result<(), Difference> {
    small_windows(tally, rng)?;
    while tally.count("ones of windows") < WINDOWS {
        windows(tally, rng)?;
    }
    let drawn: Vec<u32> = (0..DRAWN).map(|_| rng.below(LARGEST + 1) as u32).collect();
    for m in SIZES.into_iter().chain(drawn) {
        for kind in 0..OCCUPANCIES {
            let occupancy = occupancy(rng, needs(m).0, kind);
            super_counts(tally, rng, m, &occupancy)?;
            ranks(tally, rng, m, &occupancy)?;
            short_buffers(tally, rng, m, &occupancy)?;
        }
    }
    for kind in 0..OCCUPANCIES {
        let occupancy = occupancy(rng, needs(LONG).0, kind);
        super_counts(tally, rng, LONG, &occupancy)?;
    }
    Ok(())
}

/// The Rust's form of what is lent: it keeps the same bytes in words.
pub fn rust_rank(m: u32, occupancy: &[u8], supers: &[u32]) -> CompactRank {
    let word = |bytes: &[u8]| {
        let mut whole = [0; 8];
        whole[..bytes.len()].copy_from_slice(bytes);
        u64::from_ne_bytes(whole)
    };
    CompactRank {
        m,
        occ: OccBits::Words(occupancy.chunks(8).map(word).collect()),
        supers: supers.into(),
    }
}

/// The rank modulo 2^32 where the sum in it does not fit, as it can with super counts of another
/// occupancy. Document 01 has it so; the Rust ends in a panic there if it is built with overflow
/// checks.
pub fn wrapped_rank(rank: &CompactRank, v: u32) -> Option<u32> {
    let v = v.min(rank.m);
    let block = v / RANK_SUPER_BITS;
    let start = block * RANK_SUPER_BITS;
    let ones = bdz::popcount_bits(rank.occ_bytes(), start as usize, v as usize);
    match rank.supers[block as usize].overflowing_add(ones) {
        (sum, true) => Some(sum),
        _ => None,
    }
}

/// Every window of a few bytes, and those that reach past their end.
fn small_windows(tally: &mut Tally, rng: &mut Rng) -> Result<(), Difference> {
    for bytes in 0..=4 {
        for kind in 0..OCCUPANCIES {
            let occupancy = occupancy(rng, bytes, kind);
            let occupancy = Fenced::new(rng, &occupancy);
            let end = bytes as u64 * 8 + 20;
            for (lo, hi) in (0..=end).flat_map(|lo| (0..=end).map(move |hi| (lo, hi))) {
                window(tally, "ones of small windows", occupancy.given(), lo, hi)?;
            }
        }
    }
    Ok(())
}

/// Windows of more bytes, mostly inside.
fn windows(tally: &mut Tally, rng: &mut Rng) -> Result<(), Difference> {
    let (bytes, kind) = (rng.below_usize(400), rng.below(OCCUPANCIES));
    let occupancy = occupancy(rng, bytes, kind);
    let occupancy = Fenced::new(rng, &occupancy);
    let bits = bytes as u64 * 8;
    for _ in 0..100 {
        let (lo, hi) = (window_start(rng, bits), window_start(rng, bits));
        window(tally, "ones of windows", occupancy.given(), lo, hi)?;
        let near = lo.saturating_add(rng.below(80));
        window(tally, "ones of windows", occupancy.given(), lo, near)?;
        if hi > bits {
            tally.notice("window past the end");
        }
    }
    Ok(())
}

fn window(
    tally: &mut Tally,
    what: &'static str,
    occupancy: &[u8],
    lo: u64,
    hi: u64,
) -> Result<(), Difference> {
    let ours = ours::popcount_bits(occupancy, lo, hi);
    let rust = rust_ones(occupancy, lo, hi);
    tally.same(what, ours, rust, || {
        format!("{}, from {lo} on, below {hi}", listed("bytes", occupancy))
    })
}

/// The Rust walks on past the end of the bytes, where it finds no ones, so it is kept from walking
/// there for ever.
fn rust_ones(occupancy: &[u8], lo: u64, hi: u64) -> u32 {
    let end = occupancy.len() as u64 * 8;
    let hi = hi.min(lo.max(end).saturating_add(FAR));
    bdz::popcount_bits(occupancy, lo as usize, hi as usize)
}

/// The ones below every place up to m, counted one after the other.
fn counted(occupancy: &[u8], m: u32) -> Vec<u32> {
    let mut below = vec![0];
    for v in 0..m as usize {
        let bit = occupancy[v / 8] >> (v % 8) & 1;
        below.push(below[v] + u32::from(bit));
    }
    below
}

/// In buffers that are exact and in longer ones.
fn super_counts(
    tally: &mut Tally,
    rng: &mut Rng,
    m: u32,
    occupancy: &[u8],
) -> Result<(), Difference> {
    let what = "super counts";
    let room = needs(m).1;
    supers_of(tally, rng, what, m, occupancy, room, DONE)?;
    let longer = lengthened(rng, occupancy);
    let more = room + 1 + rng.below_usize(8);
    supers_of(tally, rng, what, m, &longer, more, DONE)
}

/// Asks for the super counts in a dirty buffer of `room` words, and expects this status.
fn supers_of(
    tally: &mut Tally,
    rng: &mut Rng,
    what: &'static str,
    m: u32,
    occupancy: &[u8],
    room: usize,
    status: u32,
) -> Result<(), Difference> {
    let given = Fenced::new(rng, occupancy);
    let mut supers = Lent::new(rng, room);
    let ours = ours::supers_from_occ_bytes(m, given.given(), supers.given_mut());
    let rust = bdz::supers_from_occ_bytes(occupancy, m);
    let left = match status {
        DONE => Left::New(&rust[..]),
        _ => Left::Untouched,
    };
    let fault = supers.fault("supers", left);
    tally.same(what, (ours, fault), (status, None), || {
        format!(
            "m {m}, {}, room for {room} super counts; the answers are the status and the first \
             super count that is not as it must be",
            listed("bytes", occupancy)
        )
    })
}

/// The rank of every vertex, by the super counts of the occupancy and by others.
fn ranks(tally: &mut Tally, rng: &mut Rng, m: u32, occupancy: &[u8]) -> Result<(), Difference> {
    let supers = bdz::supers_from_occ_bytes(occupancy, m);
    let rank = rust_rank(m, occupancy, &supers);
    for (v, below) in counted(occupancy, m).into_iter().enumerate() {
        assert_eq!(rank.rank1(v as u32), below, "the Rust miscounts");
    }
    all_ranks(tally, rng, "ranks", &rank)?;
    let others = words(rng, supers.len());
    let rank = rust_rank(m, occupancy, &others);
    all_ranks(tally, rng, "ranks by other super counts", &rank)
}

/// Every vertex, and some past m.
fn all_ranks(
    tally: &mut Tally,
    rng: &mut Rng,
    what: &'static str,
    rank: &CompactRank,
) -> Result<(), Difference> {
    let m = rank.m;
    let occupancy = lengthened(rng, rank.occ_bytes());
    let supers = lengthened(rng, &rank.supers);
    let (occupancy, supers) = (Fenced::new(rng, &occupancy), Fenced::new(rng, &supers));
    let mut check = |what, v| {
        let wrapped = wrapped_rank(rank, v);
        if wrapped.is_some() {
            tally.notice("ones that wrap");
        }
        let agreed = wrapped.unwrap_or_else(|| rank.rank1(v));
        let (occupancy, supers) = (occupancy.given(), supers.given());
        rank_of(tally, what, occupancy, supers, m, v, (DONE, agreed))
    };
    for v in 0..=m {
        check(what, v)?;
    }
    let past = [1, 2, 511, 512, 513].map(|more| m + more);
    for v in past.into_iter().chain([rng.edge_u32().max(m), u32::MAX]) {
        check("ranks past m", v)?;
    }
    Ok(())
}

fn rank_of(
    tally: &mut Tally,
    what: &'static str,
    occupancy: &[u8],
    supers: &[u32],
    m: u32,
    v: u32,
    expected: (u32, u32),
) -> Result<(), Difference> {
    let ours = ours::rank1(occupancy, supers, m, v);
    tally.same(what, ours, expected, || {
        format!(
            "m {m}, vertex {v}, {}, {}; the answers are the status and the rank",
            listed("bytes", occupancy),
            listed("super counts", supers)
        )
    })
}

/// Document 01: "super counts: 12, 14". A rank is refused where they are.
fn short_buffers(
    tally: &mut Tally,
    rng: &mut Rng,
    m: u32,
    occupancy: &[u8],
) -> Result<(), Difference> {
    let (bytes, count) = needs(m);
    let any_room = [count, count + rng.below_usize(9), count - 1, 0];
    for bytes in shorter(rng, bytes) {
        for room in any_room {
            let (what, occupancy) = ("occupancy too short", &occupancy[..bytes]);
            refuse(tally, rng, what, m, occupancy, room, OCC_TRUNCATED)?;
        }
    }
    for room in shorter(rng, count) {
        let what = "super counts too short";
        refuse(tally, rng, what, m, occupancy, room, NO_ROOM)?;
        let longer = lengthened(rng, occupancy);
        refuse(tally, rng, what, m, &longer, room, NO_ROOM)?;
    }
    Ok(())
}

/// Neither the super counts nor a rank by them.
fn refuse(
    tally: &mut Tally,
    rng: &mut Rng,
    what: &'static str,
    m: u32,
    occupancy: &[u8],
    room: usize,
    status: u32,
) -> Result<(), Difference> {
    supers_of(tally, rng, what, m, occupancy, room, status)?;
    let supers = words(rng, room);
    let (given, supers) = (Fenced::new(rng, occupancy), Fenced::new(rng, &supers));
    for v in [0, m, rng.below(u64::from(m) + 1) as u32, rng.edge_u32()] {
        let (occupancy, supers) = (given.given(), supers.given());
        rank_of(tally, what, occupancy, supers, m, v, (status, 0))?;
    }
    Ok(())
}
