//! The rows of docs/DIFFERENCES.md that a call of each side shows: the smallest input, on both
//! sides. Those of builds and of the feed are in the comparison's own topics.

#![cfg(source_at_hand)]

use compare::bdz::{self, BdzMphf, CompactRank, GStore, OccBits};
use compare::ours::{self, BAD_WIDTH, DONE, NO_ROOM, OCC_TRUNCATED, ZERO_MODULUS};
use compare::IoCtx;
use std::panic::{catch_unwind, set_hook, take_hook, UnwindSafe};
use std::sync::Mutex;

/// One panic at a time, so that none is printed.
static QUIET: Mutex<()> = Mutex::new(());

fn panics<T>(call: impl FnOnce() -> T + UnwindSafe) -> bool {
    let _quiet = QUIET.lock();
    let printed = take_hook();
    set_hook(Box::new(|_| ()));
    let ended = catch_unwind(call);
    set_hook(printed);
    ended.is_err()
}

fn rank(m: u32, occupancy: &[u64], supers: &[u32]) -> CompactRank {
    CompactRank {
        m,
        occ: OccBits::Words(occupancy.into()),
        supers: supers.into(),
    }
}

fn index(n: u32, m: u32, modulus: u32, table: &[u32], compact: Option<CompactRank>) -> BdzMphf {
    BdzMphf {
        n,
        m,
        seed: 0,
        modulus,
        g: GStore::Ram(table.into()),
        compact,
    }
}

/// Ours, of the same numbers and lent slices.
fn lent<'a>(
    compact: u32,
    n: u32,
    m: u32,
    modulus: u32,
    table: &'a [u32],
    supers: &'a [u32],
) -> ours::Index<'a> {
    ours::Index {
        compact,
        n,
        m,
        seed: 0,
        modulus,
        table,
        occupancy: &[],
        supers,
    }
}

/// The status and the answer to key 0.
fn answer(index: ours::Index) -> (u32, u32) {
    let mut out = [7];
    (ours::index_words(&[0], index, &mut out), out[0])
}

#[test]
fn no_vertices() {
    assert!(panics(|| bdz::hash3(0, 0, 0)));
    let mut out = [7; 3];
    assert_eq!(ours::hash_verts(&[0; 8], 0, 0, 0, &mut out), DONE);
    assert_eq!(out, [0; 3]);
}

#[test]
fn vertex_counts_above_32_bits() {
    let n = 3_491_843_330;
    assert_eq!(
        u64::from(bdz::compact_vertex_count(n - 1)),
        ours::compact_vertex_count(n - 1)
    );
    assert_eq!(bdz::compact_vertex_count(n), 2);
    assert_eq!(ours::compact_vertex_count(n), 4_294_967_298);
    assert_eq!(ours::vertex_count(n - 1), u64::from(u32::MAX));
    assert_eq!(ours::vertex_count(n), 1 << 32);
}

#[test]
fn packing_at_no_width_and_at_a_width_over_32() {
    for width in [0, 33] {
        let mut written = Vec::new();
        // with overflow checks, which this build has not, the Rust ends in a panic at 33
        assert!(bdz::pack_g_write(&[], width, &mut written).is_ok());
        assert!(written.is_empty());
        assert_eq!(ours::pack_g(&[], width, &mut []), BAD_WIDTH);
    }
    assert_eq!(ours::pack_g(&[0], 1, &mut []), NO_ROOM);
}

#[test]
fn ranks() {
    assert!(panics(|| rank(0, &[], &[]).rank1(0)));
    assert_eq!(ours::rank1(&[], &[], 0, 0), (NO_ROOM, 0));
    assert_eq!(rank(1, &[], &[0, 0]).rank1(0), 0);
    assert_eq!(ours::rank1(&[], &[0, 0], 1, 0), (OCC_TRUNCATED, 0));
    // here as there, but for overflow checks, with which the Rust ends in a panic
    assert_eq!(rank(1, &[1], &[u32::MAX, 0]).rank1(1), 0);
    assert_eq!(ours::rank1(&[1], &[u32::MAX, 0], 1, 1), (DONE, 0));
}

#[test]
fn super_counts() {
    assert_eq!(*bdz::supers_from_occ_bytes(&[], 1), [0, 0]);
    let mut supers = [7, 7];
    assert_eq!(
        ours::supers_from_occ_bytes(1, &[], &mut supers),
        OCC_TRUNCATED
    );
    assert_eq!(supers, [7, 7]);
    assert_eq!(*bdz::supers_from_occ_bytes(&[], 0), [0]);
    assert_eq!(ours::supers_from_occ_bytes(0, &[], &mut []), NO_ROOM);
}

#[test]
fn ones_from_2_to_the_32_on() {
    let occupancy = vec![0xff; 1 << 29];
    let most = (1_u64 << 32) - 1;
    assert_eq!(bdz::popcount_bits(&occupancy, 0, most as usize), u32::MAX);
    assert_eq!(ours::popcount_bits(&occupancy, 0, most), u32::MAX);
    // one more: here 0; there too, but for overflow checks, with which the Rust ends in a panic
    assert_eq!(bdz::popcount_bits(&occupancy, 0, 1 << 32), 0);
    assert_eq!(ours::popcount_bits(&occupancy, 0, 1 << 32), 0);
}

#[test]
fn lookups() {
    let ask = |index: BdzMphf| index.index_batch(&[0], &mut IoCtx::none()).unwrap()[0];
    assert!(panics(|| ask(index(2, 1, 1, &[], None))));
    assert_eq!(answer(lent(0, 2, 1, 1, &[], &[])), (NO_ROOM, 7));
    assert_eq!(ask(index(2, 1, 1, &[0], Some(rank(1, &[], &[0, 0])))), 0);
    assert_eq!(answer(lent(1, 2, 1, 1, &[0], &[0, 0])), (OCC_TRUNCATED, 7));
    assert_eq!(
        ours::index_words(&[0], lent(0, 0, 0, 0, &[], &[]), &mut []),
        NO_ROOM
    );
}

/// What a lookup of fewer than two keys never asks the Rust, and a caller of its own can: here the
/// first word, or 0, as a lookup has it.
#[test]
fn finishing_fewer_than_two_keys() {
    for n in [0, 1] {
        assert_eq!(index(n, 1, 2, &[0], None).finish_index(0, 0, 1, [0; 3]), 1);
        assert_eq!(answer(lent(0, n, 1, 2, &[0], &[])), (DONE, 0));
    }
    for n in [0, 2] {
        assert!(panics(
            || index(n, 1, 0, &[0], None).finish_index(0, 0, 0, [0; 3])
        ));
    }
    assert_eq!(answer(lent(0, 2, 1, 0, &[0], &[])), (ZERO_MODULUS, 7));
}
