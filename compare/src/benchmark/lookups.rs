//! Lookups of all keys of an index, and the reading of keys that come as bytes.

use super::clock::{Bench, Row, Start};
use super::kind;
use crate::bdz::BdzMphf;
use crate::ours::{self, Index, DONE};
use crate::topics::builds::{key_bytes, table_of};
use crate::topics::lookup::lent;
use std::hint::black_box;

const ASSIGNED_BUDGET: f64 = 0.9;
const COMPACT_BUDGET: f64 = 1.0;

/// The keys are words on both sides.
pub fn measure(bench: &mut Bench, built: &BdzMphf, keys: &[u64]) {
    let what = &format!("lookup {}", kind(built));
    let mut our_out = vec![0u32; keys.len()];
    let mut rust_out = vec![0u32; keys.len()];
    let row = Row {
        what,
        items: keys.len(),
        starts: Start::BOTH,
        budget: Some(match built.compact {
            Some(_) => COMPACT_BUDGET,
            None => ASSIGNED_BUDGET,
        }),
    };
    bench.beside(
        row,
        || {
            let (keys, index) = (black_box(keys), black_box(lent(built)));
            let status = ours::index_words(keys, index, &mut our_out);
            assert_eq!(status, DONE);
            black_box(&mut our_out);
        },
        || {
            rust_lookups(black_box(built), black_box(keys), &mut rust_out);
            black_box(&mut rust_out);
        },
    );
    let bytes = index_bytes(lent(built)) + 8 * keys.len() + 4 * our_out.len();
    bench.table.note_room(what, bytes, keys.len());
    assert!(our_out == rust_out, "{what}: the answers differ");
}

#[inline(never)]
fn rust_lookups(built: &BdzMphf, keys: &[u64], out: &mut [u32]) {
    let table = table_of(built);
    for (&key, place) in keys.iter().zip(out) {
        *place = built.index_from_g(table, key);
    }
}

/// What is lent of an index.
fn index_bytes(index: Index) -> usize {
    4 * (index.table.len() + index.supers.len()) + index.occupancy.len()
}

/// Lookups with keys that come as bytes.
pub struct ByteLookups<'a> {
    bytes: &'a [u8],
    index: Index<'a>,
    key_room: Vec<u64>,
    pub out: Vec<u32>,
}

impl<'a> ByteLookups<'a> {
    pub fn new(bytes: &'a [u8], index: Index<'a>) -> Self {
        Self {
            bytes,
            index,
            key_room: vec![0; bytes.len() / 8],
            out: vec![0; bytes.len() / 8],
        }
    }

    pub fn run(&mut self) {
        let (bytes, index) = (black_box(self.bytes), black_box(self.index));
        let status = ours::index_batch(bytes, index, &mut self.key_room, &mut self.out);
        assert_eq!(status, DONE);
        black_box(&mut self.out);
    }
}

/// What keys as bytes add to a lookup: an index of no keys answers 0 for each key, once they are read.
/// It has no counterpart in the Rust, whose keys are no bytes, and so no budget.
pub fn measure_reading(bench: &mut Bench, keys: &[u64]) {
    let bytes = key_bytes(keys);
    let empty = BdzMphf::build_compact(&[]).expect("no keys are accepted");
    let mut reading = ByteLookups::new(&bytes, lent(&empty));
    let row = Row {
        what: "keys read alone",
        items: keys.len(),
        starts: Start::BOTH,
        budget: None,
    };
    bench.alone(row, &mut reading, |_| (), ByteLookups::run);
}
