//! What the others are made of: vertices, packing and unpacking, and super counts.

use super::clock::{Bench, Row, Start};
use super::{kind, width_of};
use crate::bdz::{self, BdzMphf};
use crate::expressions;
use crate::ours::{self, DONE};
use crate::rng::Rng;
use crate::topics::builds::{key_bytes, table_of};
use crate::topics::pack::rust_body;
use std::hint::black_box;

const WIDTHS: [u32; 8] = [1, 2, 3, 8, 13, 20, 30, 32];
const VERTICES_BUDGET: f64 = 1.1;
const PACKING_BUDGET: f64 = 1.0;
const UNPACKING_BUDGET: f64 = 1.0;
const SUPERS_BUDGET: f64 = 1.0;

pub fn measure(bench: &mut Bench, rng: &mut Rng) {
    assigned_vertices(bench, rng);
    compact_vertices(bench, rng);
    for width in WIDTHS {
        packing(bench, rng, width);
    }
    for width in WIDTHS {
        let body = rust_body(&rng.words(bench.keys()), width);
        let what = &format!("unpacking, width {width}, a word");
        unpacking(bench, what, (&body, width), bench.keys());
    }
    super_counts(bench, rng);
}

fn warm(what: &str, items: usize, budget: f64) -> Row<'_> {
    Row {
        what,
        items,
        starts: Start::WARM,
        budget: Some(budget),
    }
}

fn assigned_vertices(bench: &mut Bench, rng: &mut Rng) {
    let m = expressions::assigned_vertices(bench.keys() as u32) as u32;
    vertices(
        bench,
        rng,
        "vertices assigned",
        (0, m),
        rust_assigned_vertices,
    );
}

fn compact_vertices(bench: &mut Bench, rng: &mut Rng) {
    let m = bdz::compact_vertex_count(bench.keys() as u32);
    vertices(
        bench,
        rng,
        "vertices compact",
        (1, m),
        rust_compact_vertices,
    );
}

type RustVertices = fn(&[u64], u64, u32, &mut [u32]);

fn vertices(
    bench: &mut Bench,
    rng: &mut Rng,
    what: &str,
    (compact, m): (u32, u32),
    rust: RustVertices,
) {
    let keys = rng.keys(bench.keys());
    let bytes = key_bytes(&keys);
    let seed = rng.next_u64();
    let mut our_out = vec![0u32; 3 * keys.len()];
    let mut rust_out = vec![0u32; 3 * keys.len()];
    bench.beside(
        warm(what, keys.len(), VERTICES_BUDGET),
        || {
            let bytes = black_box(&bytes[..]);
            let status =
                ours::hash_verts(bytes, black_box(seed), black_box(m), compact, &mut our_out);
            assert_eq!(status, DONE);
            black_box(&mut our_out);
        },
        || {
            let keys = black_box(&keys[..]);
            rust(keys, black_box(seed), black_box(m), &mut rust_out);
            black_box(&mut rust_out);
        },
    );
    assert!(our_out == rust_out, "{what}: the answers differ");
}

#[inline(never)]
fn rust_assigned_vertices(keys: &[u64], seed: u64, m: u32, out: &mut [u32]) {
    for (&key, place) in keys.iter().zip(out.chunks_exact_mut(3)) {
        place.copy_from_slice(&bdz::hash3(key, seed, m));
    }
}

#[inline(never)]
fn rust_compact_vertices(keys: &[u64], seed: u64, m: u32, out: &mut [u32]) {
    for (&key, place) in keys.iter().zip(out.chunks_exact_mut(3)) {
        place.copy_from_slice(&bdz::hash3_partite(key, seed, m));
    }
}

fn packing(bench: &mut Bench, rng: &mut Rng, width: u32) {
    let what = &format!("packing, width {width}, a word");
    let words = rng.words(bench.keys());
    let length = bdz::packed_g_bytes(words.len() as u32, width) as usize;
    let mut our_body = vec![0u8; length];
    let mut rust_body = Vec::with_capacity(length);
    bench.beside(
        warm(what, words.len(), PACKING_BUDGET),
        || {
            let status = ours::pack_g(black_box(&words), black_box(width), &mut our_body);
            assert_eq!(status, DONE);
            black_box(&mut our_body);
        },
        || {
            rust_body.clear();
            let written = bdz::pack_g_write(black_box(&words), black_box(width), &mut rust_body);
            written.expect("a vector takes every byte");
            black_box(&mut rust_body);
        },
    );
    assert!(our_body == rust_body, "{what}: the bodies differ");
}

/// The whole table of an image.
pub fn measure_table(bench: &mut Bench, built: &BdzMphf) {
    let width = width_of(built);
    let body = rust_body(table_of(built), width);
    let what = &format!("unpack {}", kind(built));
    unpacking(bench, what, (&body, width), built.m as usize);
    bench
        .table
        .note_room(what, body.len() + 4 * built.m as usize, built.n as usize);
}

/// So many words; the time is a key's, or a word's where there are as many as keys.
fn unpacking(bench: &mut Bench, what: &str, (body, width): (&[u8], u32), words: usize) {
    let mut our_words = vec![0u32; words];
    let mut rust_words = vec![0u32; words];
    bench.beside(
        warm(what, bench.keys(), UNPACKING_BUDGET),
        || {
            ours::unpack_g(black_box(body), black_box(width), &mut our_words);
            black_box(&mut our_words);
        },
        || {
            rust_unpacking(black_box(body), black_box(width), &mut rust_words);
            black_box(&mut rust_words);
        },
    );
    assert!(our_words == rust_words, "{what}: the words differ");
}

#[inline(never)]
fn rust_unpacking(body: &[u8], width: u32, out: &mut [u32]) {
    for (v, place) in out.iter_mut().enumerate() {
        *place = bdz::unpack_g_at(body, v as u32, width);
    }
}

/// Those of an occupancy as long as a compact index of that size has.
fn super_counts(bench: &mut Bench, rng: &mut Rng) {
    let m = bdz::compact_vertex_count(bench.keys() as u32);
    let occupancy = rng.bytes(m.div_ceil(8) as usize);
    let mut our_supers = vec![0u32; expressions::supers(m) as usize];
    let mut rust_supers = Box::default();
    bench.beside(
        warm("super counts, a byte", occupancy.len(), SUPERS_BUDGET),
        || {
            let (m, occupancy) = (black_box(m), black_box(&occupancy[..]));
            let status = ours::supers_from_occ_bytes(m, occupancy, &mut our_supers);
            assert_eq!(status, DONE);
            black_box(&mut our_supers);
        },
        || {
            let (m, occupancy) = (black_box(m), black_box(&occupancy[..]));
            rust_supers = bdz::supers_from_occ_bytes(occupancy, m);
            black_box(&mut rust_supers);
        },
    );
    assert!(our_supers[..] == rust_supers[..], "the super counts differ");
}
