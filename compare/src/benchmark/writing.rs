//! The writing of images.

use super::clock::{Bench, Row, Start};
use super::{kind, width_of};
use crate::bdz::{self, BdzMphf, CompactRank, OccBits};
use crate::ours::{self, DONE};
use crate::topics::builds::table_of;
use crate::topics::lookup::lent;
use std::hint::black_box;

const BUDGET: f64 = 1.0;

/// The image of an index.
pub fn measure(bench: &mut Bench, built: &BdzMphf) {
    let what = &format!("write {}", kind(built));
    let index = lent(built);
    let length = ours::image_len(index.compact, index.n, index.m, index.modulus) as usize;
    let mut our_image = vec![0u8; length];
    let mut rust_image = Vec::with_capacity(length);
    let row = Row {
        what,
        items: built.n as usize,
        starts: Start::WARM,
        budget: Some(BUDGET),
    };
    bench.beside(
        row,
        || {
            let status = ours::write_image(black_box(index), &mut our_image);
            assert_eq!(status, DONE);
            black_box(&mut our_image);
        },
        || {
            rust_image.clear();
            rust_write(black_box(built), &mut rust_image);
            black_box(&mut rust_image);
        },
    );
    let bytes = 4 * index.table.len() + index.occupancy.len() + length;
    bench.table.note_room(what, bytes, built.n as usize);
    assert!(our_image == rust_image, "{what}: the images differ");
}

fn rust_write(built: &BdzMphf, image: &mut Vec<u8>) {
    match &built.compact {
        Some(rank) => rust_compact(built, rank, image),
        None => rust_packed(built, image),
    }
}

/// What `write_packed_to` does, without the file.
#[inline(never)]
fn rust_packed(built: &BdzMphf, image: &mut Vec<u8>) {
    let width = width_of(built);
    image.extend_from_slice(&rust_header(built, bdz::MAGIC2, built.modulus, width));
    let written = bdz::pack_g_write(table_of(built), width, image);
    written.expect("a vector takes every byte");
}

/// What `write_compact_to` does, without the file.
#[inline(never)]
fn rust_compact(built: &BdzMphf, rank: &CompactRank, image: &mut Vec<u8>) {
    let width = width_of(built);
    image.extend_from_slice(&rust_header(built, bdz::MAGIC3, 0, width));
    let OccBits::Words(words) = &rank.occ else {
        panic!("the Rust builds in memory");
    };
    bdz::pack_g_write(table_of(built), width, image)
        .and_then(|()| bdz::write_occ(words, rank.m, image))
        .expect("a vector takes every byte");
}

/// Both writers put their header together like this.
fn rust_header(built: &BdzMphf, magic: &[u8; 4], modulus: u32, width: u32) -> [u8; 32] {
    let mut header = [0; 32];
    header[0..4].copy_from_slice(magic);
    header[4..8].copy_from_slice(&bdz::VERSION.to_le_bytes());
    header[8..12].copy_from_slice(&built.n.to_le_bytes());
    header[12..16].copy_from_slice(&built.m.to_le_bytes());
    header[16..24].copy_from_slice(&built.seed.to_le_bytes());
    header[24..28].copy_from_slice(&modulus.to_le_bytes());
    header[28..32].copy_from_slice(&width.to_le_bytes());
    header
}
