//! The list of the Rust's answers: only the Rust is asked here, and the list is always the same.

use crate::bdz::{self, BdzMphf};
use crate::collisions::{crowded_hash, key_of, Crowd};
use crate::expressions::{assigned_vertices, LAST_FITTING_N};
use crate::rng::{edges_u64, Rng};

const SEED: u64 = 0x0bd2_0000_0000_0001;
const MOST_NUMBERS: usize = 100;
const MOST_CHARACTERS: usize = 900;
const MOST_BYTES: usize = 60 * 1024;
/// Larger indexes are not built for the list.
const MOST_BUILT: u32 = 10_000;

const HEAD: &str = "\
# Answers of the Rust, made by the program `record` of the crate `compare`.
# `make record` remakes this list.
# Source: bdz.rs of the repository reardencode/rbitcoin, commit aa5c3c7c8c.
# One question a line: a letter, then numbers in hexadecimal.
# s STATE STATE_AFTER SEED: splitmix64
# m K H: mix64
# a KEY SEED M A B C: hash3
# c KEY SEED M A B C: hash3_partite
# w MODULUS WIDTH: g_bits_for_modulus
# v N ASSIGNED COMPACT: counts of vertices
# b WORDS WIDTH BYTES: packed_g_bytes
# o M OCC_BYTES SUPERS: occ_packed_bytes and the length of the super counts
# p WIDTH COUNT NBYTES WORD*COUNT BYTE*NBYTES: pack_g_write
";

pub fn text() -> String {
    let mut list = List(HEAD.to_string());
    let mut rng = Rng::new(SEED);
    splitmix64(&mut list, &mut rng);
    mix64(&mut list, &mut rng);
    vertices(&mut list, &mut rng, 'a', bdz::hash3);
    vertices(&mut list, &mut rng, 'c', bdz::hash3_partite);
    widths(&mut list, &mut rng);
    vertex_counts(&mut list, &mut rng);
    packed_bytes(&mut list, &mut rng);
    occupancy(&mut list, &mut rng);
    bodies(&mut list, &mut rng);
    assert!(list.0.len() < MOST_BYTES, "the list is too long");
    list.0
}

struct List(String);

impl List {
    fn line(&mut self, letter: char, numbers: &[u64]) {
        let mut line = letter.to_string();
        for number in numbers {
            line += &format!(" {number:x}");
        }
        assert!(numbers.len() <= MOST_NUMBERS && line.len() < MOST_CHARACTERS);
        self.0 += &line;
        self.0.push('\n');
    }
}

/// A few boundary values, since all of them would make the list long.
fn some_edges_u64() -> Vec<u64> {
    edges_u64().into_iter().step_by(7).skip(1).collect()
}

fn splitmix64(list: &mut List, rng: &mut Rng) {
    let mut states = vec![0, 1, 0x9e37_79b9_7f4a_7c15, u64::MAX];
    states.extend(some_edges_u64());
    states.extend(rng.keys(20));
    for state in states {
        let mut after = state;
        let seed = bdz::splitmix64(&mut after);
        list.line('s', &[state, after, seed]);
    }
}

fn mix64(list: &mut List, rng: &mut Rng) {
    let mut values = vec![0, 1, u64::MAX];
    values.extend(some_edges_u64());
    values.extend(rng.keys(20));
    for k in values {
        list.line('m', &[k, bdz::mix64(k)]);
    }
}

type Hash = fn(u64, u64, u32) -> [u32; 3];

fn vertices(list: &mut List, rng: &mut Rng, letter: char, hash: Hash) {
    let sizes = [1, 2, 3, 4, 5, 6, 7, 9, 256, 300, 65_537, 1_230_000, 1 << 30];
    let large = [1_320_702_444, 1 << 31, u32::MAX - 2, u32::MAX];
    for m in sizes.into_iter().chain(large) {
        let (key, seed) = (rng.edge_u64(), rng.edge_u64());
        line_of_vertices(list, letter, hash, key, seed, m);
    }
    for m in sizes.into_iter().chain(large) {
        let seed = rng.next_u64();
        let key = key_of(crowded_hash(rng, m), seed);
        line_of_vertices(list, letter, hash, key, seed, m);
    }
    // The hashes whose bits are all alike: the three products are one at every m.
    for (hash_value, m) in [(0, u32::MAX), (u64::MAX, u32::MAX), (u64::MAX, 3)] {
        let seed = rng.next_u64();
        let key = key_of(hash_value, seed);
        line_of_vertices(list, letter, hash, key, seed, m);
    }
    for _ in 0..30 {
        let (key, seed) = (rng.next_u64(), rng.next_u64());
        let m = rng.any_length_u32().max(1);
        line_of_vertices(list, letter, hash, key, seed, m);
    }
}

fn line_of_vertices(list: &mut List, letter: char, hash: Hash, key: u64, seed: u64, m: u32) {
    let [first, second, third] = hash(key, seed, m).map(u64::from);
    list.line(letter, &[key, seed, u64::from(m), first, second, third]);
}

fn widths(list: &mut List, rng: &mut Rng) {
    let mut moduli = vec![0, 1, 2, 3, 4, 5, 6, 7, 8, 9, 255, 256, 257, 65_535, 65_536];
    moduli.extend([65_537, 1 << 30, (1 << 30) + 1]);
    moduli.extend([
        (1 << 31) - 1,
        1 << 31,
        (1 << 31) + 1,
        u32::MAX - 1,
        u32::MAX,
    ]);
    moduli.extend((0..25).map(|_| rng.any_length_u32()));
    for modulus in moduli {
        let width = bdz::g_bits_for_modulus(modulus);
        list.line('w', &[modulus, width].map(u64::from));
    }
}

fn vertex_counts(list: &mut List, rng: &mut Rng) {
    let mut counts: Vec<u32> = (2..=20).collect();
    counts.extend([99, 100, 101, 200, 201, 1_000, 9_999, 10_000, 1_000_000]);
    counts.extend([(1 << 30) - 1, 1 << 30, (1 << 30) + 1, 1 << 31]);
    counts.extend([LAST_FITTING_N - 1, LAST_FITTING_N]);
    counts.extend((0..10).map(|_| 2 + rng.below(u64::from(MOST_BUILT)) as u32));
    counts.extend((0..20).map(|_| 2 + rng.below(u64::from(LAST_FITTING_N) - 2) as u32));
    for n in counts {
        let assigned = match n {
            0..=MOST_BUILT => assigned_vertices_of_build(rng, n),
            _ => assigned_vertices(n),
        };
        let compact = u64::from(bdz::compact_vertex_count(n));
        list.line('v', &[u64::from(n), assigned, compact]);
    }
}

/// The Rust computes this count inside its build only.
fn assigned_vertices_of_build(rng: &mut Rng, n: u32) -> u64 {
    let values: Vec<u32> = (0..n).collect();
    loop {
        // Keys that do not peel are drawn again.
        if let Ok(built) = BdzMphf::build_assigned(&rng.keys(n as usize), &values, n) {
            return u64::from(built.m);
        }
    }
}

fn packed_bytes(list: &mut List, rng: &mut Rng) {
    for words in [0, 1, 7, 8, 9, u32::MAX] {
        for width in [1, 2, 8, 31, 32] {
            line_of_bytes(list, words, width);
        }
    }
    for _ in 0..30 {
        let words = rng.any_length_u32();
        let width = 1 + rng.below(32) as u32;
        line_of_bytes(list, words, width);
    }
}

fn line_of_bytes(list: &mut List, words: u32, width: u32) {
    let bytes = bdz::packed_g_bytes(words, width);
    list.line('b', &[u64::from(words), u64::from(width), bytes]);
}

fn occupancy(list: &mut List, rng: &mut Rng) {
    let mut sizes = vec![0, 1, 7, 8, 9, 511, 512, 513, 1_023, 1_024, 1_025, 1_230_000];
    sizes.extend([1 << 20, (1 << 20) + 1, 1 << 30, u32::MAX]);
    sizes.extend((0..25).map(|_| rng.any_length_u32() >> 6));
    for m in sizes {
        // No bit is set, since only the length of the answer counts.
        let supers = bdz::supers_from_occ_bytes(&[], m).len() as u64;
        list.line('o', &[u64::from(m), bdz::occ_packed_bytes(m), supers]);
    }
}

fn bodies(list: &mut List, rng: &mut Rng) {
    for width in [1, 7, 8, 32] {
        line_of_body(list, width, &[]);
        line_of_body(list, width, &[u32::MAX]);
    }
    for width in 1..=32 {
        let count = 8 + rng.below_usize(5);
        line_of_body(list, width, &rng.words(count));
    }
    for width in 1..=32 {
        let count = 1 + rng.below_usize(most_words(width));
        let words: Vec<u32> = (0..count).map(|_| rng.edge_u32()).collect();
        line_of_body(list, width, &words);
    }
}

/// How many words fit a line together with their bytes.
fn most_words(width: u32) -> usize {
    (MOST_NUMBERS - 4) * 8 / (8 + width as usize)
}

fn line_of_body(list: &mut List, width: u32, words: &[u32]) {
    let mut body = Vec::new();
    bdz::pack_g_write(words, width, &mut body).expect("a vector takes every byte");
    let mut numbers = vec![u64::from(width), words.len() as u64, body.len() as u64];
    numbers.extend(words.iter().map(|&word| u64::from(word)));
    numbers.extend(body.iter().map(|&byte| u64::from(byte)));
    list.line('p', &numbers);
}

/// A compact key list, as document 01 has it, of keys that peel with the first seed but for `count`
/// of them that meet on one vertex.
pub fn crowded_list(count: usize) -> Vec<u8> {
    let crowd = Crowd {
        compact: true,
        place: 1,
        turned: false,
        count,
    };
    let mut state = 0x9e37_79b9_7f4a_7c15;
    let first = bdz::splitmix64(&mut state);
    let mut list = Vec::new();
    for key in crate::collisions::crowd(&mut Rng::new(SEED), crowd, first) {
        list.extend_from_slice(b"KC");
        list.extend_from_slice(&key.to_le_bytes());
    }
    list
}
