//! The times of the proved index beside the Rust's, on the same inputs in one run, as one table.
//!
//! The Rust's loops stand here, in the crate that holds the module, so that they are compiled as
//! well as the Rust's own callers are.

pub mod builds;
pub mod clock;
mod feeds;
pub mod huge;
pub mod lookups;
pub mod machine;
mod markdown;
mod parts;
pub mod table;
mod writing;

use crate::bdz::{self, BdzMphf};
use crate::rng::Rng;
use crate::topics::builds::Build;
use clock::Bench;

/// Measures everything and prints the table, with how it was made before it and what follows from
/// it behind.
pub fn print_page() {
    let bench = clock::print_page("Rust", measure, print_method);
    println!("What a call of ours reads and writes, and of how many keys each cache holds that:");
    println!();
    bench.table.print_caches();
}

fn measure(bench: &mut Bench, rng: &mut Rng) {
    builds::measure(bench, rng);
    let (keys, indexes) = indexes(rng, bench.keys());
    for built in &indexes {
        lookups::measure(bench, built, &keys);
    }
    for built in &indexes {
        writing::measure(bench, built);
    }
    for built in &indexes {
        feeds::measure(bench, built, &keys);
    }
    for built in &indexes {
        parts::measure_table(bench, built);
    }
    lookups::measure_reading(bench, &keys);
    parts::measure(bench, rng);
}

/// Keys, and the Rust's index of them of either kind.
fn indexes(rng: &mut Rng, count: usize) -> (Vec<u64>, [BdzMphf; 2]) {
    let keys = rng.keys(count);
    let values = builds::shuffled_values(rng, count);
    let assigned = Build::Assigned(&keys, &values, count as u32);
    let compact = Build::Compact(&keys);
    let built = [assigned, compact].map(|asked| asked.rust().expect("random keys peel"));
    (keys, built)
}

/// What the kind of an index is called.
fn kind(built: &BdzMphf) -> &'static str {
    match built.compact {
        Some(_) => "compact",
        None => "assigned",
    }
}

/// Bits of a table's word in the image of an index.
fn width_of(built: &BdzMphf) -> u32 {
    match built.compact {
        Some(_) => bdz::COMPACT_G_BITS,
        None => bdz::g_bits_for_modulus(built.modulus),
    }
}

/// What is in the clock's time and what is outside of it.
fn print_method() {
    machine::print_processor();
    clock::print_method();
    println!(
        "- Ours works in buffers that were lent once, outside the clock; what the Rust allocates \
         and frees is part of its time. Both answers are compared after the last round."
    );
    println!(
        "- Build: ours reads keys and values from bytes first, the Rust has words; the compact one \
         makes its super counts on both sides."
    );
    println!("- Lookup: of all keys that were built, words on both sides.");
    println!(
        "- Write: ours into a lent buffer, the Rust's into a vector that has the room; no file on \
         either side."
    );
    println!(
        "- Feed: of the image's own keys, all or a tenth of them, in ns a key that is fed: start, \
         all listed pages in their order, every key asked; ours reads the keys from bytes; the \
         pages are in memory on both sides. Start, pages and asking alone: the parts of ours."
    );
    println!(
        "- Unpack: the whole table of an image. Keys read alone: what a lookup adds that takes its \
         keys as bytes (in an index of no keys, which answers 0s)."
    );
}
