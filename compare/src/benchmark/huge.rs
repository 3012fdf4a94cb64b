//! Builds of 2^27 keys of both kinds beside the Rust: answer, table and occupancy are compared, and
//! both sides are timed once.

use super::builds::OurBuild;
use super::machine::print_processor;
use super::markdown::{print_rows, short};
use crate::bdz::{self, BdzMphf};
use crate::rng::Rng;
use crate::topics::builds::Build;
use std::process::ExitCode;
use std::time::Instant;
use std::{env, fs};

const KEYS: usize = 1 << 27;
const MODULUS: u32 = 1 << 30;
/// Bytes that are in use at the height of it, for each key: what is lent, the keys on both sides,
/// and the Rust's tables, which wait for the comparison.
const BYTES_A_KEY: u64 = 100;

/// Fails where there is no room, since nothing is compared then.
pub fn print_page() -> ExitCode {
    let count = env::var("HUGE_KEYS").map_or(KEYS, |told| told.parse().expect("a number of keys"));
    let need = count as u64 * BYTES_A_KEY;
    match available() {
        Some(free) if free >= need => (),
        Some(free) => {
            let [need, free] = [need, free].map(|bytes| bytes >> 20);
            eprintln!("nothing was compared: {need} MiB are needed, and {free} MiB are available");
            return ExitCode::FAILURE;
        }
        None => eprintln!("this machine does not tell how much memory is available: going on"),
    }
    let keys: Vec<u64> = (0..count as u64).map(bdz::mix64).collect();
    // different, since the factor is odd
    let values: Vec<u32> = (0..count as u32)
        .map(|number| number.wrapping_mul(0x9e37_79b1) % MODULUS)
        .collect();
    let assigned = Build::Assigned(&keys, &values, MODULUS);
    let heading = [
        "what",
        "keys",
        "ours, s",
        "Rust, s",
        "ratio",
        "ours, ns a key",
    ];
    let mut rows = vec![heading.map(str::to_owned).to_vec()];
    for (what, asked) in [
        ("build assigned, modulus 2^30", assigned),
        ("build compact", Build::Compact(&keys)),
    ] {
        rows.push(row(what, count, asked));
    }
    print_processor();
    println!(
        "- One build of each side, the Rust's first; what the Rust allocates is part of its time. \
         Answer, table and occupancy were compared, and are the same.\n"
    );
    print_rows(&rows, 1);
    ExitCode::SUCCESS
}

/// Of the Rust's build only what is compared is kept while ours runs.
fn row(what: &str, count: usize, asked: Build) -> Vec<String> {
    let started = Instant::now();
    let rust: BdzMphf = asked.rust().expect("different keys peel");
    let theirs = started.elapsed().as_secs_f64();
    let mut build = OurBuild::new(&mut Rng::new(1), asked);
    let started = Instant::now();
    build.run();
    let ours = started.elapsed().as_secs_f64();
    build.assert_same(what, rust);
    let each = ours * 1e9 / count as f64;
    let numbers = [ours, theirs, ours / theirs, each].map(short);
    [what.to_owned(), count.to_string()]
        .into_iter()
        .chain(numbers)
        .collect()
}

/// The bytes that can be had without driving others out.
fn available() -> Option<u64> {
    let told = fs::read_to_string("/proc/meminfo").ok()?;
    let line = told
        .lines()
        .find_map(|line| line.strip_prefix("MemAvailable:"))?;
    let kibibytes: u64 = line.trim().strip_suffix("kB")?.trim().parse().ok()?;
    Some(kibibytes << 10)
}
