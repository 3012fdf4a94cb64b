//! The clock: both sides in turn, from a warm start or a cold one, and the fastest of each.

use super::machine;
use super::markdown::grouped;
use super::table::{Cell, Table};
use crate::rng::Rng;
use std::hint::black_box;
use std::time::{Duration, Instant};

/// A cold start is made by a walk through so many bytes at least.
const EVICTION: usize = 64 << 20;
/// The bytes of a line of a cache: a step of the walk.
const LINE: usize = 64;

/// A number of keys, with its rounds from a warm start and from a cold one.
#[derive(Clone, Copy)]
pub struct Size {
    pub keys: usize,
    pub warm: usize,
    pub cold: usize,
}

/// The larger the number, the fewer the rounds, so that a run ends in minutes.
pub const SIZES: [Size; 3] = [
    Size {
        keys: 1_000,
        warm: 300,
        cold: 30,
    },
    Size {
        keys: 1_000_000,
        warm: 9,
        cold: 5,
    },
    Size {
        keys: 10_000_000,
        warm: 3,
        cold: 2,
    },
];

impl Size {
    fn rounds(self, start: Start) -> usize {
        match start {
            Start::Warm => self.warm,
            Start::Cold => self.cold,
        }
    }
}

/// What is in the caches when the clock starts.
#[derive(Clone, Copy, PartialEq)]
pub enum Start {
    /// What the calls before have left.
    Warm,
    /// Nothing of use.
    Cold,
}

impl Start {
    pub const WARM: &'static [Self] = &[Self::Warm];
    pub const BOTH: &'static [Self] = &[Self::Warm, Self::Cold];

    pub fn name(self) -> &'static str {
        match self {
            Self::Warm => "warm",
            Self::Cold => "cold",
        }
    }
}

/// What is measured: its name, the items of a call, from which starts, and the ratio that is wanted.
#[derive(Clone, Copy)]
pub struct Row<'a> {
    pub what: &'a str,
    pub items: usize,
    pub starts: &'static [Start],
    pub budget: Option<f64>,
}

/// The measurements of one run.
pub struct Bench {
    size: Size,
    eviction: Vec<u8>,
    pub table: Table,
}

impl Bench {
    /// The other side has this name.
    pub fn new(other: &'static str) -> Self {
        Self {
            size: SIZES[0],
            eviction: vec![0; eviction_bytes()],
            table: Table::new(other),
        }
    }

    /// Goes on with another number of keys. Who waits for the table is told on the error stream.
    pub fn turn_to(&mut self, size: Size) {
        self.size = size;
        eprintln!("measuring with {} keys", size.keys);
    }

    /// The number of keys that is being measured.
    pub fn keys(&self) -> usize {
        self.size.keys
    }

    /// Runs both sides in turn and notes the fastest of each.
    pub fn beside(&mut self, row: Row, mut ours: impl FnMut(), mut other: impl FnMut()) {
        for &start in row.starts {
            let (mut our_time, mut other_time) = (Duration::MAX, Duration::MAX);
            for _ in 0..self.size.rounds(start) {
                self.prepare(start);
                our_time = our_time.min(time(&mut ours));
                self.prepare(start);
                other_time = other_time.min(time(&mut other));
            }
            let cell = Cell {
                ours: each(our_time, row.items),
                other: Some(each(other_time, row.items)),
            };
            self.table.note(row, start, cell);
        }
    }

    /// Runs ours alone, which has no counterpart. What is done before each timed call may change what
    /// the call works on.
    pub fn alone<T>(
        &mut self,
        row: Row,
        on: &mut T,
        mut before: impl FnMut(&mut T),
        mut ours: impl FnMut(&mut T),
    ) {
        for &start in row.starts {
            let mut fastest = Duration::MAX;
            for _ in 0..self.size.rounds(start) {
                before(on);
                self.prepare(start);
                fastest = fastest.min(time(&mut || ours(on)));
            }
            let cell = Cell {
                ours: each(fastest, row.items),
                other: None,
            };
            self.table.note(row, start, cell);
        }
    }

    fn prepare(&mut self, start: Start) {
        if start == Start::Cold {
            for byte in self.eviction.iter_mut().step_by(LINE) {
                *byte = byte.wrapping_add(1);
            }
            black_box(&mut self.eviction);
        }
    }
}

/// Twice what the largest cache holds.
fn eviction_bytes() -> usize {
    let largest = machine::caches().into_iter().max().unwrap_or(0);
    EVICTION.max(2 * largest)
}

/// How the fastest of each side is found, for the reader of a table.
pub fn print_method() {
    let rounds = SIZES.map(|Size { keys, warm, cold }| {
        format!("{} keys {warm} warm and {cold} cold", grouped(keys))
    });
    println!(
        "- Rounds of each side in turn, the fastest of each: {}. The first warms the caches and the \
         buffers for the others.",
        rounds.join(", ")
    );
    println!(
        "- Warm: the caches hold what the rounds before, of either side, have left. Cold: before each \
         timed call a byte is changed in every {LINE} of {} MiB, which drives out of the caches \
         what the call is about to use.",
        eviction_bytes() >> 20
    );
}

/// The nanoseconds of each of so many items.
fn each(time: Duration, items: usize) -> f64 {
    time.as_secs_f64() * 1e9 / items as f64
}

fn time(work: &mut impl FnMut()) -> Duration {
    let start = Instant::now();
    work();
    start.elapsed()
}

/// Measures at every size and prints the table, with how it was made before it.
pub fn print_page(beside: &'static str, measure: Measure, print_method: fn()) -> Bench {
    let mut bench = Bench::new(beside);
    let mut rng = Rng::new(1);
    for size in SIZES {
        bench.turn_to(size);
        measure(&mut bench, &mut rng);
    }
    print_method();
    bench.table.print_all();
    bench
}

/// Measures everything at one size.
pub type Measure = fn(&mut Bench, &mut Rng);
