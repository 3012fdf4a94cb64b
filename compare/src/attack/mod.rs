//! The attack on the exports: hostile inputs, and every call held to the plain model. It needs no
//! Rust source.

pub mod feeding;
pub mod lists;
pub mod openings;
pub mod prefixes;
pub mod refusals;

use crate::rng::Rng;
use crate::tally::{Difference, Need, Tally};

/// What is attacked.
pub struct Target {
    pub name: &'static str,
    needs: &'static [Need],
    /// Its part of the least number of calls, beside the parts of the others. A target without one
    /// always tries all that it has.
    share: u64,
    run: fn(&mut Tally, &mut Rng, u64) -> Result<(), Difference>,
}

pub const ALL: [Target; 5] = [
    openings::TARGET,
    feeding::TARGET,
    lists::TARGET,
    refusals::TARGET,
    prefixes::TARGET,
];

impl Target {
    /// Attacks with this target's part of so many calls, or more; its needs are met where it answers
    /// a tally.
    pub fn attack(&self, seed: u64, least: u64) -> Result<Tally, Difference> {
        let shares: u64 = ALL.iter().map(|target| target.share).sum();
        let own = least.div_ceil(shares).saturating_mul(self.share);
        let mut tally = Tally::default();
        (self.run)(&mut tally, &mut Rng::for_topic(seed, self.name), own)?;
        tally.check(self.name, self.needs);
        Ok(tally)
    }

    /// All counts of a run in one line, in the order of the needs.
    pub fn line(&self, tally: &Tally) -> String {
        let counts = self.needs.iter().map(|(what, _)| (what, tally.count(what)));
        let parts: Vec<String> = counts
            .map(|(what, count)| format!("{what} {count}"))
            .collect();
        let (name, total) = (self.name, tally.total());
        format!("{name}: {total} calls ({})", parts.join(", "))
    }
}

/// The numbers that a call can answer, as a summary names them.
const NUMBERS: [&str; 21] = [
    "0 accepted",
    "1 assigned len",
    "2 assigned modulus",
    "3 assigned value",
    "4 assigned duplicate",
    "5 graph did not peel",
    "6 short pread",
    "7 g length",
    "8 bad magic",
    "9 bad version",
    "10 g_bits",
    "11 zero modulus",
    "12 occ truncated",
    "13 too large",
    "14 no room",
    "15 page not listed",
    "16 page given",
    "17 page length",
    "18 waiting",
    "19 bad list",
    "20 no such key",
];

/// A number that a target must meet.
const fn meets(number: u32) -> Need {
    (NUMBERS[number as usize], 1)
}

/// Counts a number that a call answered.
fn met(tally: &mut Tally, number: u32) {
    tally.notice(NUMBERS[number as usize]);
}

/// One round, and others until there were so many calls.
fn rounds(
    tally: &mut Tally,
    least: u64,
    mut round: impl FnMut(&mut Tally) -> Result<(), Difference>,
) -> Result<(), Difference> {
    loop {
        round(tally)?;
        if tally.total() >= least {
            return Ok(());
        }
    }
}

/// Lengths of a buffer about its need: none, one short, exact, one more, and longer.
fn around(need: usize) -> Vec<usize> {
    let mut lengths = vec![0, need.saturating_sub(1), need, need + 1, need + LONGER];
    lengths.dedup();
    lengths
}

/// How much longer than its need a buffer is at the most.
const LONGER: usize = 8;
