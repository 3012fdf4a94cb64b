//! Builds of both kinds.

use super::clock::{Bench, Row, Start};
use crate::bdz::BdzMphf;
use crate::expressions;
use crate::lent::{Loan, Sizes};
use crate::ours::{self, Index, DONE};
use crate::rng::Rng;
use crate::topics::builds::{Build, Outcome};
use crate::topics::lookup::lent;
use std::hint::black_box;

const BUDGET: f64 = 1.2;

/// A build of ours, with all that is lent to it. The compact one makes its super counts as well,
/// since the Rust's does.
pub struct OurBuild<'a> {
    asked: Build<'a>,
    keys: Vec<u8>,
    values: Vec<u8>,
    needs: Sizes,
    loan: Loan,
    supers: Vec<u32>,
}

impl<'a> OurBuild<'a> {
    pub fn new(rng: &mut Rng, asked: Build<'a>) -> Self {
        let needs = asked.needs();
        let supers = match asked {
            Build::Assigned(..) => 0,
            Build::Compact(_) => expressions::supers(needs.table as u32) as usize,
        };
        Self {
            asked,
            keys: asked.key_bytes(),
            values: asked.value_bytes(),
            needs,
            loan: Loan::new(rng, needs),
            supers: vec![0; supers],
        }
    }

    pub fn run(&mut self) {
        let (keys, values) = (black_box(&self.keys[..]), black_box(&self.values[..]));
        let status = black_box(self.asked).ours(keys, values, &mut self.loan);
        assert_eq!(status, DONE);
        if let Build::Compact(_) = self.asked {
            let occupancy = self.loan.occupancy.given();
            let m = self.needs.table as u32;
            let status = ours::supers_from_occ_bytes(m, occupancy, &mut self.supers);
            assert_eq!(status, DONE);
        }
        black_box(&mut self.loan);
        black_box(&mut self.supers);
    }

    /// What was built.
    pub fn index(&self) -> Index<'_> {
        let [n, m, seed, modulus, _] = self.loan.answer();
        Index {
            compact: u32::from(matches!(self.asked, Build::Compact(_))),
            n: n as u32,
            m: m as u32,
            seed,
            modulus: modulus as u32,
            table: self.loan.table.given(),
            occupancy: self.loan.occupancy.given(),
            supers: &self.supers,
        }
    }

    /// That the Rust built the same.
    pub fn assert_same(&self, what: &str, built: BdzMphf) {
        assert!(
            self.supers == lent(&built).supers,
            "{what}: super counts differ"
        );
        let expected = Outcome::of_rust(Ok(built));
        assert_eq!(
            self.loan.answer(),
            expected.answer(),
            "{what}: answers differ"
        );
        assert_eq!(
            self.asked.fault(&self.loan, expected.after()),
            None,
            "{what}"
        );
    }

    /// All that a run reads and writes.
    pub fn bytes(&self) -> usize {
        let needs = &self.needs;
        let read = 2 * (self.keys.len() + self.values.len());
        let words = needs.table + needs.xors + needs.queue + self.supers.len();
        let bytes = needs.occupancy + needs.degrees + needs.marks + needs.seen;
        read + 4 * words + bytes + 8 * needs.order
    }
}

/// Values for so many keys, each once, in no order.
pub fn shuffled_values(rng: &mut Rng, count: usize) -> Vec<u32> {
    let mut values: Vec<u32> = (0..count as u32).collect();
    rng.shuffle(&mut values);
    values
}

pub fn measure(bench: &mut Bench, rng: &mut Rng) {
    let count = bench.keys();
    let keys = rng.keys(count);
    let values = shuffled_values(rng, count);
    let assigned = Build::Assigned(&keys, &values, count as u32);
    for (what, asked) in [
        ("build assigned", assigned),
        ("build compact", Build::Compact(&keys)),
    ] {
        build(bench, rng, what, asked);
    }
}

fn build(bench: &mut Bench, rng: &mut Rng, what: &str, asked: Build) {
    let mut ours = OurBuild::new(rng, asked);
    let mut built = None;
    let row = Row {
        what,
        items: bench.keys(),
        starts: Start::WARM,
        budget: Some(BUDGET),
    };
    bench.beside(
        row,
        || ours.run(),
        || {
            built = Some(black_box(asked).rust());
            black_box(&mut built);
        },
    );
    bench.table.note_room(what, ours.bytes(), bench.keys());
    let built = built.expect("the Rust was measured");
    ours.assert_same(what, built.expect("random keys peel"));
}
