//! The mixers: splitmix64, mix64 and the high half of a product.

use super::Topic;
use crate::expressions::FIRST_STATE;
use crate::rng::{edges_u64, Rng};
use crate::tally::{Difference, Tally};
use crate::{bdz, expressions, ours};

const RANDOM: u64 = 1_000_000;
const CHAIN: u64 = 100_000;

pub const TOPIC: Topic = Topic {
    name: "mix",
    needs: &[
        ("splitmix64", RANDOM),
        ("chains of splitmix64", 5 * CHAIN),
        ("mix64", RANDOM),
        ("high product", 2 * RANDOM),
    ],
    run,
};

fn run(tally: &mut Tally, rng: &mut Rng) -> Result<(), Difference> {
    let edges = edges_u64();
    for &edge in &edges {
        splitmix64(tally, edge)?;
        mix64(tally, edge)?;
        for &other in &edges {
            high_product(tally, edge, other)?;
        }
    }
    for _ in 0..RANDOM {
        splitmix64(tally, rng.next_u64())?;
        mix64(tally, rng.next_u64())?;
        high_product(tally, rng.next_u64(), rng.next_u64())?;
        high_product(tally, rng.edge_u64(), rng.next_u64())?;
    }
    for start in [0, FIRST_STATE, u64::MAX, rng.next_u64(), rng.next_u64()] {
        chain(tally, start)?;
    }
    Ok(())
}

/// The seed and the state of the Rust's step.
fn rust_step(state: u64) -> (u64, u64) {
    let mut after = state;
    let seed = bdz::splitmix64(&mut after);
    (seed, after)
}

fn our_step(state: u64) -> (u64, u64) {
    (ours::splitmix64(state), ours::splitmix64_state(state))
}

fn splitmix64(tally: &mut Tally, state: u64) -> Result<(), Difference> {
    tally.same("splitmix64", our_step(state), rust_step(state), || {
        format!("state {state:#x}; the answers are the seed and the state after it")
    })
}

/// Each side goes on from its own state.
fn chain(tally: &mut Tally, start: u64) -> Result<(), Difference> {
    let (mut ours, mut rust) = ((0, start), (0, start));
    for step in 0..CHAIN {
        ours = our_step(ours.1);
        rust = rust_step(rust.1);
        tally.same("chains of splitmix64", ours, rust, || {
            format!("step {step} of the chain from the state {start:#x}")
        })?;
    }
    Ok(())
}

fn mix64(tally: &mut Tally, k: u64) -> Result<(), Difference> {
    tally.same("mix64", ours::mix64(k), bdz::mix64(k), || {
        format!("k {k:#x}")
    })
}

fn high_product(tally: &mut Tally, u: u64, v: u64) -> Result<(), Difference> {
    let rust = expressions::high_product(u, v);
    tally.same("high product", ours::high_product(u, v), rust, || {
        format!("u {u:#x}, v {v:#x}")
    })
}
