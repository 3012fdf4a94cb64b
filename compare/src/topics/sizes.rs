//! How many vertices, bits, bytes and counts there are.

use super::Topic;
use crate::bdz::{self, BdzMphf};
use crate::expressions::{assigned_vertices, compact_vertices, supers, LAST_FITTING_N};
use crate::ours;
use crate::rng::{edges_u32, Rng};
use crate::tally::{Difference, Tally};

const RANDOM: u64 = 200_000;

pub const TOPIC: Topic = Topic {
    name: "sizes",
    needs: &[
        ("assigned vertices", 100_000 + RANDOM),
        ("assigned vertices of a build", 299),
        ("compact vertices", 100_000 + RANDOM),
        ("vertices past a u32", RANDOM),
        ("widths", 70_000 + RANDOM),
        ("packed bytes", RANDOM),
        ("occupancy bytes", 100_000 + RANDOM),
        ("super counts of the Rust", 5_000),
        ("super counts", RANDOM),
    ],
    run,
};

fn run(tally: &mut Tally, rng: &mut Rng) -> Result<(), Difference> {
    rust_truncates_where_we_say();
    vertices(tally, rng)?;
    for n in 2..=300 {
        vertices_of_build(tally, rng, n)?;
    }
    widths(tally, rng)?;
    packed_bytes(tally, rng)?;
    occupancy(tally, rng)
}

/// The edges, what stands near 2^30, and every number up to `last`.
fn many(last: u32) -> Vec<u32> {
    let mut numbers: Vec<u32> = (0..=last).collect();
    numbers.extend((1 << 30) - 2_000..=(1 << 30) + 2_000);
    numbers.extend(edges_u32());
    numbers
}

fn rust_truncates_where_we_say() {
    let first = LAST_FITTING_N + 1;
    for vertices in [assigned_vertices, compact_vertices] {
        assert!(vertices(LAST_FITTING_N) <= u64::from(u32::MAX));
        assert!(vertices(first) > u64::from(u32::MAX));
    }
    assert_eq!(bdz::compact_vertex_count(LAST_FITTING_N), u32::MAX);
    assert!(bdz::compact_vertex_count(first) < first);
}

fn vertices(tally: &mut Tally, rng: &mut Rng) -> Result<(), Difference> {
    for n in many(100_000) {
        vertices_of(tally, n)?;
    }
    for n in LAST_FITTING_N - 2_000..=LAST_FITTING_N + 2_000 {
        vertices_of(tally, n)?;
    }
    let past = u64::from(u32::MAX - LAST_FITTING_N);
    for _ in 0..RANDOM {
        vertices_of(tally, rng.below(u64::from(LAST_FITTING_N) + 1) as u32)?;
        vertices_of(tally, LAST_FITTING_N + 1 + rng.below(past) as u32)?;
    }
    Ok(())
}

fn vertices_of(tally: &mut Tally, n: u32) -> Result<(), Difference> {
    let ours = (ours::vertex_count(n), ours::compact_vertex_count(n));
    if n > LAST_FITTING_N {
        let exact = (assigned_vertices(n), compact_vertices(n));
        let what = "vertices past a u32";
        return tally.same(what, ours, exact, || {
            format!("n {n}; the answers are of the assigned and of the compact kind")
        });
    }
    let assigned = assigned_vertices(n);
    tally.same("assigned vertices", ours.0, assigned, || format!("n {n}"))?;
    let compact = u64::from(bdz::compact_vertex_count(n));
    tally.same("compact vertices", ours.1, compact, || format!("n {n}"))
}

/// The expression stands in no function of its own there, so a real build says it once more.
fn vertices_of_build(tally: &mut Tally, rng: &mut Rng, n: u32) -> Result<(), Difference> {
    let values: Vec<u32> = (0..n).collect();
    let built = loop {
        // Keys that do not peel are drawn again.
        if let Ok(built) = BdzMphf::build_assigned(&rng.keys(n as usize), &values, n) {
            break built;
        }
    };
    let what = "assigned vertices of a build";
    let ours = ours::vertex_count(n);
    tally.same(what, ours, u64::from(built.m), || format!("n {n}"))
}

fn widths(tally: &mut Tally, rng: &mut Rng) -> Result<(), Difference> {
    for modulus in many(70_000) {
        width_for(tally, modulus)?;
    }
    for bit in 0..32 {
        let power = 1u32 << bit;
        for away in 0..100 {
            width_for(tally, power.saturating_sub(away))?;
            width_for(tally, power.saturating_add(away))?;
        }
    }
    for _ in 0..RANDOM {
        width_for(tally, rng.any_length_u32())?;
    }
    Ok(())
}

fn width_for(tally: &mut Tally, modulus: u32) -> Result<(), Difference> {
    let ours = ours::g_bits_for_modulus(modulus);
    let rust = bdz::g_bits_for_modulus(modulus);
    tally.same("widths", ours, rust, || format!("modulus {modulus}"))
}

fn packed_bytes(tally: &mut Tally, rng: &mut Rng) -> Result<(), Difference> {
    for width in (0..=70).chain(edges_u32()) {
        for words in (0..=70).chain(edges_u32()) {
            packed_bytes_of(tally, words, width)?;
        }
    }
    for _ in 0..RANDOM {
        packed_bytes_of(tally, rng.next_u32(), rng.below(33) as u32)?;
        packed_bytes_of(tally, rng.any_length_u32(), rng.any_length_u32())?;
    }
    Ok(())
}

fn packed_bytes_of(tally: &mut Tally, words: u32, width: u32) -> Result<(), Difference> {
    let ours = ours::packed_g_bytes(words, width);
    let rust = bdz::packed_g_bytes(words, width);
    tally.same("packed bytes", ours, rust, || {
        format!("{words} words of the width {width}")
    })
}

fn occupancy(tally: &mut Tally, rng: &mut Rng) -> Result<(), Difference> {
    for m in 0..=5_000 {
        super_count_of_rust(tally, m)?;
    }
    for m in many(100_000) {
        occupancy_of(tally, m)?;
    }
    for _ in 0..RANDOM {
        occupancy_of(tally, rng.any_length_u32())?;
    }
    Ok(())
}

/// No bit is set, since only the length of the answer counts.
fn super_count_of_rust(tally: &mut Tally, m: u32) -> Result<(), Difference> {
    let what = "super counts of the Rust";
    let rust = bdz::supers_from_occ_bytes(&[], m).len() as u64;
    tally.same(what, ours::super_count(m), rust, || format!("m {m}"))
}

fn occupancy_of(tally: &mut Tally, m: u32) -> Result<(), Difference> {
    let rust = bdz::occ_packed_bytes(m);
    let ours = ours::occ_packed_bytes(m);
    tally.same("occupancy bytes", ours, rust, || format!("m {m}"))?;
    let ours = ours::super_count(m);
    tally.same("super counts", ours, supers(m), || format!("m {m}"))
}
