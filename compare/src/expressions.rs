//! The Rust's arithmetic that is no function of its own there, written out a second time.

use crate::bdz::{splitmix64, GAMMA_DEN, GAMMA_NUM, RANK_SUPER_BITS};

/// Where the builds start their chain of seeds.
pub const FIRST_STATE: u64 = 0x9e37_79b9_7f4a_7c15;

/// The last n whose counts of vertices fit a `u32`, for either kind: it has 4_294_967_295 vertices,
/// which is a multiple of 3 as well. The Rust truncates from n = 3_491_843_330 on, in
/// `build_from_ranks` and in `compact_vertex_count` alike.
pub const LAST_FITTING_N: u32 = 3_491_843_329;

/// The vertices of an assigned index of n keys: what `build_from_ranks` computes inline, before it
/// truncates to a `u32`.
pub fn assigned_vertices(n: u32) -> u64 {
    (u64::from(n) * GAMMA_NUM)
        .div_ceil(GAMMA_DEN)
        .max(u64::from(n) + 3)
        .max(3)
}

/// What `compact_vertex_count` computes before it truncates to a `u32`.
pub fn compact_vertices(n: u32) -> u64 {
    assigned_vertices(n).div_ceil(3) * 3
}

/// The first seeds that a build tries, in order.
pub fn seeds(count: usize) -> Vec<u64> {
    let mut state = FIRST_STATE;
    (0..count).map(|_| splitmix64(&mut state)).collect()
}

/// The length of the answer of `supers_from_occ_bytes`.
pub fn supers(m: u32) -> u64 {
    u64::from(m).div_ceil(u64::from(RANK_SUPER_BITS)) + 1
}

pub fn high_product(u: u64, v: u64) -> u64 {
    ((u128::from(u) * u128::from(v)) >> 64) as u64
}
