//! Compares the proved index with the Rust module it stands for: both are built into one program,
//! asked the same questions, and must give the same answers.

pub mod attack;
pub mod collisions;
pub mod environment;
pub mod lent;
pub mod model;
pub mod ours;
pub mod rng;
mod shims;
pub mod tally;
pub mod trial;

// What the Rust module asks of the root of its crate.
pub use shims::{error, file, io_handle, readonly_map, uring_session, IoCtx};

#[cfg(source_at_hand)]
include!(concat!(env!("OUT_DIR"), "/source.rs"));

#[cfg(source_at_hand)]
pub mod benchmark;
#[cfg(source_at_hand)]
pub mod expressions;
#[cfg(source_at_hand)]
pub mod recording;
#[cfg(source_at_hand)]
pub mod topics;

/// The end of a program that finds no Rust source: no failure where someone merely lacks it, but a
/// failure in a continuous build, where a comparison left out must not look like one that passed.
#[cfg(not(source_at_hand))]
pub fn without_source(left_undone: &str) -> std::process::ExitCode {
    println!("{left_undone}, since the Rust source is not at hand (BDZ_SRC names its folder)");
    match std::env::var_os("CI") {
        Some(value) if !value.is_empty() => std::process::ExitCode::FAILURE,
        _ => std::process::ExitCode::SUCCESS,
    }
}
