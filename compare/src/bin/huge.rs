//! Builds of 2^27 keys of both kinds beside the Rust.

use std::process::ExitCode;

#[cfg(source_at_hand)]
fn main() -> ExitCode {
    compare::benchmark::huge::print_page()
}

#[cfg(not(source_at_hand))]
fn main() -> ExitCode {
    compare::without_source("nothing was compared")
}
