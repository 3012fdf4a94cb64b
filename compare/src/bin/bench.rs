//! Measures the proved index beside the Rust and prints a table.

use std::process::ExitCode;

#[cfg(source_at_hand)]
fn main() -> ExitCode {
    compare::benchmark::print_page();
    ExitCode::SUCCESS
}

#[cfg(not(source_at_hand))]
fn main() -> ExitCode {
    compare::without_source("nothing was measured")
}
