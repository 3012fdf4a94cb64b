//! Writes the list of the Rust's answers to standard output; or, given a number, a key list of
//! which so many keys meet on one vertex.

use std::process::ExitCode;

#[cfg(source_at_hand)]
fn main() -> ExitCode {
    use std::io::Write;
    let bytes = match std::env::args().nth(1) {
        None => compare::recording::text().into_bytes(),
        Some(word) => match word.parse() {
            Ok(count) => compare::recording::crowded_list(count),
            Err(_) => return ExitCode::FAILURE,
        },
    };
    match std::io::stdout().write_all(&bytes) {
        Ok(()) => ExitCode::SUCCESS,
        Err(_) => ExitCode::FAILURE,
    }
}

/// An empty list would pass for a list, so this always fails.
#[cfg(not(source_at_hand))]
fn main() -> ExitCode {
    eprintln!(
        "nothing was recorded, since the Rust source is not at hand (BDZ_SRC names its folder)"
    );
    ExitCode::FAILURE
}
