//! What the environment says of a run.

use std::env::{self, VarError};

/// The seed of all random inputs: that of `COMPARE_SEED`, or a fixed one.
pub fn seed() -> Result<u64, String> {
    number("COMPARE_SEED", 0x5eed_0bd2_0000_0001)
}

/// The number that a variable names, or the usual one; or else what is wrong with it.
pub fn number(variable: &str, usual: u64) -> Result<u64, String> {
    let text = match env::var(variable) {
        Ok(text) if !text.is_empty() => text,
        Ok(_) | Err(VarError::NotPresent) => return Ok(usual),
        Err(VarError::NotUnicode(_)) => String::new(),
    };
    let number = match text.strip_prefix("0x") {
        Some(digits) => u64::from_str_radix(digits, 16),
        None => text.parse(),
    };
    number.map_err(|_| {
        format!("{variable} is neither a decimal number of 64 bits nor a hexadecimal one")
    })
}
