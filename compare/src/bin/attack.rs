//! Attacks the exports with hostile inputs and fails at the first call that is not as the plain model
//! says.

use compare::attack::{Target, ALL};
use compare::environment;
use compare::tally::Difference;
use std::process::ExitCode;

/// Calls at the least, besides the prefixes, where `ATTACK_CALLS` does not say.
const USUAL: u64 = 1_000_000;

fn main() -> ExitCode {
    let asked = environment::seed()
        .and_then(|seed| Ok((seed, environment::number("ATTACK_CALLS", USUAL)?)));
    let (seed, least) = match asked {
        Ok(asked) => asked,
        Err(wrong) => {
            eprintln!("{wrong}");
            return ExitCode::FAILURE;
        }
    };
    println!("seed {seed:#x}");
    let mut calls = 0;
    for target in ALL {
        match target.attack(seed, least) {
            Ok(tally) => {
                println!("{}", target.line(&tally));
                calls += tally.total();
            }
            Err(difference) => {
                tell(&target, &difference, seed, least);
                return ExitCode::FAILURE;
            }
        }
    }
    println!("{calls} calls, none differing");
    ExitCode::SUCCESS
}

fn tell(target: &Target, difference: &Difference, seed: u64, least: u64) {
    println!(
        "{}: DIFFERENCE in {} (the answers are in hexadecimal)",
        target.name, difference.what
    );
    println!("  input: {}", difference.input);
    println!("  ours:  {}", difference.ours);
    println!("  model: {}", difference.agreed);
    println!("  again: COMPARE_SEED={seed:#x} ATTACK_CALLS={least} make attack");
}
