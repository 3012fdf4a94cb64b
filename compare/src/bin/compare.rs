//! Asks the proved index and the Rust the same questions and fails at the first difference.

use std::process::ExitCode;

#[cfg(not(source_at_hand))]
fn main() -> ExitCode {
    compare::without_source("nothing was compared")
}

#[cfg(source_at_hand)]
fn main() -> ExitCode {
    use compare::environment::{number, seed};
    match seed().and_then(|seed| Ok((seed, number("COMPARE_MINUTES", 0)?))) {
        Ok((seed, 0)) => with_source::one_round(seed),
        Ok((seed, minutes)) => with_source::rounds(seed, minutes),
        Err(wrong) => {
            eprintln!("{wrong}");
            ExitCode::FAILURE
        }
    }
}

#[cfg(source_at_hand)]
mod with_source {
    use compare::tally::{Difference, Tally};
    use compare::topics::ALL;
    use std::process::ExitCode;
    use std::time::Instant;

    /// One round, with a line for each topic when it is done.
    pub fn one_round(seed: u64) -> ExitCode {
        println!("seed {seed:#x}");
        let same = round(seed, |topic, tally| print_line(topic, &tally));
        if !same {
            return ExitCode::FAILURE;
        }
        println!("no difference");
        ExitCode::SUCCESS
    }

    /// Rounds with this seed and those after it until so many minutes have passed: a line for each
    /// round, and at the end one for each topic with its counts over all rounds.
    pub fn rounds(first: u64, minutes: u64) -> ExitCode {
        let start = Instant::now();
        let mut sums = ALL.map(|topic| (topic.name, Tally::default()));
        let mut done = 0;
        while done == 0 || start.elapsed().as_secs() / 60 < minutes {
            let seed = first.wrapping_add(done);
            let mut total = 0;
            let same = round(seed, |topic, tally| {
                total += tally.total();
                let own = sums.iter_mut().find(|(name, _)| *name == topic);
                own.expect("every topic has a sum").1.add_all(&tally);
            });
            if !same {
                return ExitCode::FAILURE;
            }
            println!("seed {seed:#x}: {total} inputs compared");
            done += 1;
        }
        for (topic, sum) in &sums {
            print_line(topic, sum);
        }
        println!("{done} rounds, no difference");
        ExitCode::SUCCESS
    }

    /// Compares all topics. Where there is a difference it is told, and the answer is false.
    fn round(seed: u64, mut compared: impl FnMut(&str, Tally)) -> bool {
        for topic in ALL {
            match topic.compare(seed) {
                Ok(tally) => compared(topic.name, tally),
                Err(difference) => {
                    tell(topic.name, &difference, seed);
                    return false;
                }
            }
        }
        true
    }

    fn print_line(topic: &str, tally: &Tally) {
        let (total, counts) = (tally.total(), tally.line());
        println!("{topic}: {total} inputs compared ({counts})");
    }

    /// Where the Rust has no answer, as for a refusal, the second one is what was agreed instead.
    fn tell(topic: &str, difference: &Difference, seed: u64) {
        println!(
            "{topic}: DIFFERENCE in {} (the answers are in hexadecimal)",
            difference.what
        );
        println!("  input: {}", difference.input);
        println!("  ours:  {}", difference.ours);
        println!("  Rust:  {}", difference.agreed);
        println!("  again: COMPARE_SEED={seed:#x} make compare");
    }
}
