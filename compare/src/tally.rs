//! Counts what was compared, and carries the first difference.

use std::fmt::Debug;

/// More numbers than this are counted in a report, and not printed.
const PRINTED: usize = 500;

/// The name of a comparison and how many inputs of it a run must have at the least.
pub type Need = (&'static str, u64);

pub struct Difference {
    pub what: &'static str,
    pub input: String,
    pub ours: String,
    /// What the other side says, or else what was agreed.
    pub agreed: String,
}

#[derive(Default)]
pub struct Tally {
    compared: Vec<(&'static str, u64)>,
    noticed: Vec<(&'static str, u64)>,
}

impl Tally {
    /// Compares the answers to one input.
    pub fn same<T: PartialEq + Debug>(
        &mut self,
        what: &'static str,
        ours: T,
        agreed: T,
        input: impl FnOnce() -> String,
    ) -> Result<(), Difference> {
        self.same_all(what, 1, ours, agreed, input)
    }

    /// Compares the answers to a call that has several inputs.
    pub fn same_all<T: PartialEq + Debug>(
        &mut self,
        what: &'static str,
        inputs: usize,
        ours: T,
        agreed: T,
        input: impl FnOnce() -> String,
    ) -> Result<(), Difference> {
        if ours != agreed {
            return Err(Difference {
                what,
                input: input(),
                ours: format!("{ours:x?}"),
                agreed: format!("{agreed:x?}"),
            });
        }
        add(&mut self.compared, what, inputs as u64);
        Ok(())
    }

    /// Counts a case that an input brought about. It can be needed, but it is no comparison.
    pub fn notice(&mut self, case: &'static str) {
        add(&mut self.noticed, case, 1);
    }

    pub fn count(&self, what: &str) -> u64 {
        self.all()
            .find(|(name, _)| *name == what)
            .map_or(0, |(_, count)| *count)
    }

    /// Takes the counts of another run in.
    pub fn add_all(&mut self, other: &Self) {
        for (what, count) in &other.compared {
            add(&mut self.compared, what, *count);
        }
        for (case, count) in &other.noticed {
            add(&mut self.noticed, case, *count);
        }
    }

    /// Fails where a comparison was made too seldom or stands in no list of needs: a run that
    /// compares nothing must not pass.
    pub fn check(&self, topic: &str, needs: &[Need]) {
        assert!(self.total() > 0, "{topic} compared nothing");
        for (what, least) in needs {
            let count = self.count(what);
            assert!(*least > 0, "{topic}: {what} needs no input");
            assert!(count >= *least, "{topic}: {what} had {count} of {least}");
        }
        for (what, _) in self.all() {
            let listed = needs.iter().any(|(name, _)| name == what);
            assert!(listed, "{topic}: {what} stands in no list of needs");
        }
    }

    /// How many inputs were compared.
    pub fn total(&self) -> u64 {
        self.compared.iter().map(|(_, count)| count).sum()
    }

    /// All counts in one line.
    pub fn line(&self) -> String {
        let parts: Vec<String> = self
            .all()
            .map(|(name, count)| format!("{name} {count}"))
            .collect();
        parts.join(", ")
    }

    fn all(&self) -> impl Iterator<Item = &(&'static str, u64)> {
        self.compared.iter().chain(&self.noticed)
    }
}

fn add(counts: &mut Vec<(&'static str, u64)>, what: &'static str, inputs: u64) {
    match counts.iter_mut().find(|(name, _)| *name == what) {
        Some((_, count)) => *count += inputs,
        None => counts.push((what, inputs)),
    }
}

/// For a report: all numbers, or the first of many.
pub fn listed<T: Debug>(what: &str, numbers: &[T]) -> String {
    match numbers.len() {
        count @ 0..=PRINTED => format!("{count} {what} {numbers:x?}"),
        count => format!("{count} {what}, the first {:x?}", &numbers[..4]),
    }
}
