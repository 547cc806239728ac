//! How rows or calls fared: how many were taken, and how many were refused for which reason.

use crate::refusal::Reason;
use std::collections::BTreeMap;
use std::io::{self, Write};
use std::ops::AddAssign;

#[derive(Default)]
pub struct Tally {
    taken: usize,
    refused: BTreeMap<Reason, usize>,
}

impl Tally {
    pub fn add_taken(&mut self) {
        self.taken += 1;
    }

    pub fn add_refused(&mut self, reason: Reason) {
        *self.refused.entry(reason).or_default() += 1;
    }

    /// How many rows there were, how many were taken, which the report calls `taken`, and how
    /// many were refused.
    pub fn told(&self, taken: &str) -> String {
        self.told_of("rows", taken)
    }

    /// The same of what is called `all`.
    pub fn told_of(&self, all: &str, taken: &str) -> String {
        let refused: usize = self.refused.values().sum();
        let count = self.taken + refused;
        format!("{all} {count}: {taken} {}, refused {refused}", self.taken)
    }

    /// Prints a line for each reason that was told.
    pub fn print_reasons(&self, out: &mut impl Write) -> io::Result<()> {
        for (reason, times) in &self.refused {
            let (number, words) = (reason.number(), reason.words());
            writeln!(out, "refused {number}: {times} times, {words}")?;
        }
        Ok(())
    }
}

impl AddAssign for Tally {
    fn add_assign(&mut self, other: Tally) {
        self.taken += other.taken;
        for (reason, times) in other.refused {
            *self.refused.entry(reason).or_default() += times;
        }
    }
}
