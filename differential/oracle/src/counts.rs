//! How often each answer was reached, for each call.

use std::{collections::BTreeMap, fmt};

use crate::Call;

#[derive(Debug, Clone, Default)]
pub struct Counts(BTreeMap<u16, [u64; Call::ALL.len()]>);

impl Counts {
    pub fn add(&mut self, call: Call, number: u16) {
        self.0.entry(number).or_default()[call as usize] += 1;
    }

    pub fn add_all(&mut self, other: &Counts) {
        for (number, counts) in &other.0 {
            let sums = self.0.entry(*number).or_default();
            for (sum, count) in sums.iter_mut().zip(counts) {
                *sum += count;
            }
        }
    }

    pub fn get(&self, call: Call, number: u16) -> u64 {
        self.0
            .get(&number)
            .map_or(0, |counts| counts[call as usize])
    }

    pub fn total(&self) -> u64 {
        self.0.values().flatten().sum()
    }
}

/// A table: a line for each answer, a column for each call.
impl fmt::Display for Counts {
    fn fmt(&self, f: &mut fmt::Formatter<'_>) -> fmt::Result {
        write!(f, "answer")?;
        for call in Call::ALL {
            write!(f, "{:>12}", call.name())?;
        }
        for (number, counts) in &self.0 {
            write!(f, "\n{number:>6}")?;
            for count in counts {
                write!(f, "{count:>12}")?;
            }
        }
        Ok(())
    }
}
