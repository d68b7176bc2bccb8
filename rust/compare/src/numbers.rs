//! How many calls got each number.

use std::collections::BTreeMap;
use std::fmt;

/// By number; 0 counts the accepted calls.
#[derive(Debug, Default)]
pub struct Numbers {
    times: BTreeMap<u32, usize>,
}

impl Numbers {
    pub fn count(&mut self, number: u32) {
        *self.times.entry(number).or_default() += 1;
    }

    pub fn calls(&self) -> usize {
        self.times.values().sum()
    }

    /// The refusals that were given.
    pub fn refusals(&self) -> Vec<u32> {
        self.times.keys().copied().filter(|&number| number != 0).collect()
    }
}

impl fmt::Display for Numbers {
    fn fmt(&self, f: &mut fmt::Formatter<'_>) -> fmt::Result {
        write!(f, "{} accepted, refused", self.times.get(&0).unwrap_or(&0))?;
        for number in self.refusals() {
            write!(f, " {number}: {}", self.times[&number])?;
        }
        Ok(())
    }
}
