//! The count of what was compared.

use oracle::paper::hash::Fingerprint;
use std::collections::BTreeMap;
use std::fmt;

/// What was compared at one width.
#[derive(Default)]
pub struct Counts {
    pub builds: u64,
    pub queries: u64,
    /// Builds by the attempt that ended them.
    pub attempts: BTreeMap<u32, u64>,
    /// Answers by refusal number.
    pub refusals: BTreeMap<u32, u64>,
}

impl Counts {
    /// Fails where one of these refusals was not met.
    pub fn all_refused(&self, mut numbers: impl Iterator<Item = u32>) -> Result<(), String> {
        match numbers.find(|number| !self.refusals.contains_key(number)) {
            Some(number) => Err(format!("refusal {number} was never due, so nothing was compared there")),
            None => Ok(()),
        }
    }
}

#[derive(Default)]
pub struct Tally {
    widths: [Counts; 2],
    pub flush_keys: u64,
    pub flush_keys_refused: u64,
    pub most_touched: u32,
}

impl Tally {
    /// The counts of the width of F, one byte or two.
    pub fn at<F: Fingerprint>(&mut self) -> &mut Counts {
        &mut self.widths[F::BITS / 8 - 1]
    }

    /// Builds and queries of each width, in words.
    pub fn so_far(&self) -> String {
        let parts = self.widths.each_ref().map(|counts| format!("{} builds and {} queries", counts.builds, counts.queries));
        format!("8 bits: {}; 16 bits: {}", parts[0], parts[1])
    }
}

impl fmt::Display for Tally {
    fn fmt(&self, out: &mut fmt::Formatter) -> fmt::Result {
        let listed = |counts: &BTreeMap<u32, u64>| {
            let parts: Vec<String> = counts.iter().map(|(number, count)| format!("{number}: {count}")).collect();
            parts.join(", ")
        };
        for (bits, counts) in [8, 16].iter().zip(&self.widths) {
            writeln!(out, "{bits} bits: builds {}, queries {}", counts.builds, counts.queries)?;
            writeln!(out, "  lists built, by attempt    {}", listed(&counts.attempts))?;
            writeln!(out, "  refusals seen, by number   {}", listed(&counts.refusals))?;
        }
        writeln!(out, "flush keys: {}, of them refused with 12: {}", self.flush_keys, self.flush_keys_refused)?;
        write!(out, "most keys at one slot within the stated inputs: {}", self.most_touched)
    }
}
