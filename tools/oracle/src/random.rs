//! Numbers for tests, the same for the same seed on every machine.

use crate::paper::hash::{mix64, Fingerprint};

pub struct Random {
    state: u64,
}

impl Random {
    /// A stream of its own for each purpose, so that one test that draws more does not move the others.
    pub fn new(seed: u64, purpose: &str) -> Self {
        let state = purpose.bytes().fold(mix64(seed), |state, byte| mix64(state ^ u64::from(byte)));
        Random { state }
    }

    pub fn word(&mut self) -> u64 {
        self.state = self.state.wrapping_add(0x9e37_79b9_7f4a_7c15);
        mix64(self.state)
    }

    /// A number below `bound`, which is at least 1.
    pub fn below(&mut self, bound: usize) -> usize {
        (self.word() % bound as u64) as usize
    }

    /// A number up to `most` that is as often small as large: every number of binary digits is as likely.
    pub fn any_scale(&mut self, most: usize) -> usize {
        let digits = usize::BITS - most.leading_zeros();
        let shift = self.below(digits as usize + 1);
        self.below((most >> shift) + 1)
    }

    pub fn chance(&mut self, one_in: usize) -> bool {
        self.below(one_in) == 0
    }

    pub fn pick<T: Copy>(&mut self, choices: &[T]) -> T {
        choices[self.below(choices.len())]
    }

    pub fn fingerprints<F: Fingerprint>(&mut self, length: usize) -> Vec<F> {
        (0..length).map(|_| F::low_bits(self.word())).collect()
    }
}
