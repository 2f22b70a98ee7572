//! "Layout in whole numbers".

pub const MAX_KEYS: usize = 8192;
pub const MAX_ATTEMPTS: u32 = 1000;

/// The largest size of each segment length from 4 on, each twice the one before.
const LAST_SIZE_OF_LENGTH: [usize; 8] = [2, 8, 27, 91, 303, 1009, 3361, MAX_KEYS];

#[derive(Clone, Copy, Debug, PartialEq)]
pub struct Layout {
    pub segment_length: u32,
    pub count: u32,
}

impl Layout {
    pub fn count_length(self) -> u32 {
        self.count * self.segment_length
    }

    /// A, the number of fingerprints.
    pub fn slots(self) -> usize {
        ((self.count + 2) * self.segment_length) as usize
    }

    fn halved(self) -> Layout {
        Layout { segment_length: self.segment_length / 2, count: 2 * self.count + 2 }
    }
}

pub fn segment_length(size: usize) -> u32 {
    let doublings = LAST_SIZE_OF_LENGTH.iter().position(|&last| size <= last).expect("a size up to the limit");
    4 << doublings
}

/// n^(8c-7n-4) ≤ 10^(12n) < n^(8c-7n+4) says that 8c is the greatest multiple of 8 not above 12n·log_n(10) + 7n + 4.
/// Only at powers of ten is that sum whole, and there it is computed without logarithms; elsewhere floats are near enough
/// (the Rust's own are held to the same layouts at every size).
pub fn capacity(size: usize) -> u32 {
    let n = size as f64;
    let scaled = match size {
        0 | 1 => return 0,
        10 | 100 | 1000 => 12.0 * n / n.log10().round(),
        _ => 12.0 * n * 10f64.ln() / n.ln(),
    };
    ((scaled + 7.0 * n + 4.0) / 8.0).floor() as u32
}

pub fn plain(size: usize) -> Layout {
    let segment_length = segment_length(size);
    let segments = capacity(size).div_ceil(segment_length);
    let count = if segments < 3 { 1 } else { segments - 2 };
    Layout { segment_length, count }
}

pub fn of_attempt(size: usize, attempt: u32) -> Layout {
    if size > 4 && attempt % 4 == 2 {
        plain(size).halved()
    } else {
        plain(size)
    }
}

/// P, the length of the bucket starts.
pub fn bucket_starts(size: usize) -> usize {
    let larger_count = of_attempt(size, 1).count.max(of_attempt(size, 2).count);
    (larger_count as usize).next_power_of_two().max(2)
}
