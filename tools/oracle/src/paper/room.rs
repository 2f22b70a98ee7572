//! "Answers": refusals 1 to 6, what each leaves in lent memory, and the numbers of the C entry of the build.

use super::attempt::{attempt, search, Built, Picks};
use super::hash::Fingerprint;
use super::layout::{bucket_starts, plain, MAX_ATTEMPTS, MAX_KEYS};

/// The C entry's answer for a refusal is this plus the refusal's number.
pub const BUILD_REFUSED: u32 = 65_536;

/// All that a build is lent, and the room for the twenty bytes.
#[derive(Clone, PartialEq)]
pub struct Room<F> {
    pub fingerprints: Vec<F>,
    pub lone: Vec<u32>,
    pub counts: Vec<u16>,
    pub sums: Vec<u64>,
    pub positions: Vec<u8>,
    pub order: Vec<u64>,
    pub starts: Vec<u32>,
    pub descriptor: Vec<u8>,
}

pub const BUFFERS: usize = 8;

impl<F: Fingerprint> Room<F> {
    /// Buffers of these lengths, in the order of the fields, that hold a pattern: no zero bytes, and neighbours differ.
    pub fn patterned(lengths: [usize; BUFFERS]) -> Self {
        fn pattern<T: TryFrom<u64>>(length: usize) -> Vec<T> {
            let unused_bits = u64::BITS as usize - 8 * std::mem::size_of::<T>();
            let element = |place: u64| T::try_from(((1 + place % 251) * 0x0101_0101_0101_0101) >> unused_bits);
            (0..length as u64).map(|place| element(place).ok().expect("as many bits as an element has")).collect()
        }
        let [fingerprints, lone, counts, sums, positions, order, starts, descriptor] = lengths;
        Room {
            fingerprints: pattern(fingerprints),
            lone: pattern(lone),
            counts: pattern(counts),
            sums: pattern(sums),
            positions: pattern(positions),
            order: pattern(order),
            starts: pattern(starts),
            descriptor: pattern(descriptor),
        }
    }

    /// "Scratch zeroed": the needed part of each buffer.
    fn zero_scratch(&mut self, size: usize) {
        let [_, lone, counts, sums, positions, order, starts, _] = needed(size);
        self.lone[..lone].fill(0);
        self.counts[..counts].fill(0);
        self.sums[..sums].fill(0);
        self.positions[..positions].fill(0);
        self.order[..order].fill(0);
        self.starts[..starts].fill(0);
    }

    /// Leaves what the table says for this outcome of a build of `size` keys, and gives the C entry's answer.
    pub fn leave(&mut self, size: usize, outcome: &Result<Built<F>, u32>) -> u32 {
        match outcome {
            Ok(built) => {
                self.fingerprints[..built.fingerprints.len()].copy_from_slice(&built.fingerprints);
                self.descriptor[..20].copy_from_slice(&built.descriptor);
                self.zero_scratch(size);
                built.attempt
            }
            Err(number) => {
                if *number == 6 {
                    self.fingerprints[..needed(size)[0]].fill(F::default());
                }
                if *number == 5 || *number == 6 {
                    self.zero_scratch(size);
                }
                BUILD_REFUSED + number
            }
        }
    }

    /// The first place where two rooms of the same lengths differ, in words.
    pub fn difference(&self, other: &Self) -> Option<String> {
        fn first<T: PartialEq + std::fmt::Display>(name: &str, ours: &[T], due: &[T]) -> Option<String> {
            let place = (0..ours.len()).find(|&place| ours[place] != due[place])?;
            Some(format!("{name}[{place}] is {} and should be {}", ours[place], due[place]))
        }
        first("descriptor", &self.descriptor, &other.descriptor)
            .or_else(|| first("fingerprints", &self.fingerprints, &other.fingerprints))
            .or_else(|| first("lone", &self.lone, &other.lone))
            .or_else(|| first("counts", &self.counts, &other.counts))
            .or_else(|| first("sums", &self.sums, &other.sums))
            .or_else(|| first("positions", &self.positions, &other.positions))
            .or_else(|| first("order", &self.order, &other.order))
            .or_else(|| first("starts", &self.starts, &other.starts))
    }
}

impl Room<u16> {
    /// The room with each fingerprint modulo 256.
    pub fn modulo_256(self) -> Room<u8> {
        Room {
            fingerprints: self.fingerprints.into_iter().map(|wide| wide as u8).collect(),
            lone: self.lone,
            counts: self.counts,
            sums: self.sums,
            positions: self.positions,
            order: self.order,
            starts: self.starts,
            descriptor: self.descriptor,
        }
    }
}

/// The lengths that a build of `size` keys needs, in elements, in the order of Room's fields.
pub fn needed(size: usize) -> [usize; BUFFERS] {
    let slots = plain(size).slots();
    [slots, slots, slots, slots, size, size + 1, bucket_starts(size), 20]
}

/// The same, each longer by `spare`.
pub fn with_spare(size: usize, spare: usize) -> [usize; BUFFERS] {
    needed(size).map(|length| length + spare)
}

/// The refusal by lengths and limit alone, if any: 7 for the descriptor's room first (ours, not the paper's), then 1 to 4.
pub fn refused_at_once(size: usize, limit: u32, lengths: [usize; BUFFERS]) -> Option<u32> {
    if lengths[7] < 20 {
        return Some(7);
    }
    if size > MAX_KEYS {
        return Some(1);
    }
    if !(1..=MAX_ATTEMPTS).contains(&limit) {
        return Some(2);
    }
    let needed = needed(size);
    if lengths[0] < needed[0] {
        return Some(3);
    }
    (1..7).any(|buffer| lengths[buffer] < needed[buffer]).then_some(4)
}

fn repeated(keys: &[u64]) -> bool {
    let mut sorted = keys.to_vec();
    sorted.sort_unstable();
    sorted.windows(2).any(|pair| pair[0] == pair[1])
}

/// The outcome of a build for every input, at every width.
pub fn outcome(keys: &[u64], limit: u32, lengths: [usize; BUFFERS]) -> Result<Picks, u32> {
    checked(keys, limit, lengths)?;
    search(keys, limit).ok_or(6)
}

/// The same of one attempt by its number.
pub fn outcome_of_attempt(keys: &[u64], number: u32, lengths: [usize; BUFFERS]) -> Result<Picks, u32> {
    checked(keys, number, lengths)?;
    attempt(keys, number).ok_or(6)
}

fn checked(keys: &[u64], number: u32, lengths: [usize; BUFFERS]) -> Result<(), u32> {
    match refused_at_once(keys.len(), number, lengths) {
        Some(refusal) => Err(refusal),
        None if repeated(keys) => Err(5),
        None => Ok(()),
    }
}
