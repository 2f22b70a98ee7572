//! Module 6, checks 7 to 11, and module 7: descriptor and query, with the numbers of the C entry.

use super::hash::{fingerprint, mix, slots, Fingerprint};

pub const NO: u32 = 0;
pub const YES: u32 = 1;
/// The C entry's answer for a refusal is this plus the refusal's number.
pub const REFUSED: u32 = 16;

/// The most fingerprints that a descriptor can speak of.
pub const MAX_SLOTS: u64 = (1 << 31) - 1;

/// The fields of the twenty bytes.
#[derive(Clone, Copy)]
pub struct Record {
    pub seed: u64,
    pub segment_length: u32,
    pub mask: u32,
    pub count_length: u32,
}

impl Record {
    /// How many fingerprints a list with this descriptor has.
    pub fn slots(&self) -> u64 {
        u64::from(self.count_length) + 2 * u64::from(self.segment_length)
    }

    pub fn bytes(&self) -> [u8; 20] {
        let mut bytes = [0; 20];
        bytes[0..8].copy_from_slice(&self.seed.to_le_bytes());
        bytes[8..12].copy_from_slice(&self.segment_length.to_le_bytes());
        bytes[12..16].copy_from_slice(&self.mask.to_le_bytes());
        bytes[16..20].copy_from_slice(&self.count_length.to_le_bytes());
        bytes
    }

    fn of_bytes(bytes: &[u8; 20]) -> Self {
        let word = |at: usize| u32::from_le_bytes([bytes[at], bytes[at + 1], bytes[at + 2], bytes[at + 3]]);
        Record {
            seed: u64::from(word(4)) << 32 | u64::from(word(0)),
            segment_length: word(8),
            mask: word(12),
            count_length: word(16),
        }
    }
}

/// The record that the first 20 bytes hold, or the number of the refusal: checks 7 to 10.
pub fn read(bytes: &[u8]) -> Result<Record, u32> {
    let record = Record::of_bytes(bytes.first_chunk().ok_or(7u32)?);
    if !record.segment_length.is_power_of_two() || !(4..=262_144).contains(&record.segment_length) {
        return Err(8);
    }
    if record.mask != record.segment_length - 1 {
        return Err(9);
    }
    if record.count_length == 0 || record.count_length % record.segment_length != 0 || record.slots() > MAX_SLOTS {
        return Err(10);
    }
    Ok(record)
}

/// The record, if it is accepted together with this many fingerprints: checks 7 to 11.
pub fn accepted(descriptor: &[u8], fingerprints: usize) -> Result<Record, u32> {
    let record = read(descriptor)?;
    if fingerprints as u64 != record.slots() {
        return Err(11);
    }
    Ok(record)
}

pub fn contains<F: Fingerprint>(descriptor: &[u8], fingerprints: &[F], key: u64) -> u32 {
    let record = match accepted(descriptor, fingerprints.len()) {
        Ok(record) => record,
        Err(number) => return REFUSED + number,
    };
    let hash = mix(key, record.seed);
    let stored = slots(hash, record.segment_length, record.count_length).map(|slot| fingerprints[slot]);
    if fingerprint::<F>(hash) == stored[0] ^ stored[1] ^ stored[2] {
        YES
    } else {
        NO
    }
}
