//! Modules 1, 2, 3 and 5: hash, seeds, fingerprint, the three slots.

use std::fmt::{Debug, Display};
use std::ops::BitXor;

const FIRST_FACTOR: u64 = 0xff51_afd7_ed55_8ccd;
const SECOND_FACTOR: u64 = 0xc4ce_b9fe_1a85_ec53;

pub fn mix64(key: u64) -> u64 {
    let first = (key ^ (key >> 33)).wrapping_mul(FIRST_FACTOR);
    let second = (first ^ (first >> 33)).wrapping_mul(SECOND_FACTOR);
    second ^ (second >> 33)
}

/// The one number that `mix64` takes to `hash`. A shift by 33 with xor undoes itself, since 2 × 33 is over 64.
pub fn unmix64(hash: u64) -> u64 {
    let second = (hash ^ (hash >> 33)).wrapping_mul(inverse(SECOND_FACTOR));
    let first = (second ^ (second >> 33)).wrapping_mul(inverse(FIRST_FACTOR));
    first ^ (first >> 33)
}

/// The number whose product with the odd `factor` is 1 modulo 2^64. Each step doubles the digits that are right, from 3 to 96.
fn inverse(factor: u64) -> u64 {
    (0..5).fold(factor, |near, _| near.wrapping_mul(2u64.wrapping_sub(factor.wrapping_mul(near))))
}

pub fn mix(key: u64, seed: u64) -> u64 {
    mix64(key.wrapping_add(seed))
}

/// The key whose hash under `seed` is `hash`.
pub fn key_of_hash(hash: u64, seed: u64) -> u64 {
    unmix64(hash).wrapping_sub(seed)
}

/// The i-th output of splitmix64 from state 1; attempts count from 1.
pub fn seed(attempt: u32) -> u64 {
    let state = 1u64.wrapping_add(u64::from(attempt).wrapping_mul(0x9e37_79b9_7f4a_7c15));
    let first = (state ^ (state >> 30)).wrapping_mul(0xbf58_476d_1ce4_e5b9);
    let second = (first ^ (first >> 27)).wrapping_mul(0x94d0_49bb_1331_11eb);
    second ^ (second >> 31)
}

/// The element of a list's fingerprints. Lists of 8 and of 16 bits differ in nothing else.
pub trait Fingerprint: Copy + Default + PartialEq + Debug + Display + BitXor<Output = Self> + Into<u64> + TryFrom<u64> {
    const BITS: usize = 8 * std::mem::size_of::<Self>();

    /// The number modulo 2^BITS.
    fn low_bits(number: u64) -> Self;

    /// Its bytes, the low one first.
    fn bytes(self) -> impl Iterator<Item = u8> {
        let number: u64 = self.into();
        number.to_le_bytes().into_iter().take(Self::BITS / 8)
    }
}

impl Fingerprint for u8 {
    fn low_bits(number: u64) -> Self {
        number as u8
    }
}

impl Fingerprint for u16 {
    fn low_bits(number: u64) -> Self {
        number as u16
    }
}

pub fn fingerprint<F: Fingerprint>(hash: u64) -> F {
    F::low_bits(hash ^ (hash >> 32))
}

pub fn slots(hash: u64, segment_length: u32, count_length: u32) -> [usize; 3] {
    let mask = u64::from(segment_length - 1);
    let length = u64::from(segment_length);
    let first = ((u128::from(hash) * u128::from(count_length)) >> 64) as u64;
    let second = (first + length) ^ ((hash >> 18) & mask);
    let third = (first + 2 * length) ^ (hash & mask);
    [first as usize, second as usize, third as usize]
}
