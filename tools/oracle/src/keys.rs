//! Lists of keys to build from.

use crate::paper::flush;
use crate::paper::hash::{key_of_hash, mix, mix64, seed, slots};
use crate::paper::layout::{of_attempt, Layout};
use crate::random::Random;

/// Families of different keys that a size and some random numbers give.
#[derive(Clone, Copy)]
pub enum Family {
    Random,
    Counting,
    Consecutive,
    Spaced,
    Flush,
}

pub const FAMILIES: [(&str, Family); 5] = [
    ("random", Family::Random),
    ("0..n-1", Family::Counting),
    ("consecutive from a random base", Family::Consecutive),
    ("multiples of a power of two", Family::Spaced),
    ("flush keys", Family::Flush),
];

impl Family {
    pub fn keys(self, size: usize, random: &mut Random) -> Vec<u64> {
        let base = random.word();
        let places = 0..size as u64;
        match self {
            Family::Random => places.map(|_| random.word()).collect(),
            Family::Counting => places.collect(),
            Family::Consecutive => places.map(|place| base.wrapping_add(place)).collect(),
            Family::Spaced => {
                // The largest place has 13 binary digits, and none is lost.
                let shift = base % 52;
                places.map(|place| place << shift).collect()
            }
            Family::Flush => flush_keys(size, base),
        }
    }
}

/// Some units with some valves each, every valve due in every hour from some hour on, below zero or after it.
fn flush_keys(size: usize, choice: u64) -> Vec<u64> {
    let (units, valves) = (1 + choice % 7, 1 + (choice >> 8) % 40);
    let (first_unit, first_hour) = ((choice >> 16) % 60_000, (choice >> 32) as i64 % 500_000 - 250_000);
    let key = |place: u64| {
        let (unit, valve) = (first_unit + place / valves % units, place % valves);
        let hour = first_hour + (place / (valves * units)) as i64;
        flush::key(unit as u16, valve as u8, hour * flush::SECONDS_OF_HOUR).expect("a good hour")
    };
    (0..size as u64).map(key).collect()
}

/// The key on a line of a text of due flushes, up to its comment: a plain key, or unit, valve and second.
pub fn key_on(line: &str) -> Option<u64> {
    let words: Vec<&str> = line.split('#').next()?.split_whitespace().collect();
    match words[..] {
        [plain] => plain.parse().ok(),
        [unit, valve, seconds] => flush::key(unit.parse().ok()?, valve.parse().ok()?, seconds.parse().ok()?).ok(),
        _ => None,
    }
}

pub fn keys_of_text(text: &str) -> Vec<u64> {
    text.lines().filter_map(key_on).collect()
}

/// The list that a program of the gate makes by itself for each size.
pub fn of_size(size: usize) -> Vec<u64> {
    (0..size as u64).map(|place| mix64(((size as u64) << 32) + place + 1)).collect()
}

/// A chain of keys from `first`, `links` longer than one, of which each two neighbours share their slots in one attempt, from
/// attempt 1 on: so attempts 1 to `links` stick. The neighbour's hash differs in bit 32, which no slot looks at but by a carry.
pub fn chain(first: u64, links: u32) -> Vec<u64> {
    let mut keys = vec![first];
    for attempt in 1..=links {
        let last = keys[keys.len() - 1];
        keys.push(key_of_hash(mix(last, seed(attempt)) ^ 1 << 32, seed(attempt)));
    }
    keys
}

/// The key whose hash is 0 in an attempt: 2^64 - seed.
pub fn hash_zero_key(attempt: u32) -> u64 {
    key_of_hash(0, seed(attempt))
}

/// Hashes of attempt 1 that all touch slot 95 of the layout of 64 or 65 keys (L 32, count length 64). Each has slot i alone, but the last.
pub fn crowd_of_64() -> Vec<u64> {
    (0..64).map(|i| (i << 58) + (31 - i % 32) * ((1 << 18) + 1)).collect()
}

/// A hash that touches `slot` at some position.
fn hash_at(slot: usize, layout: Layout, random: &mut Random) -> u64 {
    let of = |hash| slots(hash, layout.segment_length, layout.count_length());
    loop {
        let hash = random.word();
        let moved = match random.below(3) {
            0 => (((slot as u128) << 64) / u128::from(layout.count_length())) as u64 + (hash >> 16),
            1 => hash ^ ((of(hash)[1] ^ slot) as u64) << 18,
            _ => hash ^ (of(hash)[2] ^ slot) as u64,
        };
        if of(moved).contains(&slot) {
            return moved;
        }
    }
}

/// Random keys of which the first `crowd` touch one slot in attempt 1.
pub fn crowded_list(size: usize, crowd: usize, random: &mut Random) -> Vec<u64> {
    let layout = of_attempt(size, 1);
    let slot = random.below(layout.slots());
    let crowded = |place| if place < crowd { key_of_hash(hash_at(slot, layout, random), seed(1)) } else { random.word() };
    (0..size).map(crowded).collect()
}

/// Small lists, each with the number of attempts that stick before the first that does not.
pub const SMALL_STUCK_LISTS: [(&[u64], u32); 10] = [
    (&[2, 4], 1),
    (&[26, 76], 2),
    (&[327, 461], 3),
    (&[2002, 2074], 4),
    (&[11039, 22808], 5),
    (&[7, 13, 0], 1),
    (&[51, 559, 0], 2),
    (&[7, 13, 0, 1, 2], 1),
    (&[18, 413, 0, 1, 2], 2),
    (&[11173, 11237, 0, 1, 2], 3),
];
