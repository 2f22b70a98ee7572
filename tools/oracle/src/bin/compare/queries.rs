//! Queries of descriptors that the checks accept, over random fingerprints: layouts that no build makes, up to the largest.

use crate::hold::List;
use crate::ours::Entries;
use crate::tally::Tally;
use crate::Asked;
use oracle::paper::hash::{mix, slots};
use oracle::paper::query::{Record, MAX_SLOTS};
use oracle::random::Random;
use std::alloc::{alloc_zeroed, dealloc, Layout};

const MOST: usize = 1 << 22;
const QUERIES_OF_EACH: usize = 500;

pub fn compare(asked: &Asked, tally: &mut Tally) -> Result<(), String> {
    compare_width::<u8>(asked, tally)?;
    compare_width::<u16>(asked, tally)
}

fn compare_width<F: Entries>(asked: &Asked, tally: &mut Tally) -> Result<(), String> {
    let mut random = Random::new(asked.seed, "queries");
    let pool: Vec<F> = random.fingerprints(MOST);
    for _ in 0..4_000 * asked.scale {
        let record = random_record(&mut random, MOST as u64);
        let slots = record.slots() as usize;
        let begin = random.below(pool.len() - slots + 1);
        hold_queries(tally, &mut random, &record, &pool[begin..begin + slots])?;
    }
    println!("  {} bits, random layouts up to {MOST} fingerprints: equal", F::BITS);
    let large =
        if large_layouts::<F>(tally, &mut random)? { "equal" } else { "left out, this machine does not lend that much memory" };
    println!("  {} bits, layouts of nearly 2^31 fingerprints: {large}", F::BITS);
    Ok(())
}

/// A descriptor that the checks accept, for at most `most` fingerprints.
pub fn random_record(random: &mut Random, most: u64) -> Record {
    let segment_length = 4u32 << random.below(17);
    let most_segments = most / u64::from(segment_length) - 2;
    let count = 1 + random.any_scale(most_segments as usize - 1) as u32;
    Record { seed: random.word(), segment_length, mask: segment_length - 1, count_length: count * segment_length }
}

fn hold_queries<F: Entries>(tally: &mut Tally, random: &mut Random, record: &Record, fingerprints: &[F]) -> Result<(), String> {
    let descriptor = record.bytes();
    let list = List::accepted(&descriptor, fingerprints);
    for _ in 0..QUERIES_OF_EACH {
        list.hold_query(tally, random.word())?;
    }
    Ok(())
}

/// The longest fingerprints of the shortest and the longest segments: sums near 2^31. Most of the memory is never touched.
fn large_layouts<F: Entries>(tally: &mut Tally, random: &mut Random) -> Result<bool, String> {
    let all = Layout::array::<F>(MAX_SLOTS as usize).expect("a length below 2^31");
    let memory = unsafe { alloc_zeroed(all) };
    if memory.is_null() {
        return Ok(false);
    }
    let zeros: &mut [F] = unsafe { std::slice::from_raw_parts_mut(memory.cast(), MAX_SLOTS as usize) };
    let compared = [4, 262_144].into_iter().try_for_each(|segment_length| {
        let count = MAX_SLOTS as u32 / segment_length - 2;
        let record =
            Record { seed: random.word(), segment_length, mask: segment_length - 1, count_length: count * segment_length };
        hold_written_queries(tally, random, &record, &mut zeros[..record.slots() as usize])
    });
    unsafe { dealloc(memory, all) };
    compared.map(|()| true)
}

/// Random fingerprints only at the slots of the keys that will be asked.
fn hold_written_queries<F: Entries>(
    tally: &mut Tally,
    random: &mut Random,
    record: &Record,
    fingerprints: &mut [F],
) -> Result<(), String> {
    let keys: Vec<u64> = (0..QUERIES_OF_EACH).map(|_| random.word()).collect();
    for &key in &keys {
        for slot in slots(mix(key, record.seed), record.segment_length, record.count_length) {
            fingerprints[slot] = F::low_bits(random.word());
        }
    }
    let descriptor = record.bytes();
    let list = List::accepted(&descriptor, fingerprints);
    keys.iter().try_for_each(|&key| list.hold_query(tally, key).map(|_| ()))
}
