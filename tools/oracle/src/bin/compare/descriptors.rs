//! Descriptors with flipped bits, cut short, grown, or put together from border values, against document 01's checks. Where the
//! checks accept one after all, the Rust is asked too.

use crate::hold::List;
use crate::ours::Entries;
use crate::queries::random_record;
use crate::tally::Tally;
use crate::Asked;
use oracle::keys::Family;
use oracle::paper::attempt::{search, Built};
use oracle::paper::layout::{MAX_ATTEMPTS, MAX_KEYS};
use oracle::paper::query::{contains, read, Record, REFUSED};
use oracle::random::Random;

const POOL: usize = 1 << 21;
const BORDERS: [u32; 13] = [0, 1, 2, 3, 4, 5, 255, 256, 1 << 17, 1 << 18, 1 << 19, (1 << 31) - 1, u32::MAX];

pub fn compare(asked: &Asked, tally: &mut Tally) -> Result<(), String> {
    compare_width::<u8>(asked, tally)?;
    compare_width::<u16>(asked, tally)
}

fn compare_width<F: Entries>(asked: &Asked, tally: &mut Tally) -> Result<(), String> {
    let mut random = Random::new(asked.seed, "descriptors");
    let pool: Vec<F> = random.fingerprints(POOL);
    for _ in 0..300 * asked.scale {
        let keys = Family::Random.keys(random.any_scale(MAX_KEYS), &mut random);
        let built = search(&keys, MAX_ATTEMPTS).expect("random keys are built").filled();
        one_list(tally, &mut random, &built, &pool)?;
    }
    println!("  {} bits, flipped, cut and grown descriptors of built lists: as document 01 says", F::BITS);
    for _ in 0..100_000 * asked.scale {
        let bytes = random_record_with_borders(&mut random).bytes();
        hold_damaged(tally, &mut random, &bytes, &pool)?;
    }
    println!("  {} bits, descriptors put together from border values: as document 01 says", F::BITS);
    tally.at::<F>().all_refused(7..=11)
}

/// All single flips, many double ones, every length up to 24, and fingerprints one too few or too many, half or twice as many.
fn one_list<F: Entries>(tally: &mut Tally, random: &mut Random, built: &Built<F>, pool: &[F]) -> Result<(), String> {
    let good = built.descriptor;
    for bit in 0..160 {
        let other = random.below(160);
        hold_damaged(tally, random, &flipped(&good, &[bit]), pool)?;
        hold_damaged(tally, random, &flipped(&good, &[bit, other]), pool)?;
    }
    let mut grown = good.to_vec();
    grown.extend(random.fingerprints::<u8>(4));
    for length in 0..=grown.len() {
        hold(tally, &grown[..length], &built.fingerprints, random.word())?;
    }
    let slots = built.fingerprints.len();
    for length in [0, 1, slots / 2, slots - 1, slots, slots + 1, 2 * slots] {
        hold(tally, &good, &pool[..length], random.word())?;
    }
    Ok(())
}

fn flipped(good: &[u8; 20], bits: &[usize]) -> [u8; 20] {
    let mut bytes = *good;
    for bit in bits {
        bytes[bit / 8] ^= 1 << (bit % 8);
    }
    bytes
}

/// An accepted record of which some fields are replaced, so that every check is met alone and with others.
fn random_record_with_borders(random: &mut Random) -> Record {
    let mut record = random_record(random, POOL as u64);
    let mut maybe = |field: &mut u32| {
        if random.chance(3) {
            *field = random.pick(&BORDERS).wrapping_add(random.below(3) as u32);
        }
    };
    maybe(&mut record.segment_length);
    maybe(&mut record.count_length);
    record.mask = record.segment_length.wrapping_sub(1);
    maybe(&mut record.mask);
    record
}

/// The query over as many fingerprints as the descriptor speaks of, where there are so many, and over a wrong number of them.
fn hold_damaged<F: Entries>(tally: &mut Tally, random: &mut Random, descriptor: &[u8], pool: &[F]) -> Result<(), String> {
    let suits = read(descriptor).map_or(0, |record| record.slots() as usize);
    if suits <= pool.len() {
        hold(tally, descriptor, &pool[..suits], random.word())?;
    }
    hold(tally, descriptor, &pool[..random.below(10_000)], random.word())
}

fn hold<F: Entries>(tally: &mut Tally, descriptor: &[u8], fingerprints: &[F], key: u64) -> Result<(), String> {
    let due = contains(descriptor, fingerprints, key);
    if due < REFUSED {
        List::accepted(descriptor, fingerprints).hold_query(tally, key)?;
    } else {
        *tally.at::<F>().refusals.entry(due - REFUSED).or_default() += 1;
    }
    tally.at::<F>().queries += 1;
    let answer = F::contains(descriptor, fingerprints, key);
    if answer == due {
        return Ok(());
    }
    let asked = format!("descriptor {descriptor:02x?} with {} fingerprints of {} bits", fingerprints.len(), F::BITS);
    Err(format!("{asked}, key {key}: ours answers {answer}, due is {due}"))
}
