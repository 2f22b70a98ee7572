//! Refusals 1 to 6 of the build (and 7 for the descriptor's room), alone and several at once, with all that they leave behind.

use crate::hold::hold_build;
use crate::tally::Tally;
use crate::Asked;
use oracle::keys::{chain, Family};
use oracle::paper::layout::{MAX_ATTEMPTS, MAX_KEYS};
use oracle::paper::room::{needed, outcome, with_spare, BUFFERS};
use oracle::random::Random;

const LIMITS: [u32; 8] = [0, 1, 2, 3, MAX_ATTEMPTS - 1, MAX_ATTEMPTS, MAX_ATTEMPTS + 1, u32::MAX];

pub fn compare(asked: &Asked, tally: &mut Tally) -> Result<(), String> {
    let mut random = Random::new(asked.seed, "refusals");
    for size in [0, 1, 2, 5, 100, 1_000, MAX_KEYS] {
        one_fault_each(tally, &Family::Random.keys(size, &mut random))?;
    }
    println!("  each buffer one short, each limit, each place of a repeated key: as documents 01 and 02 say");
    too_many_keys(tally, &mut random)?;
    println!("  {MAX_KEYS} keys built, {} refused: as document 02 says", MAX_KEYS + 1);
    for _ in 0..10_000 * asked.scale {
        several_faults(tally, &mut random)?;
    }
    println!("  several faults at once: as documents 01 and 02 say");
    tally.at::<u8>().all_refused(1..=7)?;
    tally.at::<u16>().all_refused(1..=7)
}

/// Ours is held to the plain reading of documents 01 and 02, in a room of these lengths.
fn hold(tally: &mut Tally, keys: &[u64], limit: u32, lengths: [usize; BUFFERS]) -> Result<(), String> {
    let due = outcome(keys, limit, lengths);
    hold_build(tally, keys, limit, lengths, &due).map_err(|what| format!("room {lengths:?}: {what}"))
}

fn one_fault_each(tally: &mut Tally, keys: &[u64]) -> Result<(), String> {
    let exact = needed(keys.len());
    for limit in LIMITS {
        hold(tally, keys, limit, exact)?;
    }
    for buffer in (0..BUFFERS).filter(|&buffer| exact[buffer] > 0) {
        let mut short = exact;
        short[buffer] -= 1;
        hold(tally, keys, MAX_ATTEMPTS, short)?;
        short[buffer] = 0;
        hold(tally, keys, MAX_ATTEMPTS, short)?;
    }
    repeated_keys(tally, keys, with_spare(keys.len(), 2))
}

/// The same key twice: the first two, the last two, the first and the last.
fn repeated_keys(tally: &mut Tally, keys: &[u64], lengths: [usize; BUFFERS]) -> Result<(), String> {
    let Some(last) = keys.len().checked_sub(1).filter(|&last| last > 0) else {
        return Ok(());
    };
    for (from, to) in [(0, 1), (last, last - 1), (0, last)] {
        let mut twice = keys.to_vec();
        twice[to] = twice[from];
        for limit in [1, MAX_ATTEMPTS] {
            hold(tally, &twice, limit, lengths)?;
        }
    }
    Ok(())
}

fn too_many_keys(tally: &mut Tally, random: &mut Random) -> Result<(), String> {
    let keys = Family::Random.keys(MAX_KEYS + 1, random);
    let room = needed(MAX_KEYS).map(|length| 2 * length);
    hold(tally, &keys[..MAX_KEYS], MAX_ATTEMPTS, room)?;
    hold(tally, &keys, MAX_ATTEMPTS, room)?;
    hold(tally, &keys, 0, [0, 0, 0, 0, 0, 0, 0, 20])?;
    hold(tally, &keys, 0, [0; BUFFERS])
}

/// Keys that may repeat or stick, a limit that may be bad, buffers that may be short: the lowest number wins.
fn several_faults(tally: &mut Tally, random: &mut Random) -> Result<(), String> {
    let mut keys = chain(random.word(), random.below(4) as u32);
    keys.extend(Family::Random.keys(random.any_scale(300), random));
    if random.chance(3) {
        let twice = keys[random.below(keys.len())];
        let place = random.below(keys.len() + 1);
        keys.insert(place, twice);
    }
    let limit = if random.chance(4) { random.pick(&LIMITS) } else { 1 + random.below(5) as u32 };
    let lengths = needed(keys.len()).map(|length| match random.below(12) {
        0 => random.below(length + 1),
        1 => length,
        _ => length + random.below(9),
    });
    hold(tally, &keys, limit, lengths)
}
