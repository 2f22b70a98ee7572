//! Lists that stick at first, keys whose hash is 0 on the way, and the list that sticks a thousand times.

use crate::hold::{hold_build, hold_list, shown};
use crate::tally::Tally;
use crate::Asked;
use oracle::keys::{chain, hash_zero_key, Family, SMALL_STUCK_LISTS};
use oracle::paper::attempt::{attempt, Picks};
use oracle::paper::layout::{MAX_ATTEMPTS, MAX_KEYS};
use oracle::paper::room::with_spare;
use oracle::random::Random;
use oracle::rust::{self, Filtered};

const SPARE: usize = 3;
/// Sizes at which most random lists stick in attempt 1, because L has just doubled.
const OFTEN_STUCK: std::ops::Range<usize> = 3445..3551;

pub fn compare(asked: &Asked, tally: &mut Tally) -> Result<(), String> {
    let mut random = Random::new(asked.seed, "attempts");
    small_lists(tally, &mut random)?;
    println!("  small stuck lists: equal");
    chains(tally, &mut random, 300 * asked.scale)?;
    println!("  chains that stick in attempts 1 to 5 and on: equal");
    hash_zero(tally, &mut random, 300 * asked.scale)?;
    println!("  keys whose hash is 0 in attempts 1 to 5: equal");
    often_stuck(tally, &mut random, asked.scale)?;
    println!("  sizes at which attempt 1 mostly sticks: equal");
    thousand_attempts(tally)?;
    println!("  the list that sticks a thousand times: equal");
    match (2..=6).find(|number| !tally.at::<u8>().attempts.contains_key(number)) {
        Some(number) => Err(format!("no list ended at attempt {number}, so nothing was compared there")),
        None => Ok(()),
    }
}

/// A list whose search ends at a later attempt is refused with 6 by every smaller limit, and built by just that limit.
fn hold_limits(tally: &mut Tally, keys: &[u64], ends_at: u32) -> Result<(), String> {
    let lengths = with_spare(keys.len(), SPARE);
    if ends_at > 1 {
        hold_build(tally, keys, ends_at - 1, lengths, &Err(6))?;
    }
    let picks = attempt(keys, ends_at).ok_or("the attempt that ended the search sticks")?;
    hold_build(tally, keys, ends_at, lengths, &Ok(picks))
}

fn small_lists(tally: &mut Tally, random: &mut Random) -> Result<(), String> {
    for (keys, sticks) in SMALL_STUCK_LISTS {
        let ends_at = hold_list(tally, keys, random)?;
        if ends_at != sticks + 1 {
            return Err(format!("{}: {sticks} attempts should stick, but attempt {ends_at} ends the search", shown(keys)));
        }
        hold_limits(tally, keys, ends_at)?;
    }
    Ok(())
}

/// A chain with other keys around it, in any order.
fn chain_among_others(random: &mut Random, links: u32, special: Option<u64>) -> Vec<u64> {
    let mut keys = chain(random.word(), links);
    keys.extend(special);
    let others = random.any_scale(MAX_KEYS - keys.len());
    keys.extend(Family::Random.keys(others, random));
    for place in (1..keys.len()).rev() {
        keys.swap(place, random.below(place + 1));
    }
    keys
}

fn chains(tally: &mut Tally, random: &mut Random, lists: usize) -> Result<(), String> {
    for links in 1..=5 {
        for _ in 0..lists {
            let keys = chain_among_others(random, links, None);
            let ends_at = hold_list(tally, &keys, random)?;
            hold_limits(tally, &keys, ends_at)?;
        }
    }
    for links in (6..=48).step_by(7) {
        let keys = chain_among_others(random, links, None);
        hold_list(tally, &keys, random)?;
    }
    Ok(())
}

/// The key whose hash is 0 in just the attempt that a chain of the right length makes the first without a stuck set.
fn hash_zero(tally: &mut Tally, random: &mut Random, lists: usize) -> Result<(), String> {
    for attempt in 1..=5 {
        let zero = hash_zero_key(attempt);
        let ends_at = hold_list(tally, &[zero], random)?;
        if ends_at != 1 {
            return Err(format!("{zero} alone: attempt {ends_at} ends the search"));
        }
        let mut ended_there = 0;
        for _ in 0..lists {
            let keys = chain_among_others(random, attempt - 1, Some(zero));
            ended_there += usize::from(hold_list(tally, &keys, random)? == attempt);
        }
        if ended_there == 0 {
            return Err(format!("no list with the hash 0 of attempt {attempt} ended there, so nothing was compared"));
        }
    }
    Ok(())
}

fn often_stuck(tally: &mut Tally, random: &mut Random, scale: usize) -> Result<(), String> {
    for _ in 0..scale {
        for size in OFTEN_STUCK {
            let keys = Family::Random.keys(size, random);
            let ends_at = hold_list(tally, &keys, random)?;
            hold_limits(tally, &keys, ends_at)?;
        }
    }
    Ok(())
}

/// 1,001 keys of one chain are stuck in all attempts; without the last key, in all but the last.
fn thousand_attempts(tally: &mut Tally) -> Result<(), String> {
    let keys = chain(0, MAX_ATTEMPTS);
    let shorter = &keys[..keys.len() - 1];
    let last = attempt(shorter, MAX_ATTEMPTS).ok_or("the last attempt sticks without the last key too")?;
    rust_takes_the_last::<u8>(&keys, &last)?;
    rust_takes_the_last::<u16>(&keys, &last)?;

    let lengths = with_spare(keys.len(), SPARE);
    hold_build(tally, &keys, MAX_ATTEMPTS, lengths, &Err(6))?;
    hold_build(tally, shorter, MAX_ATTEMPTS, lengths, &Ok(last))?;
    hold_build(tally, shorter, MAX_ATTEMPTS - 1, lengths, &Err(6))
}

fn rust_takes_the_last<F: Filtered>(keys: &[u64], last: &Picks) -> Result<(), String> {
    if rust::build::<F>(keys).is_some() {
        return Err(format!("at {} bits the Rust builds the list that should stick in all attempts", F::BITS));
    }
    if rust::build::<F>(&keys[..keys.len() - 1]) != Some(last.filled()) {
        return Err(format!("at {} bits the Rust does not build by the last attempt, where only that is free", F::BITS));
    }
    Ok(())
}
