//! Outside the stated inputs: what the Rust does there, shown by the smallest inputs known, and that ours follows document 01.

use crate::hold::{hold_build, shown};
use crate::ours::Entries;
use crate::tally::Tally;
use crate::Asked;
use oracle::keys::{chain, crowd_of_64, crowded_list};
use oracle::paper::attempt::{most_touched, Built, Picks};
use oracle::paper::hash::{key_of_hash, seed};
use oracle::paper::layout::{MAX_ATTEMPTS, MAX_KEYS};
use oracle::paper::query::{contains, Record, REFUSED};
use oracle::paper::room::{outcome, with_spare};
use oracle::random::Random;
use oracle::rust::{self, Filtered};
use std::panic::{catch_unwind, set_hook, take_hook, AssertUnwindSafe};

const SPARE: usize = 3;

pub fn compare(asked: &Asked, tally: &mut Tally) -> Result<(), String> {
    // A panic of the Rust is one of its answers here, so it is not to be told on the screen as a fault of this program.
    let hook = take_hook();
    set_hook(Box::new(|_| {}));
    let compared = all(asked, tally);
    set_hook(hook);
    compared
}

fn all(asked: &Asked, tally: &mut Tally) -> Result<(), String> {
    let mut random = Random::new(asked.seed, "outside");
    show_builds(tally)?;
    show_queries(tally)?;
    crowded_lists(tally, &mut random, 400 * asked.scale)
}

/// What the Rust gives, or the words of its panic. Nothing that a call has changed is used after a panic.
fn caught<T>(call: impl FnOnce() -> T) -> Result<T, String> {
    catch_unwind(AssertUnwindSafe(call)).map_err(|panic| match panic.downcast::<String>() {
        Ok(words) => *words,
        Err(panic) => panic.downcast::<&str>().map_or("no words".into(), |words| words.to_string()),
    })
}

/// What is told of each width, once if it is the same.
fn both(narrow: String, wide: String) -> String {
    if narrow == wide {
        narrow
    } else {
        format!("{narrow}; at 16 bits: {wide}")
    }
}

fn keys_of_hashes(hashes: &[u64]) -> Vec<u64> {
    hashes.iter().map(|&hash| key_of_hash(hash, seed(1))).collect()
}

/// Lists of keys that are not among the stated inputs, the smallest of each kind, with the words that describe them.
fn lists() -> Vec<(&'static str, Vec<u64>)> {
    let crowd = crowd_of_64();
    let one_more = [&crowd[..], &[31]].concat();
    let mut another = [&crowd[..], &[33 * (1 << 58) + 30 * (1 << 18) + 31]].concat();
    another[0] = 30 * (1 << 18) + 31;
    another[32] = 32 * (1 << 58) + 31 * (1 << 18) + 30;
    vec![
        ("a key twice", vec![0, 0]),
        ("one key more than the limit", (0..=MAX_KEYS as u64).collect()),
        ("64 keys at one slot: hash i is i * 2^58 + (31 - i mod 32) * (2^18 + 1), i = 0 .. 63", keys_of_hashes(&crowd)),
        ("65 keys at one slot: these 64 hashes and hash 31", keys_of_hashes(&one_more)),
        (
            "65 keys at one slot: these 64 hashes, but number 0 is 30 * 2^18 + 31 and number 32 is 32 * 2^58 + 31 * 2^18 + 30, \
             and hash 33 * 2^58 + 30 * 2^18 + 31",
            keys_of_hashes(&another),
        ),
    ]
}

fn show_builds(tally: &mut Tally) -> Result<(), String> {
    println!("  (where hashes are given, they are those of attempt 1: key = unmix64(hash) - seed, modulo 2^64)");
    for (what, keys) in lists() {
        let lengths = with_spare(keys.len().min(MAX_KEYS), SPARE);
        let due = outcome(&keys, MAX_ATTEMPTS, lengths);
        hold_build(tally, &keys, MAX_ATTEMPTS, lengths, &due)?;
        let ours = match &due {
            Ok(picks) => format!("attempt {} ends the search", picks.attempt),
            Err(number) => format!("refused with {number}"),
        };
        if rust_as_due::<u8>(&keys, &due) || rust_as_due::<u16>(&keys, &due) {
            return Err(format!("{what}: the Rust does as document 01 says, so there is nothing to show"));
        }
        let rust = both(told::<u8>(&keys), told::<u16>(&keys));
        println!("  {what}\n    {}\n    the Rust: {rust}\n    ours, as document 01 says: {ours}", shown(&keys));
    }
    Ok(())
}

fn rust_as_due<F: Filtered>(keys: &[u64], due: &Result<Picks, u32>) -> bool {
    caught(|| rust::build::<F>(keys)) == Ok(due.as_ref().ok().map(Picks::filled))
}

/// What the Rust makes of the keys.
fn told<F: Filtered>(keys: &[u64]) -> String {
    match caught(|| rust::build::<F>(keys)) {
        Err(words) => format!("panic, {words}"),
        Ok(None) => "Err".into(),
        Ok(Some(Built { attempt, descriptor, fingerprints })) => {
            let lost = keys.iter().filter(|&&key| !rust::contains(&descriptor, &fingerprints, key)).count();
            format!("attempt {attempt} ends the search, {lost} listed keys are answered with no")
        }
    }
}

/// Bytes that are no list: the good ones of 01's smallest layout, with one thing wrong.
fn show_queries(tally: &mut Tally) -> Result<(), String> {
    let good = Record { seed: 1, segment_length: 4, mask: 3, count_length: 4 };
    let cases: [(&str, Vec<u8>, usize); 7] = [
        ("19 descriptor bytes", good.bytes()[..19].to_vec(), 12),
        ("segment length 3, mask 2", Record { segment_length: 3, mask: 2, count_length: 6, ..good }.bytes().to_vec(), 12),
        ("mask 1", Record { mask: 1, ..good }.bytes().to_vec(), 12),
        ("count length 0", Record { count_length: 0, ..good }.bytes().to_vec(), 8),
        ("count length 6", Record { count_length: 6, ..good }.bytes().to_vec(), 14),
        ("a fingerprint too many", good.bytes().to_vec(), 13),
        ("no fingerprints", good.bytes().to_vec(), 0),
    ];
    for (what, descriptor, length) in cases {
        let due = contains(&descriptor, &vec![0u8; length], 0);
        let narrow = hold_refused_query::<u8>(tally, &descriptor, length, due).map_err(|wrong| format!("{what}: {wrong}"))?;
        let wide = hold_refused_query::<u16>(tally, &descriptor, length, due).map_err(|wrong| format!("{what}: {wrong}"))?;
        let (rust, ours) = (both(narrow, wide), due - REFUSED);
        println!("  query with {what}\n    the Rust: {rust}\n    ours, as document 01 says: refused with {ours}");
    }
    Ok(())
}

/// A query over so many zeros that ours must refuse. Gives what the Rust answers.
fn hold_refused_query<F: Entries>(tally: &mut Tally, descriptor: &[u8], length: usize, due: u32) -> Result<String, String> {
    let fingerprints = vec![F::default(); length];
    let answer = F::contains(descriptor, &fingerprints, 0);
    tally.at::<F>().queries += 1;
    if answer != due || due < REFUSED {
        return Err(format!("ours answers {answer} at {} bits, due is {due}", F::BITS));
    }
    Ok(match caught(|| rust::contains(descriptor, &fingerprints, 0)) {
        Ok(yes) => if yes { "yes" } else { "no" }.into(),
        Err(words) => format!("panic, {words}"),
    })
}

/// Random lists with a slot that 64 keys or more touch, some of them stuck for some attempts, some with a repeated key.
fn crowded_lists(tally: &mut Tally, random: &mut Random, lists: usize) -> Result<(), String> {
    let (mut unlike, mut unlike_wide) = (0, 0);
    for _ in 0..lists {
        let crowd = 64 + random.any_scale(600);
        let size = crowd + random.any_scale(MAX_KEYS - crowd);
        let mut keys = crowded_list(size, crowd, random);
        if most_touched(&keys, 1) < 64 {
            return Err(format!("{}: no slot is touched by 64 keys", shown(&keys)));
        }
        if random.chance(8) {
            keys[0] = keys[random.below(size)];
        } else if random.chance(8) {
            keys.splice(..6, chain(random.word(), 5));
        }
        let lengths = with_spare(size, SPARE);
        let due = outcome(&keys, MAX_ATTEMPTS, lengths);
        hold_build(tally, &keys, MAX_ATTEMPTS, lengths, &due)?;
        unlike += usize::from(!rust_as_due::<u8>(&keys, &due));
        unlike_wide += usize::from(!rust_as_due::<u16>(&keys, &due));
    }
    let unlike = both(unlike.to_string(), unlike_wide.to_string());
    println!("  {lists} random lists with 64 keys or more at one slot: as document 01 says; the Rust does otherwise in {unlike}");
    Ok(())
}
