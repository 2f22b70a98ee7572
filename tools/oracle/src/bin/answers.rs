//! Writes the Rust's answers for lists that a program can make again by itself, to be replayed where there is no Rust.
//! The first lines say what stands in the others.

use oracle::digest::digest;
use oracle::keys::{chain, hash_zero_key, of_size, SMALL_STUCK_LISTS};
use oracle::paper::attempt::Built;
use oracle::paper::layout::{MAX_ATTEMPTS, MAX_KEYS};
use oracle::paper::query::read;
use oracle::rust::{self, Filtered};
use std::io::{self, BufWriter, Write};
use std::process::ExitCode;

const HEAD: &str = "\
# Made by tools/make-replay: what try_from of BinaryFuse8 and BinaryFuse16 of the Rust crate xorf 0.13.0 answers, built for release.
# A line is: 0 n, or 1 n and n keys; then for 8 bits, and again for 16: seed, segment length, segment count length, digest.
# After 0 n the keys are mix64(n * 2^32 + i + 1) for i = 0 .. n-1. Four zeros: no attempt from 1 to 1000 is free.
# The digest is that of the fingerprints' bytes, the low byte of each first. It begins as 14695981039346656037;
# each byte is xored into it, then it is multiplied by 1099511628211 modulo 2^64.";

/// The lists whose keys stand in the file: small ones that stick at first, keys whose hash is 0, chains up to the last attempt.
fn special_lists() -> Vec<Vec<u64>> {
    let mut lists: Vec<Vec<u64>> = SMALL_STUCK_LISTS.iter().map(|(keys, _)| keys.to_vec()).collect();
    for attempt in 1..=3 {
        let zero = hash_zero_key(attempt);
        let stuck_before = chain(0, attempt - 1);
        lists.push(vec![zero]);
        lists.push([&stuck_before[..], &[zero]].concat());
        lists.push([&[zero], &stuck_before[..], &[1, 2, 3, 4, 5, 6, 7]].concat());
    }
    lists.extend((1..=8).map(|links| chain(0, links)));
    lists.extend([MAX_ATTEMPTS - 1, MAX_ATTEMPTS].map(|links| chain(0, links)));
    lists
}

/// What the Rust answers at one width.
fn answer<F: Filtered>(keys: &[u64]) -> String {
    let Some(Built { descriptor, fingerprints, .. }) = rust::build::<F>(keys) else {
        return "0 0 0 0".into();
    };
    let record = read(&descriptor).expect("the Rust's descriptor is accepted");
    format!("{} {} {} {}", record.seed, record.segment_length, record.count_length, digest(&fingerprints))
}

fn answers(keys: &[u64]) -> String {
    format!("{} {}", answer::<u8>(keys), answer::<u16>(keys))
}

fn write_list(out: &mut impl Write) -> io::Result<()> {
    writeln!(out, "{HEAD}")?;
    for size in 0..=MAX_KEYS {
        writeln!(out, "0 {size} {}", answers(&of_size(size)))?;
    }
    for keys in special_lists() {
        let listed: String = keys.iter().map(|key| format!("{key} ")).collect();
        writeln!(out, "1 {} {listed}{}", keys.len(), answers(&keys))?;
    }
    Ok(())
}

fn main() -> ExitCode {
    let mut out = BufWriter::new(io::stdout().lock());
    match write_list(&mut out).and_then(|()| out.flush()) {
        Ok(()) => ExitCode::SUCCESS,
        Err(error) => {
            eprintln!("answers: {error}");
            ExitCode::FAILURE
        }
    }
}
