//! Lines of `build_cases`: a build with its limit or an attempt with its number, the keys, the answer, and what is left.

use oracle::digest::digest;
use oracle::keys::{chain, of_size};
use oracle::paper::attempt::Built;
use oracle::paper::hash::Fingerprint;
use oracle::paper::layout::MAX_KEYS;
use oracle::paper::query::{contains, read, YES};
use oracle::paper::room::{needed, outcome, outcome_of_attempt, BUFFERS};

const WIDE: &str = "16 bits: ";
const SHORT: &str = " one short: ";
const NAMES: [&str; 7] = ["fingerprints", "lone list", "touch counts", "hash sums", "positions", "order", "bucket starts"];

/// What is due after the question. The line of 16 bits has the words before its question on the line of 8 bits above it.
pub fn due(line: &str, prefix: &mut String) -> Option<String> {
    let (wide, line) = line.strip_prefix(WIDE).map_or((false, line), |rest| (true, rest));
    let begin = line.find("build of ").or_else(|| line.find("attempt of "))?;
    if !wide {
        *prefix = line[..begin].into();
    }
    let (call, rest) = line[begin..].split_once(" of ")?;
    let (keys, rest) = rest.split_once(", ")?;
    let number = rest.split_once(' ')?.1.split_once(':')?.0.parse().ok()?;
    let keys = listed(keys)?;
    let lengths = lengths(keys.len(), prefix)?;
    let made = if call == "build" { outcome(&keys, number, lengths) } else { outcome_of_attempt(&keys, number, lengths) };
    Some(match made {
        Ok(picks) if wide => built::<u16>(&keys, picks.filled()),
        Ok(picks) => built::<u8>(&keys, picks.filled()),
        Err(refusal) => refused(refusal),
    })
}

/// The keys of "5 keys 7 13 0 1 2"; longer lists are not printed, but of one kind each.
fn listed(words: &str) -> Option<Vec<u64>> {
    let (size, keys) = words.split_once(" keys")?;
    let size: usize = size.parse().ok()?;
    if size >= MAX_KEYS {
        return Some(of_size(size));
    }
    if size > 9 {
        return Some(chain(0, size as u32 - 1));
    }
    keys.split_whitespace().map(|key| key.parse().ok()).collect()
}

/// The lengths lent. What is lent beyond the needed part changes no answer.
fn lengths(size: usize, prefix: &str) -> Option<[usize; BUFFERS]> {
    if size > MAX_KEYS {
        return Some([usize::MAX; BUFFERS]);
    }
    let mut lengths = needed(size);
    if let Some(name) = prefix.strip_suffix(SHORT) {
        lengths[NAMES.iter().position(|&one| one == name)?] -= 1;
    }
    Some(lengths)
}

fn built<F: Fingerprint>(keys: &[u64], list: Built<F>) -> String {
    let record = read(&list.descriptor).expect("a built list is accepted");
    let yes = keys.iter().filter(|&&key| contains(&list.descriptor, &list.fingerprints, key) == YES).count();
    let left = if list.fingerprints.iter().all(|&one| one == F::default()) { "zeroed" } else { "written" };
    format!(
        ": attempt {} seed {} L {} count length {} A {} digest {} listed {yes}; fingerprints {left}, scratch zeroed",
        list.attempt,
        record.seed,
        record.segment_length,
        record.count_length,
        list.fingerprints.len(),
        digest(&list.fingerprints)
    )
}

fn refused(number: u32) -> String {
    let (fingerprints, scratch) = match number {
        6 => ("zeroed", "zeroed"),
        5 => ("unchanged", "zeroed"),
        _ => ("unchanged", "unchanged"),
    };
    format!(": refused {number}; fingerprints {fingerprints}, scratch {scratch}")
}
