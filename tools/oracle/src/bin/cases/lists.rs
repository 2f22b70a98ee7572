//! What the clerk's tool prints of its sample, and the example of its own flushes: the lists are the Rust's, the flush keys those of the
//! plain reading.

use oracle::keys::{key_on, keys_of_text};
use oracle::paper::attempt::Built;
use oracle::paper::flush::{key, SECONDS_OF_HOUR};
use oracle::rust::{build, contains, Filtered};
use std::fmt::Write;

fn asked<F: Filtered>(list: &Built<F>, key: u64) -> bool {
    contains(&list.descriptor, &list.fingerprints, key)
}

/// The lines that are due for the sample list and the questions among the stored lines.
pub fn of_sample(text: &str, stored: &str) -> Option<String> {
    const ASK: &str = "$ flushlist ask due.list ";
    let keys = keys_of_text(text);
    let list = build::<u8>(&keys)?;
    let mut due = String::from("$ flushlist pack due.txt due.list\n");
    writeln!(due, "due.list: keys {}, fingerprints {}, attempt {}", keys.len(), list.fingerprints.len(), list.attempt).ok()?;
    for question in stored.lines().filter_map(|line| line.strip_prefix(ASK)) {
        writeln!(due, "{ASK}{question}\n{}", if asked(&list, key_on(question)?) { "due" } else { "not due" }).ok()?;
    }
    Some(due)
}

const UNIT: u16 = 7;
const VALVES: u8 = 4;
const FIRST_HOUR: i64 = -10;
const HOURS: i64 = 15;
const HOURS_OF_YEAR: i64 = 365 * 24;
const TWENTY_PAST: i64 = 20 * 60;

/// The flushes of the own list, valve and hour, as they stand in the program.
fn own_flushes(source: &str) -> Option<Vec<(u8, i64)>> {
    let (_, begin) = source.split_once("flushes[OWN_FLUSHES] = {{")?;
    let (pairs, _) = begin.split_once("}};")?;
    let pair = |words: &str| {
        let (valve, hour) = words.split_once(", ")?;
        Some((valve.parse().ok()?, hour.parse().ok()?))
    };
    pairs.split("}, {").map(pair).collect()
}

/// How often a list has a valve flushed in a year in which nothing is due.
fn needless<F: Filtered>(list: &Built<F>) -> usize {
    let valves = |hour| (0..VALVES).filter(move |&valve| asked(list, key_at(valve, hour * SECONDS_OF_HOUR)));
    (HOURS..HOURS + HOURS_OF_YEAR).map(|hour| valves(hour).count()).sum()
}

fn key_at(valve: u8, seconds: i64) -> u64 {
    key(UNIT, valve, seconds).expect("a good hour")
}

/// The lines that are due from the example with this source.
pub fn of_example(source: &str) -> Option<String> {
    let keys: Vec<u64> = own_flushes(source)?.into_iter().map(|(valve, hour)| key_at(valve, hour * SECONDS_OF_HOUR)).collect();
    let (list, north) = (build::<u8>(&keys)?, build::<u16>(&keys)?);
    let (bytes, north_bytes) = (20 + list.fingerprints.len(), 20 + 2 * north.fingerprints.len());
    let mut due = format!("built a list of {} flushes in {bytes} bytes, at attempt {}\n", keys.len(), list.attempt);
    for hour in FIRST_HOUR..FIRST_HOUR + HOURS {
        let seconds = hour * SECONDS_OF_HOUR + TWENTY_PAST;
        let valves = (0..VALVES).filter(|&valve| asked(&list, key_at(valve, seconds))).map(|valve| valve.to_string());
        let said = match valves.collect::<Vec<_>>() {
            none if none.is_empty() => "nothing due".into(),
            some => format!("would flush valve {}", some.join(", ")),
        };
        writeln!(due, "local hour {hour:3}: {said}").ok()?;
    }
    writeln!(due, "built the north island's list in {north_bytes} bytes, at attempt {}", north.attempt).ok()?;
    writeln!(due, "needless flushes in a year: {}, on the north island {}", needless(&list), needless(&north)).ok()?;
    Some(due)
}
