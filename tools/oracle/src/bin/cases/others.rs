//! Lines of `cases` that check a descriptor's numbers, and those of flush keys.

use oracle::paper::flush::{key, FIRST_HOUR, LAST_HOUR, SECONDS_OF_HOUR};
use oracle::paper::query::{read, Record, REFUSED};

pub fn due(line: &str) -> Option<String> {
    line.strip_prefix("check L ").map_or_else(|| flush(line), check)
}

/// "4 mask 3 count length 4: .."
fn check(words: &str) -> Option<String> {
    let (segment_length, rest) = words.split_once(" mask ")?;
    let (mask, rest) = rest.split_once(" count length ")?;
    let (count_length, _) = rest.split_once(": ")?;
    let [segment_length, mask, count_length] = [segment_length, mask, count_length].map(|word| word.parse().ok());
    let record = Record { seed: 1, segment_length: segment_length?, mask: mask?, count_length: count_length? };
    Some(read(&record.bytes()).map_or_else(|number| format!(": refused {number}"), |_| ": good".into()))
}

/// "second -1: flush unit 1 valve 2: .."
fn flush(line: &str) -> Option<String> {
    let (when, rest) = line.split_once(": flush unit ")?;
    let (unit, rest) = rest.split_once(" valve ")?;
    let (valve, _) = rest.split_once(": ")?;
    let made = key(unit.parse().ok()?, valve.parse().ok()?, second(when)?);
    Some(made.map_or_else(|code| format!(": refused {}", code - REFUSED), |key| format!(": key {key}")))
}

fn second(when: &str) -> Option<i64> {
    let past_last = (LAST_HOUR + 1) * SECONDS_OF_HOUR;
    let first = FIRST_HOUR * SECONDS_OF_HOUR;
    match when {
        "the last second of hour 2^39 - 1" => Some(past_last - 1),
        "the second after it" => Some(past_last),
        "the first second of hour -2^39" => Some(first),
        "the second before it" => Some(first - 1),
        "the last second of all" => Some(i64::MAX),
        "the first second of all" => Some(i64::MIN),
        _ => when.strip_prefix("second ")?.parse().ok(),
    }
}
