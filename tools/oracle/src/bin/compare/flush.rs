//! Flush keys against the documents' formula: borders and random triples.

use crate::tally::Tally;
use crate::{ours, Asked};
use oracle::paper::flush::{key, FIRST_HOUR, LAST_HOUR, SECONDS_OF_HOUR};
use oracle::paper::query::REFUSED;
use oracle::random::Random;

/// What a refusal must leave where the key would go.
const UNTOUCHED: u64 = 0x5a5a_5a5a_5a5a_5a5a;

pub fn compare(asked: &Asked, tally: &mut Tally) -> Result<(), String> {
    let mut random = Random::new(asked.seed, "flush");
    let hours = [-2, -1, 0, 1, 2, FIRST_HOUR, FIRST_HOUR + 1, LAST_HOUR, LAST_HOUR + 1];
    let borders = hours.map(|hour| hour * SECONDS_OF_HOUR);
    for border in borders.into_iter().chain([i64::MAX, i64::MIN]) {
        for seconds in [border.wrapping_sub(1), border, border.wrapping_add(1)] {
            for (unit, valve) in [(0, 0), (1, 2), (u16::MAX, u8::MAX)] {
                hold(tally, unit, valve, seconds)?;
            }
        }
    }
    for _ in 0..200_000 * asked.scale {
        let triple = random.word();
        let seconds = random.word() as i64 >> random.below(64);
        hold(tally, (triple >> 8) as u16, triple as u8, seconds)?;
    }
    println!("  borders and random triples: as documents 01 and 02 say");
    Ok(())
}

fn hold(tally: &mut Tally, unit: u16, valve: u8, seconds: i64) -> Result<(), String> {
    let mut ours = UNTOUCHED;
    let answer = ours::flush_key(unit, valve, seconds, &mut ours);
    let due = key(unit, valve, seconds);
    tally.flush_keys += 1;
    tally.flush_keys_refused += u64::from(due == Err(REFUSED + 12));
    let (due_answer, due_key) = due.map_or_else(|refused| (refused, UNTOUCHED), |key| (0, key));
    if (answer, ours) == (due_answer, due_key) {
        return Ok(());
    }
    Err(format!(
        "unit {unit}, valve {valve}, second {seconds}: ours answers {answer} and key {ours}, due are {due_answer} and {due_key}"
    ))
}
