//! "Flush key" as document 02, wish 3, corrects it, with the numbers of the C entry.

use super::query::REFUSED;

pub const SECONDS_OF_HOUR: i64 = 3_600;
pub const FIRST_HOUR: i64 = -(1 << 39);
pub const LAST_HOUR: i64 = (1 << 39) - 1;

/// The key, or the entry's answer for refusal 12.
pub fn key(unit: u16, valve: u8, seconds: i64) -> Result<u64, u32> {
    let hour = seconds.div_euclid(SECONDS_OF_HOUR);
    if !(FIRST_HOUR..=LAST_HOUR).contains(&hour) {
        return Err(REFUSED + 12);
    }
    Ok((u64::from(unit) << 48) + (u64::from(valve) << 40) + hour.rem_euclid(1 << 40) as u64)
}
