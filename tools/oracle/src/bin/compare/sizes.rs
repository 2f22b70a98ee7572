//! Every size from none to the limit, for each family of keys.

use crate::hold::hold_list;
use crate::tally::Tally;
use crate::Asked;
use oracle::keys::FAMILIES;
use oracle::paper::layout::MAX_KEYS;
use oracle::random::Random;

/// Rounds at scale 1, each with other random numbers.
const ROUNDS: usize = 3;

pub fn compare(asked: &Asked, tally: &mut Tally) -> Result<(), String> {
    let mut random = Random::new(asked.seed, "sizes");
    let rounds = ROUNDS * asked.scale;
    for round in 1..=rounds {
        for (name, family) in FAMILIES {
            for size in 0..=MAX_KEYS {
                let keys = family.keys(size, &mut random);
                hold_list(tally, &keys, &mut random).map_err(|what| format!("keys {name}: {what}"))?;
            }
            println!("  round {round} of {rounds}: sizes 0..{MAX_KEYS}, keys {name}: equal (so far {})", tally.so_far());
        }
    }
    Ok(())
}
