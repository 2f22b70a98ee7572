//! The list that `flushlist` packs of its sample text: the bytes of the file are those of the Rust's own list, and the Rust's reader takes
//! them as they lie there, the twenty bytes first and the fingerprints after them.

use crate::hold::List;
use crate::tally::Tally;
use crate::Asked;
use oracle::keys::keys_of_text;
use oracle::paper::query::accepted;
use oracle::random::Random;
use oracle::rust;
use std::fs;

const UNLISTED_QUERIES: usize = 100_000;

pub fn compare(asked: &Asked, tally: &mut Tally) -> Result<(), String> {
    let Some(packed) = &asked.packed else {
        println!("  left out: no packed list is named");
        return Ok(());
    };
    let unread = |error| format!("{} or {} cannot be read: {error}", packed.text, packed.list);
    let keys = keys_of_text(&fs::read_to_string(&packed.text).map_err(unread)?);
    let bytes = fs::read(&packed.list).map_err(unread)?;
    let (descriptor, fingerprints) = bytes.split_at(20.min(bytes.len()));
    accepted(descriptor, fingerprints.len()).map_err(|number| format!("{} is refused with {number}", packed.list))?;
    let due = rust::build::<u8>(&keys).ok_or("the Rust does not build the sample")?;
    if descriptor != due.descriptor || fingerprints != due.fingerprints {
        return Err(format!("{}: not the bytes of the Rust's list of the same {} keys", packed.list, keys.len()));
    }
    let list = List::accepted(descriptor, fingerprints);
    list.hold_queries(tally, &keys, UNLISTED_QUERIES, &mut Random::new(asked.seed, "packed"))?;
    let (length, size) = (bytes.len(), keys.len());
    println!("  {length} bytes: those of the Rust's list of the same {size} keys, and its BinaryFuse8Ref answers as ours");
    Ok(())
}
