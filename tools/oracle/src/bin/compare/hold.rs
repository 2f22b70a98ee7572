//! The comparisons that every section makes.

use crate::ours::Entries;
use crate::tally::Tally;
use oracle::paper::attempt::{most_touched, search, Built, Picks};
use oracle::paper::layout::MAX_ATTEMPTS;
use oracle::paper::query::{NO, YES};
use oracle::paper::room::{with_spare, Room, BUFFERS, BUILD_REFUSED};
use oracle::random::Random;
use oracle::rust;
use xorf::Filter;

/// The Rust counts touches four at a time in a u8: from here on it is not the judge.
const FIRST_WRAPPING_TOUCHES: u32 = 64;
/// Elements in each buffer beyond what is needed, which must stay as they were.
const SPARE: usize = 5;
const UNLISTED_QUERIES: usize = 500;

fn in_words(answer: u32) -> String {
    if answer > BUILD_REFUSED {
        format!("refusal {}", answer - BUILD_REFUSED)
    } else {
        format!("attempt {answer}")
    }
}

/// The list in a message: its length and its first keys, enough to know it again.
pub fn shown(keys: &[u64]) -> String {
    let first: Vec<String> = keys.iter().take(8).map(u64::to_string).collect();
    let more = if keys.len() > first.len() { ", .." } else { "" };
    format!("{} keys [{}{more}]", keys.len(), first.join(", "))
}

/// A build by ours at one width, in a room of these lengths, must answer with the outcome that is due and leave the whole room as it
/// says. Gives the room.
fn hold_width<F: Entries>(
    tally: &mut Tally,
    keys: &[u64],
    limit: u32,
    lengths: [usize; BUFFERS],
    due: &Result<Built<F>, u32>,
) -> Result<Room<F>, String> {
    let mut ours = Room::patterned(lengths);
    let mut expected = ours.clone();
    let answer = F::build(keys, limit, &mut ours);
    let due_answer = expected.leave(keys.len(), due);
    let counts = tally.at::<F>();
    counts.builds += 1;
    if let Err(number) = due {
        *counts.refusals.entry(*number).or_default() += 1;
    }
    let told = |what: String| format!("{} at {} bits with limit {limit}: {what}", shown(keys), F::BITS);
    if answer != due_answer {
        return Err(told(format!("ours gives {}, due is {}", in_words(answer), in_words(due_answer))));
    }
    match ours.difference(&expected) {
        Some(what) => Err(told(format!("{} is as due, but {what}", in_words(answer)))),
        None => Ok(ours),
    }
}

/// What two builds of the same keys, in rooms of the same lengths, leave: the wide fingerprints modulo 256 are the narrow ones, in
/// the list and beyond it, and all else is the same.
fn hold_modulo_256(keys: &[u64], narrow: &Room<u8>, wide: Room<u16>) -> Result<(), String> {
    match wide.modulo_256().difference(narrow) {
        Some(what) => Err(format!("{}: what 16 bits leave, modulo 256, is not what 8 bits leave: {what}", shown(keys))),
        None => Ok(()),
    }
}

/// Ours at each width must give the outcome that is due.
pub fn hold_build(
    tally: &mut Tally,
    keys: &[u64],
    limit: u32,
    lengths: [usize; BUFFERS],
    due: &Result<Picks, u32>,
) -> Result<(), String> {
    let due = due.as_ref().map_err(|&number| number);
    let narrow = hold_width(tally, keys, limit, lengths, &due.map(Picks::filled))?;
    let wide = hold_width(tally, keys, limit, lengths, &due.map(Picks::filled))?;
    hold_modulo_256(keys, &narrow, wide)
}

/// The bytes of one list, to be asked of ours and of the Rust.
pub struct List<'a, F: Entries> {
    descriptor: &'a [u8],
    fingerprints: &'a [F],
    rust: F::Reader<'a>,
}

impl<'a, F: Entries> List<'a, F> {
    /// The checks of document 01 accept the descriptor with these fingerprints.
    pub fn accepted(descriptor: &'a [u8], fingerprints: &'a [F]) -> Self {
        List { descriptor, fingerprints, rust: rust::reader(descriptor, fingerprints) }
    }

    /// Ours must answer as the Rust does. Gives the answer.
    pub fn hold_query(&self, tally: &mut Tally, key: u64) -> Result<u32, String> {
        let answer = F::contains(self.descriptor, self.fingerprints, key);
        let due = if self.rust.contains(&key) { YES } else { NO };
        tally.at::<F>().queries += 1;
        if answer == due {
            return Ok(answer);
        }
        let asked = format!("key {key} asked of descriptor {:02x?} at {} bits", self.descriptor, F::BITS);
        Err(format!("{asked}: ours answers {answer}, the Rust {due}"))
    }

    /// Both must answer yes to every key of the list, and the same to so many others.
    pub fn hold_queries(&self, tally: &mut Tally, keys: &[u64], others: usize, random: &mut Random) -> Result<(), String> {
        for &key in keys {
            if self.hold_query(tally, key)? != YES {
                return Err(format!("{} at {} bits: listed key {key} is answered with no", shown(keys), F::BITS));
            }
        }
        (0..others).try_for_each(|_| self.hold_query(tally, random.word()).map(|_| ()))
    }
}

/// All of a list within the stated inputs, at each width: the Rust, the plain reading and ours give the same bytes, and the same
/// answers to every listed key and to some others. Gives the attempt.
pub fn hold_list(tally: &mut Tally, keys: &[u64], random: &mut Random) -> Result<u32, String> {
    let picks = search(keys, MAX_ATTEMPTS).ok_or_else(|| format!("{}: no attempt is free", shown(keys)))?;
    for attempt in 1..=picks.attempt {
        tally.most_touched = tally.most_touched.max(most_touched(keys, attempt));
    }
    if tally.most_touched >= FIRST_WRAPPING_TOUCHES {
        return Err(format!("{}: a slot is touched too often for the Rust to be the judge", shown(keys)));
    }
    let narrow = hold_list_of_width(tally, keys, &picks, random)?;
    let wide = hold_list_of_width(tally, keys, &picks, random)?;
    hold_modulo_256(keys, &narrow, wide)?;
    Ok(picks.attempt)
}

fn hold_list_of_width<F: Entries>(
    tally: &mut Tally,
    keys: &[u64],
    picks: &Picks,
    random: &mut Random,
) -> Result<Room<F>, String> {
    let built = picks.filled();
    if rust::build(keys).as_ref() != Some(&built) {
        return Err(format!("{} at {} bits: the Rust and the plain reading of document 01 differ", shown(keys), F::BITS));
    }
    let room = hold_width(tally, keys, MAX_ATTEMPTS, with_spare(keys.len(), SPARE), &Ok(built.clone()))?;
    *tally.at::<F>().attempts.entry(built.attempt).or_default() += 1;
    // What is asked are the bytes that ours has written, so the Rust's own reader takes them too.
    let (descriptor, fingerprints) = (&room.descriptor[..built.descriptor.len()], &room.fingerprints[..built.fingerprints.len()]);
    List::accepted(descriptor, fingerprints).hold_queries(tally, keys, UNLISTED_QUERIES, random)?;
    Ok(room)
}
