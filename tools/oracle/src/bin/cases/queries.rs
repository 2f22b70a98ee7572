//! Lines of `cases` that ask a list, by its record or by its bytes. Its seed is 1, and each fingerprint 0 if the line does not say another.

use oracle::paper::hash::Fingerprint;
use oracle::paper::query::{contains, Record, NO, REFUSED, YES};

/// The key that a record is asked for: its hash is 0.
const HASH_ZERO: u64 = u64::MAX;
const USUAL: Record = Record { seed: 1, segment_length: 4, mask: 3, count_length: 4 };

/// The record of the last line that had one, and its number of fingerprints. The lines below it ask its bytes with as many.
pub type Above = Option<(Record, usize)>;

pub fn due(line: &str, above: &mut Above) -> Option<String> {
    let (each, line) = match line.strip_prefix("each fingerprint ") {
        Some(rest) => rest.split_once(": ")?,
        None => ("0", line),
    };
    let (wide, line) = line.strip_prefix("16 bits: ").map_or((false, line), |rest| (true, rest));
    let (question, _) = line.strip_prefix("query ")?.split_once(": ")?;
    let (descriptor, key) = asked(question, above)?;
    let number = number_after("fingerprints", question)? as usize;
    let each = each.parse().ok()?;
    let code = if wide { answer::<u16>(&descriptor, each, number, key) } else { answer::<u8>(&descriptor, each, number, key) };
    Some(match question.strip_prefix("bytes") {
        Some(_) => format!(": {}; C is told {code}", in_words(code)),
        None => format!(": {}", in_words(code)),
    })
}

/// The bytes that are asked, and the key.
fn asked(question: &str, above: &mut Above) -> Option<(Vec<u8>, u64)> {
    let number = number_after("fingerprints", question)? as usize;
    let Some(bytes) = number_after("bytes", question) else {
        let field = |name| Some(number_after(name, question)? as u32);
        let record = Record { seed: 1, segment_length: field("L")?, mask: field("mask")?, count_length: field("length")? };
        *above = Some((record, number));
        return Some((record.bytes().to_vec(), HASH_ZERO));
    };
    let record = above.filter(|&(_, fingerprints)| fingerprints == number).map_or(USUAL, |(record, _)| record);
    let mut descriptor = record.bytes().to_vec();
    descriptor.resize(bytes as usize, 0);
    Some((descriptor, number_after("key", question)?))
}

fn number_after(name: &str, words: &str) -> Option<u64> {
    words.split(' ').skip_while(|&word| word != name).nth(1)?.parse().ok()
}

fn answer<F: Fingerprint>(descriptor: &[u8], each: u64, number: usize, key: u64) -> u32 {
    contains(descriptor, &vec![F::low_bits(each); number], key)
}

fn in_words(code: u32) -> String {
    match code {
        NO => "no".into(),
        YES => "yes".into(),
        _ => format!("refused {}", code - REFUSED),
    }
}
