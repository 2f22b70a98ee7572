//! Holds our library to the Rust crate on the stated inputs, and to a plain reading of document 01 elsewhere, at 8 and at 16 bits.
//! Stops at the first difference, says what it was, and ends with status 1. With --section it makes one section alone, for a machine that is
//! slow.

#![no_main]

#[path = "../../ours.rs"]
mod ours;
#[path = "../../start.rs"]
mod start;

mod attempts;
mod descriptors;
mod flush;
mod hold;
mod outside;
mod packed;
mod queries;
mod refusals;
mod sizes;
mod tally;

use std::time::Instant;
use tally::Tally;

/// What the command line asks for.
pub struct Asked {
    pub seed: u64,
    pub scale: usize,
    pub packed: Option<Packed>,
    section: Option<usize>,
}

/// A text of the clerk's tool, and the list that it packed of it.
pub struct Packed {
    pub text: String,
    pub list: String,
}

type Section = fn(&Asked, &mut Tally) -> Result<(), String>;

const SECTIONS: [(&str, Section); 8] = [
    ("every size", sizes::compare),
    ("lists that need several attempts", attempts::compare),
    ("queries of random descriptors and fingerprints", queries::compare),
    ("damaged descriptors", descriptors::compare),
    ("refusals of the build, and what they leave", refusals::compare),
    ("flush keys", flush::compare),
    ("the list that flushlist packs, in the Rust's own reader", packed::compare),
    ("outside the stated inputs", outside::compare),
];

fn asked() -> Option<Asked> {
    let mut asked = Asked { seed: 1, scale: 1, packed: None, section: None };
    let mut words = std::env::args().skip(1);
    while let Some(word) = words.next() {
        let next = words.next()?;
        match word.as_str() {
            "--seed" => asked.seed = next.parse().ok()?,
            "--scale" => asked.scale = next.parse().ok().filter(|&scale| scale > 0)?,
            "--section" => asked.section = Some(next.parse().ok().filter(|number| (1..=SECTIONS.len()).contains(number))?),
            "--packed" => asked.packed = Some(Packed { text: next, list: words.next()? }),
            _ => return None,
        }
    }
    Some(asked)
}

/// Gives the exit status.
fn run() -> i32 {
    let Some(asked) = asked() else {
        eprintln!("usage: compare [--seed N] [--scale N] [--packed TEXT LIST] [--section N]   (a scale is at least 1)");
        return 2;
    };
    let begun = Instant::now();
    let mut tally = Tally::default();
    let chosen = |number| asked.section.map_or(true, |section| section == number);
    for (number, (name, compare)) in (1..).zip(SECTIONS).filter(|&(number, _)| chosen(number)) {
        println!("{number} of {}: {name}", SECTIONS.len());
        if let Err(difference) = compare(&asked, &mut tally) {
            println!("DIFFERENT: {difference}");
            let machine = std::env::consts::ARCH;
            println!("To see it again: tools/compare --seed {} --scale {} --archive {machine}", asked.seed, asked.scale);
            return 1;
        }
    }
    println!("{tally}");
    let alone = asked.section.map_or(String::new(), |section| format!(" in section {section} alone"));
    println!("EQUAL{alone} at seed {}, scale {}, in {} s", asked.seed, asked.scale, begun.elapsed().as_secs());
    0
}
