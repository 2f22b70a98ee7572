//! Holds what the programs `cases`, `build_cases` and `flushlist` should print, and the example, to a plain reading of documents 01 and 02
//! and to the Rust: each question is answered anew, apart from our code. The gate holds what the programs print to the same lines.
//! usage: cases FOLDER, the folder of the repository

mod builds;
mod lists;
mod others;
mod queries;

use std::fs;
use std::process::ExitCode;

/// Lines about a descriptor's bytes, which do not tell the record that is written or read.
const OF_BYTES: [&str; 4] = ["write into ", "write: ", "leaves ", "read bytes "];

fn read(folder: &str, file: &str) -> Result<String, String> {
    fs::read_to_string(format!("{folder}/{file}")).map_err(|error| format!("{file}: {error}"))
}

/// Compares the answer of every line but those about bytes with the one that is due for its question.
fn hold_lines(folder: &str, file: &str, mut due: impl FnMut(&str) -> Option<String>) -> Result<(), String> {
    let text = read(folder, file)?;
    let mut held = 0;
    for (number, line) in text.lines().enumerate() {
        if OF_BYTES.iter().any(|start| line.starts_with(start)) {
            continue;
        }
        let answer = due(line).ok_or_else(|| format!("{file}, line {}: '{line}' is no question known here", number + 1))?;
        if !line.ends_with(&answer) {
            return Err(format!("{file}, line {}: '{line}', due is '{answer}'", number + 1));
        }
        held += 1;
    }
    println!("{file}: {held} of {} lines answered anew, as documents 01 and 02 say", text.lines().count());
    Ok(())
}

/// Compares a whole text with the one that is due.
fn hold_text(file: &str, stored: &str, due: Option<String>) -> Result<(), String> {
    let due = due.ok_or_else(|| format!("{file}: no text is due, since the questions are not understood"))?;
    if let Some((line, due)) = stored.lines().zip(due.lines()).find(|(line, due)| line != due) {
        return Err(format!("{file}: '{line}', due is '{due}'"));
    }
    if stored != due {
        return Err(format!("{file}: {} lines, due are {}", stored.lines().count(), due.lines().count()));
    }
    println!("{file}: as the Rust's lists of the same keys answer");
    Ok(())
}

fn hold_all(folder: &str) -> Result<(), String> {
    let (mut prefix, mut above) = (String::new(), None);
    hold_lines(folder, "crates/build_cases/stdout", |line| builds::due(line, &mut prefix))?;
    hold_lines(folder, "crates/cases/stdout", |line| others::due(line).or_else(|| queries::due(line, &mut above)))?;
    let (sample, stored) = ("crates/flushlist/stdout", read(folder, "crates/flushlist/stdout")?);
    hold_text(sample, &stored, lists::of_sample(&read(folder, "crates/flushlist/data/due.txt")?, &stored))?;
    let example = "tools/c/controller.expected";
    hold_text(example, &read(folder, example)?, lists::of_example(&read(folder, "examples/controller.c")?))
}

fn main() -> ExitCode {
    match hold_all(&std::env::args().nth(1).unwrap_or_else(|| ".".into())) {
        Ok(()) => {
            println!("RIGHT: what the programs should print is as documents 01 and 02 and the Rust say");
            ExitCode::SUCCESS
        }
        Err(wrong) => {
            println!("WRONG: {wrong}");
            ExitCode::FAILURE
        }
    }
}
