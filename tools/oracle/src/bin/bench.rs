//! Time of our C entries beside the Rust's, in one run: the least of many batches on each side, taken in turn, so that a noisy
//! machine is noisy for both. Each line of the output is: name, what is counted, the numbers of its lists, nanoseconds of the Rust,
//! nanoseconds of ours.
//!
//! usage: bench                                   the times
//!        bench --names                           the lines without times
//!        bench NAME SIDE REPEATS NUMBERS..       only does that much of the work, rust or ours, with the lists of these numbers, for a tool
//!                                                that counts instructions: it is spared the search for lists of the kind that is counted

#![no_main]

#[path = "../ours.rs"]
mod ours;
#[path = "../start.rs"]
mod start;

use oracle::keys::Family;
use oracle::paper::attempt::{attempt, search, Built};
use oracle::paper::layout::{MAX_ATTEMPTS, MAX_KEYS};
use oracle::paper::room::{needed, Room};
use oracle::random::Random;
use oracle::rust;
use ours::Entries;
use std::hint::black_box;
use std::time::Instant;
use xorf::Filter;

/// Many short batches, spread over the whole run: some of them meet no disturbance. All those of queries are ten million.
const ROUNDS: usize = 20;
const BATCHES_OF_ROUND: usize = 5;
const QUERIES_OF_BATCH: usize = 100_000;
const KEYS_OF_BATCH: usize = 8 * MAX_KEYS;
/// Keys that are asked again and again: few enough for the cache, since reading them is not what is measured.
const ASKED: usize = 10_000;
/// Lists that are built again and again.
const LISTS: usize = 8;

/// The same work on each side. The number that comes out shows that it was the same.
trait Work {
    fn rust(&mut self, repeats: usize) -> u64;
    fn ours(&mut self, repeats: usize) -> u64;
}

/// `contains` of the Rust's reader, its descriptor parsed once, and our C entry, which reads and checks the twenty bytes at every call.
struct Queries<F> {
    list: Built<F>,
    asked: Vec<u64>,
}

impl<F: Entries> Queries<F> {
    /// With `mixed`, every second key on average is a listed one, in no order that a machine could learn; without, none is.
    fn of_size(size: usize, mixed: bool, number: u64) -> Self {
        let mut random = Random::new(number, "queries");
        let keys = Family::Random.keys(size, &mut random);
        let list = search(&keys, MAX_ATTEMPTS).expect("random keys are built").filled();
        let asked = (0..ASKED).map(|_| if mixed && random.chance(2) { random.pick(&keys) } else { random.word() }).collect();
        Queries { list, asked }
    }
}

impl<F: Entries> Work for Queries<F> {
    fn rust(&mut self, repeats: usize) -> u64 {
        let reader = black_box(rust::reader(&self.list.descriptor, &self.list.fingerprints));
        let all = || self.asked.iter().map(|key| u64::from(reader.contains(key))).sum::<u64>();
        (0..repeats / ASKED).map(|_| all()).sum()
    }

    fn ours(&mut self, repeats: usize) -> u64 {
        let Built { descriptor, fingerprints, .. } = &self.list;
        let all = || self.asked.iter().map(|&key| u64::from(F::contains(descriptor, fingerprints, key))).sum::<u64>();
        (0..repeats / ASKED).map(|_| all()).sum()
    }
}

/// `try_from` of the Rust's filter, with the memory that it takes for itself, and our C entry, with memory that is lent once.
struct Builds<F> {
    lists: Vec<Vec<u64>>,
    room: Room<F>,
}

impl<F: Entries> Builds<F> {
    fn of_size(size: usize, numbers: &[u64]) -> Self {
        Builds { lists: numbers.iter().map(|&number| list(size, number)).collect(), room: Room::patterned(needed(size)) }
    }
}

fn list(size: usize, number: u64) -> Vec<u64> {
    Family::Random.keys(size, &mut Random::new(number, "builds"))
}

/// The numbers of the first lists whose search ends at this attempt.
fn numbers_of_lists(size: usize, ends_at: u32) -> Vec<u64> {
    let ends = |keys: &[u64]| (1..=ends_at).find(|&number| attempt(keys, number).is_some()) == Some(ends_at);
    (1..).filter(|&number| ends(&list(size, number))).take(LISTS).collect()
}

impl<F: Entries> Work for Builds<F> {
    fn rust(&mut self, repeats: usize) -> u64 {
        let first = |keys: &Vec<u64>| -> u64 {
            let filter = rust::filter::<F>(keys).expect("a list that is built");
            F::fingerprints(black_box(&filter))[0].into()
        };
        self.lists.iter().cycle().take(repeats).map(first).sum()
    }

    fn ours(&mut self, repeats: usize) -> u64 {
        let mut first = |keys: &Vec<u64>| -> u64 {
            F::build(keys, MAX_ATTEMPTS, &mut self.room);
            black_box(&self.room).fingerprints[0].into()
        };
        self.lists.iter().cycle().take(repeats).map(&mut first).sum()
    }
}

/// The name of a bench, and what makes it ready, with the lists of some numbers or of those that it finds.
type Named = (&'static str, fn(Option<Vec<u64>>) -> Bench);

const BENCHES: [Named; 11] = [
    ("query-mixed", |numbers| Bench::query::<u8>(true, numbers)),
    ("query-unlisted", |numbers| Bench::query::<u8>(false, numbers)),
    ("query16-mixed", |numbers| Bench::query::<u16>(true, numbers)),
    ("query16-unlisted", |numbers| Bench::query::<u16>(false, numbers)),
    ("build-100", |numbers| Bench::build::<u8>(100, 1, numbers)),
    ("build-1000", |numbers| Bench::build::<u8>(1000, 1, numbers)),
    ("build-most", |numbers| Bench::build::<u8>(MAX_KEYS, 1, numbers)),
    ("build-most-second-attempt", |numbers| Bench::build::<u8>(MAX_KEYS, 2, numbers)),
    ("build16-100", |numbers| Bench::build::<u16>(100, 1, numbers)),
    ("build16-1000", |numbers| Bench::build::<u16>(1000, 1, numbers)),
    ("build16-most", |numbers| Bench::build::<u16>(MAX_KEYS, 1, numbers)),
];

/// Some work, what one repeat of it is called, the numbers of its lists, the repeats of a batch, and the least time of a repeat so far.
struct Bench {
    work: Box<dyn Work>,
    what: String,
    numbers: Vec<u64>,
    repeats: usize,
    rust: f64,
    ours: f64,
}

impl Bench {
    fn new(work: impl Work + 'static, what: String, numbers: Vec<u64>, repeats: usize) -> Self {
        Bench { work: Box::new(work), what, numbers, repeats, rust: f64::INFINITY, ours: f64::INFINITY }
    }

    fn query<F: Entries + 'static>(mixed: bool, numbers: Option<Vec<u64>>) -> Self {
        let numbers = numbers.unwrap_or(vec![1]);
        let listed = if mixed { "half" } else { "none" };
        let what = format!("{} bits: query of a list of {MAX_KEYS} keys, {listed} of those asked listed", F::BITS);
        Bench::new(Queries::<F>::of_size(MAX_KEYS, mixed, numbers[0]), what, numbers, QUERIES_OF_BATCH)
    }

    fn build<F: Entries + 'static>(size: usize, ends_at: u32, numbers: Option<Vec<u64>>) -> Self {
        let numbers = numbers.unwrap_or_else(|| numbers_of_lists(size, ends_at));
        let what = format!("{} bits: build of {size} keys, ends at attempt {ends_at}", F::BITS);
        Bench::new(Builds::<F>::of_size(size, &numbers), what, numbers, KEYS_OF_BATCH / size)
    }

    /// The line of the output, but for the times.
    fn line(&self, name: &str) -> String {
        let numbers: Vec<String> = self.numbers.iter().map(u64::to_string).collect();
        format!("{name}\t{}\t{}", self.what, numbers.join(" "))
    }

    fn round(&mut self) -> Result<(), String> {
        for _ in 0..BATCHES_OF_ROUND {
            let (rust, rust_number) = nanoseconds(self.repeats, |repeats| self.work.rust(repeats));
            let (ours, ours_number) = nanoseconds(self.repeats, |repeats| self.work.ours(repeats));
            if rust_number != ours_number {
                return Err(format!("{}: the sides do not give the same", self.what));
            }
            self.rust = self.rust.min(rust);
            self.ours = self.ours.min(ours);
        }
        Ok(())
    }
}

/// The time of one repeat, and what came out.
fn nanoseconds(repeats: usize, side: impl FnOnce(usize) -> u64) -> (f64, u64) {
    let begun = Instant::now();
    let number = side(black_box(repeats));
    (begun.elapsed().as_secs_f64() * 1e9 / repeats as f64, number)
}

fn times() -> Result<(), String> {
    let mut benches = BENCHES.map(|(name, bench)| (name, bench(None)));
    for _ in 0..ROUNDS {
        benches.iter_mut().try_for_each(|(_, bench)| bench.round())?;
    }
    for (name, bench) in benches {
        println!("{}\t{:.2}\t{:.2}", bench.line(name), bench.rust, bench.ours);
    }
    Ok(())
}

fn names() {
    for (name, bench) in BENCHES {
        println!("{}", bench(None).line(name));
    }
}

fn only(name: &str, side: &str, repeats: &str, numbers: &[String]) -> Option<()> {
    let (_, bench) = BENCHES.iter().find(|(known, _)| *known == name)?;
    let numbers = numbers.iter().map(|number| number.parse().ok()).collect::<Option<Vec<u64>>>()?;
    let mut work = bench(Some(numbers)).work;
    let repeats = repeats.parse().ok()?;
    match side {
        "rust" => black_box(work.rust(repeats)),
        "ours" => black_box(work.ours(repeats)),
        _ => return None,
    };
    Some(())
}

/// Gives the exit status.
fn run() -> i32 {
    let words: Vec<String> = std::env::args().skip(1).collect();
    let done = match &words[..] {
        [] => times(),
        [word] if word == "--names" => {
            names();
            Ok(())
        }
        [name, side, repeats, numbers @ ..] if !numbers.is_empty() => {
            only(name, side, repeats, numbers).ok_or_else(|| "no such work".into())
        }
        _ => Err("usage: bench [--names | NAME SIDE REPEATS NUMBERS..]".into()),
    };
    if let Err(what) = done {
        eprintln!("bench: {what}");
        return 1;
    }
    0
}
