//! Holds the program `probe` to this package for as long as it is let, or the exported functions:
//! `cargo run --release --manifest-path compare/Cargo.toml --bin fuzz -- [exports] [SEED] [SECONDS]`.
//!
//! Without a seed the clock gives one; without a time it goes on until it is stopped. Round after round draws damaged
//! volumes and damaged programs. The seed of a round is the seed at the start plus the rounds before it, so that a
//! round can be had again alone. At a difference the case is made small, told and saved, and the run ends.

use std::collections::BTreeMap;
use std::fs;
use std::path::{Path, PathBuf};
use std::process::ExitCode;
use std::time::{Duration, Instant, SystemTime, UNIX_EPOCH};

use compare::disk::{Disk, FLOPPY};
use compare::driver::{answers, framed, rattle, Request};
use compare::fuzz::{compare, differ, disks, due, exported, requests, round, told, Case, Difference, Tally};
use compare::model::{AUDIT, FIND, LOAD, MOVE, READ};
use compare::shrink::shrink;

/// How often the counts are told.
const PAUSE: Duration = Duration::from_secs(20);

fn probe(requests: &[Request]) -> Vec<String> {
    answers(rattle("probe"), requests)
}

/// Who is held to this package.
type Held = fn(&[Request]) -> Vec<String>;

/// The words of the command line: who is asked, a seed and a number of seconds, both or neither or the first alone.
fn arguments() -> Option<(Held, u64, Option<u64>)> {
    let mut words: Vec<String> = std::env::args().skip(1).collect();
    let is_exports = words.first().is_some_and(|word| word == "exports");
    let held = if is_exports { exported } else { probe };
    words.drain(..usize::from(is_exports));
    let numbers: Vec<u64> = words.iter().map(|word| word.parse().ok()).collect::<Option<_>>()?;
    let clock = SystemTime::now().duration_since(UNIX_EPOCH).map_or(0, |time| time.as_secs());
    match numbers[..] {
        [] => Some((held, clock, None)),
        [seed] => Some((held, seed, None)),
        [seed, seconds] => Some((held, seed, Some(seconds))),
        _ => None,
    }
}

/// The calls of a tally: how many of each kind, and how many of them were refused.
fn counted(tally: &Tally) -> String {
    let kinds = [(AUDIT, "audits"), (FIND, "finds"), (READ, "reads"), (LOAD, "loads"), (MOVE, "moves")];
    let count =
        |of: u32, least: u32| -> usize { tally.range((of, least)..(of + 1, 0)).map(|(_, times)| times).sum() };
    let told = kinds.map(|(of, name)| format!("{} {name} ({} refused)", count(of, 0), count(of, 1)));
    told.join(", ")
}

/// The names of the kinds, by the last byte of the tag.
const KINDS: [&str; 4] = ["old", "fast", "old international", "fast international"];

/// How often an image of each size and kind was asked about.
fn by_disk(of_disk: &BTreeMap<Disk, usize>) -> String {
    let count = |disk: &Disk| {
        let size = if disk.blocks == FLOPPY { "" } else { " high-density" };
        format!("{}{size} {}", of_disk.get(disk).copied().unwrap_or(0), KINDS[usize::from(disk.kind)])
    };
    format!(
        "calls on images by the size that was settled and the kind that the tag says: {}",
        Disk::ALL.iter().map(count).collect::<Vec<_>>().join(", ")
    )
}

/// How often each number was refused, over all calls.
fn by_number(tally: &Tally) -> String {
    let mut numbers: BTreeMap<u32, usize> = BTreeMap::new();
    for (&(_, number), times) in tally.iter().filter(|((_, number), _)| *number > 0) {
        *numbers.entry(number).or_default() += times;
    }
    format!("refusals by number: {numbers:?}")
}

/// Where a case is saved.
fn folder() -> PathBuf {
    let repository = Path::new(env!("CARGO_MANIFEST_DIR")).parent();
    repository.expect("this package lies in a repository").join("target/fuzz")
}

/// Saves a case: in words, and as the input for `probe` that shows it.
fn save(seed: u64, case: &Case, text: &str) -> std::io::Result<PathBuf> {
    fs::create_dir_all(folder())?;
    let place = folder().join(format!("{seed}.txt"));
    fs::write(&place, text)?;
    let input: Vec<u8> = requests(case).iter().flat_map(|(number, body)| framed(*number, body)).collect();
    fs::write(folder().join(format!("{seed}.requests")), input)?;
    Ok(place)
}

/// Makes the case of a difference small, tells it and saves it.
fn report(mut held: Held, seed: u64, cases: &[Case], difference: &Difference) {
    println!("round {seed}: {:?}\nmaking the case small ..", difference.lines);
    let mut small = cases[difference.case].clone();
    let mut lines = difference.lines.clone();
    if differ(&small, &mut due, &mut held) {
        small = shrink(&small, &mut |case| differ(case, &mut due, &mut held));
        if let Err(left) = compare(std::slice::from_ref(&small), &mut due, &mut held) {
            lines = left.lines;
        }
    } else {
        println!("alone it makes no difference; the round as a whole does");
    }
    let text = format!("{}due: {}\ngot: {}\n", told(&small), lines[0], lines[1]);
    println!("{text}");
    match save(seed, &small, &text) {
        Ok(place) => println!("saved as {}", place.display()),
        Err(error) => println!("not saved: {error}"),
    }
}

fn main() -> ExitCode {
    let Some((mut held, seed, seconds)) = arguments() else {
        eprintln!(
            "fuzz takes a SEED and a number of SECONDS, or the seed alone, or nothing, after exports or alone"
        );
        return ExitCode::FAILURE;
    };
    println!("seed {seed}");
    let start = Instant::now();
    let (mut tally, mut rounds, mut told_at) = (Tally::new(), 0, start);
    let mut of_disk: BTreeMap<Disk, usize> = BTreeMap::new();
    while seconds.is_none_or(|seconds| start.elapsed().as_secs() < seconds) {
        let seed = seed.wrapping_add(rounds);
        let cases = round(seed);
        for disk in cases.iter().filter_map(disks).filter_map(|[_, asked]| asked) {
            *of_disk.entry(disk).or_default() += 1;
        }
        match compare(&cases, &mut due, &mut held) {
            Ok(more) => more.into_iter().for_each(|(kind, times)| *tally.entry(kind).or_default() += times),
            Err(difference) => {
                report(held, seed, &cases, &difference);
                return ExitCode::FAILURE;
            }
        }
        rounds += 1;
        if told_at.elapsed() >= PAUSE {
            told_at = Instant::now();
            println!("{} s, {rounds} rounds: {}", start.elapsed().as_secs(), counted(&tally));
        }
    }
    println!("{rounds} rounds, no difference: {}\n{}", counted(&tally), by_number(&tally));
    println!("{}", by_disk(&of_disk));
    ExitCode::SUCCESS
}
