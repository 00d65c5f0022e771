//! The fuzzing run against `probe` and the exported functions: a few rounds of it, and that it finds what is wrong.

use std::collections::BTreeSet;

use compare::disk::Disk;
use compare::driver::{answers, rattle, Request};
use compare::fuzz::{compare, differ, disks, due, exported, round, told, Case, Tally};
use compare::model::{AUDIT, FIND, LOAD, MOVE, READ};
use compare::shrink::shrink;
use compare::sides::with_seeds;

fn probe(requests: &[Request]) -> Vec<String> {
    answers(rattle("probe"), requests)
}

/// Every call was answered.
fn has_every_call(tally: &Tally) {
    let calls = [AUDIT, FIND, READ, LOAD, MOVE];
    assert!(calls.iter().all(|&call| tally.range((call, 0)..(call + 1, 0)).next().is_some()), "{tally:?}");
}

/// Seeds of rounds that draw a disk of each size and kind.
const SEEDS: [u64; 8] = [7_006, 7_001, 7_000, 7_007, 7_011, 7_003, 7_022, 7_023];

#[test]
fn some_rounds_without_a_difference() {
    let mut met = BTreeSet::new();
    for seed in SEEDS {
        let cases = round(seed);
        met.extend(cases.iter().filter_map(disks).filter_map(|[drawn, _]| drawn));
        has_every_call(&compare(&cases, &mut due, &mut probe).expect("the same answers"));
        has_every_call(&compare(&cases, &mut due, &mut exported).expect("the same answers"));
    }
    assert!(met.iter().eq(&Disk::ALL), "only {met:?}");
}

/// The exported functions are fast, and are asked ten times as much.
#[test]
fn rounds_for_the_exported_functions() {
    with_seeds(7_100, 30, |seed| {
        has_every_call(&compare(&round(seed), &mut due, &mut exported).expect("the same answers"));
    });
}

/// An expectation that is wrong on purpose: offsets that are not allowed are to be refused as symbols.
fn wrong(requests: &[Request]) -> Vec<String> {
    due(requests).into_iter().map(|line| line.replace("refused 38 ", "refused 37 ")).collect()
}

/// That is made as small as can be without `probe` elsewhere; here it ends after some tries, for the sake of time.
#[test]
fn a_wrong_expectation_is_found_and_made_smaller() {
    let length = |case: &Case| if let Case::Program { file, .. } = case { Some(file.len()) } else { None };
    let cases: Vec<Case> = round(7_003).into_iter().filter(|case| length(case).is_some()).collect();
    let difference = compare(&cases, &mut wrong, &mut probe).expect_err("a difference");
    assert!(difference.lines[0].starts_with("refused 37 "), "{difference:?}");
    assert!(difference.lines[1].starts_with("refused 38 "), "{difference:?}");
    let (large, mut tries) = (&cases[difference.case], 0);
    let small = shrink(large, &mut |case| {
        tries += 1;
        tries <= 80 && differ(case, &mut wrong, &mut probe)
    });
    assert!(differ(&small, &mut wrong, &mut probe) && !differ(&small, &mut due, &mut probe));
    assert!(tries > 80 && length(&small) < length(large), "{}", told(&small));
}
