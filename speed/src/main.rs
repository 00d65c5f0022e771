//! Measures the Rattle library against the Rust of yardstick/, or against an older archive of it. See the README here.

mod audits;
mod calls;
mod cases;
mod growth;
mod images;
mod lookups;
mod older;
mod opinion;
mod plot;
mod programs;
mod since;
mod tables;
mod times;

use cases::Case;
use older::Older;
use tables::{table, AUDITS, TWO_SIDES};

fn print_audits() {
    let first = "image";
    table("Audits of a hundred images, one after the other, µs an image:", first, AUDITS, audits::rows(100));
    table("Audits of one image, again and again, µs:", first, AUDITS, audits::rows(1));
}

fn print_calls() {
    table("Other calls, µs:", "call", TWO_SIDES, calls::cases());
}

fn print_since(older: Older) {
    table(
        "The library and an older archive of it, µs an image or a call:",
        "call",
        TWO_SIDES,
        since::cases(older),
    );
}

fn print_growth() {
    println!("{}", plot::HEAD);
    for (what, number, mut case) in growth::growing() {
        let least = times::least(&mut case);
        println!("{what},{number},{:.0},{:.0}", least[0], least[1]);
    }
}

/// Makes one call so many times, for a counter of instructions: two runs differ by what the further calls take.
fn repeat(case: Option<Case>, side: &str, times: &str) -> Option<()> {
    let mut case = case?;
    let side = case.sides.iter_mut().find(|one| one.name.eq_ignore_ascii_case(side))?;
    (0..times.parse().ok()?).for_each(|_| (side.run)());
    Some(())
}

fn main() {
    let words: Vec<String> = std::env::args().skip(1).collect();
    match &words.iter().map(String::as_str).collect::<Vec<&str>>()[..] {
        ["audits"] => print_audits(),
        ["calls"] => print_calls(),
        ["names"] => println!("{}", calls::NAMES),
        ["repeat", name, side, times] if repeat(calls::named(name), side, times).is_some() => {}
        ["since", library] => print_since(Older::load_from(library)),
        ["since", library, "names"] => println!("{}", since::names(Older::load_from(library))),
        ["since", library, "repeat", name, side, times]
            if repeat(since::named(Older::load_from(library), name), side, times).is_some() => {}
        ["growth"] => print_growth(),
        ["plot", file] => print!("{}", plot::plot(&std::fs::read_to_string(file).expect("a file of numbers"))),
        _ => {
            eprintln!("speed audits | calls | names | repeat NAME Rattle|Rust TIMES | growth | plot FILE");
            eprintln!("speed since LIBRARY [names | repeat NAME now|before TIMES]");
            std::process::exit(2)
        }
    }
}
