//! Holds the program `load_words` to the loader of this package: a program file in, its loaded words out, one a line.

use compare::driver::Batch;
use compare::loader::{load, Lent, RECORD};
use compare::program::{read, Refusal, BOTH, BSS, CHIP, END, FAST, HEADER, HUNK_WORDS};
use compare::programs::{bytes, long_file, worked_file};
use compare::rng::Rng;

/// The longest file that the program takes.
const LONGEST: usize = 16_384;
/// The memory that it lends, and the work area.
const AREA: usize = 16_384;
/// The most hunks of a program.
const HUNKS: usize = 64;

fn refused(number: u32, place: usize) -> Vec<String> {
    vec![format!("refused {number} at {place}")]
}

fn words(memory: &[u8]) -> Vec<String> {
    let word = |four: &[u8]| four.iter().map(|byte| format!("{byte:02X}")).collect();
    memory.chunks(4).map(word).collect()
}

/// The lines due for a file that is not too long and has no fault of its own, or the fault.
fn loaded(file: &[u8]) -> Result<Vec<String>, Refusal> {
    let bases: Vec<u32> = (0..read(file)?.len() as u32).map(|hunk| 0x3000 + 0x4000 * hunk).collect();
    let (mut memory, mut table, mut work) = ([0; AREA], [0; RECORD * HUNKS], [0; AREA]);
    let lent = Lent { memory: &mut memory, table: &mut table, work: &mut work };
    let bytes = load(file, &bases, lent)?.bytes;
    Ok(words(&memory[..bytes]))
}

/// The lines due for any input.
fn due(input: &[u8]) -> Vec<String> {
    if input.len() > LONGEST {
        return refused(41, 0);
    }
    loaded(input).unwrap_or_else(|Refusal { number, place }| refused(number, place))
}

/// Runs the program on this input and holds it to these lines.
fn hold(about: &str, input: &[u8], lines: &[String]) {
    let mut batch = Batch::new();
    batch.feed(about, input, lines);
    batch.compare("load_words");
}

/// The same where the lines are known beforehand, and not only by the loader of this package.
fn known(about: &str, input: &[u8], lines: &[String]) {
    assert_eq!(due(input), lines, "{about}");
    hold(about, input, lines);
}

/// A file of hunks without stored words, with these size words.
fn empty_hunks(sizes: &[u32]) -> Vec<u8> {
    let count = sizes.len() as u32;
    let mut file = vec![HEADER, 0, count, 0, count - 1];
    file.extend(sizes);
    file.extend(sizes.iter().flat_map(|&size| [BSS, size & !BOTH, END]));
    bytes(&file)
}

/// The case that docs/FORMAT.md works out ("Worked cases").
#[test]
fn the_worked_file() {
    let first = ["00003008", "123C00FF", "70014E71", "4EB90000", "70062239", "00007008"];
    let second = ["2A3CAAAA", "AAAA4E71", "72014EF9", "0000300A"];
    let lines: Vec<String> = first.iter().chain(&second).map(|line| line.to_string()).collect();
    known("whole", &worked_file(), &lines);
}

#[test]
fn the_worked_file_cut_at_every_word_and_beside_some() {
    let file = worked_file();
    for length in (0..file.len()).step_by(4).chain([1, 2, 3, 79, 145, 147]) {
        let lines = if length % 4 == 0 && length > 0 { refused(31, length) } else { refused(30, 0) };
        known(&format!("{length} bytes"), &file[..length], &lines);
    }
}

#[test]
fn no_bytes() {
    known("no bytes", &[], &refused(30, 0));
}

#[test]
fn as_long_as_the_room_and_longer() {
    let longest = long_file(LONGEST / 4);
    assert_eq!(longest.len(), LONGEST);
    known("as long as the room", &longest, &["0000304D".to_string()]);
    known("a byte longer", &[&longest[..], &[0]].concat(), &refused(41, 0));
    known("a good file that is longer", &long_file(LONGEST / 4 + 1), &refused(41, 0));
    known("far longer", &long_file(LONGEST), &refused(41, 0));
    known("zeros, a byte too many", &[0; LONGEST + 1], &refused(41, 0));
    known("zeros", &[0; LONGEST], &refused(32, 0));
}

#[test]
fn memory_to_the_last_word_and_past_it() {
    let zeros = vec!["00000000".to_string(); AREA / 4];
    known("one hunk", &empty_hunks(&[4096]), &zeros);
    known("two hunks", &empty_hunks(&[4000, 96]), &zeros);
    known("one hunk, a word too much", &empty_hunks(&[4097]), &refused(41, 0));
    known("two hunks, a word too much", &empty_hunks(&[4096, 1]), &refused(41, 0));
    known("no words", &empty_hunks(&[0]), &[]);
}

#[test]
fn hunks_over_one_another() {
    known("a word over the next", &empty_hunks(&[4097, 1]), &refused(40, 1));
    known("over the next but one", &empty_hunks(&[8193, 0, 1]), &refused(40, 2));
    known("over a hunk without words", &empty_hunks(&[4097, 0]), &refused(41, 0));
}

#[test]
fn as_many_hunks_as_there_are_bases_and_more() {
    let zeros = vec!["00000000".to_string(); HUNKS];
    known("64 hunks", &empty_hunks(&[1; HUNKS]), &zeros);
    known("65 hunks", &empty_hunks(&[1; HUNKS + 1]), &refused(32, 8));
}

/// The words are the same whatever memory the hunks ask for, unless one asks for both at once.
#[test]
fn kinds_of_memory() {
    let lines = due(&worked_file());
    for [first, second] in [[0x40, 0], [0, 0x40], [0x80, 0], [0x40, 0x80], [0x80, 0x80]] {
        let mut file = worked_file();
        (file[20], file[24]) = (first, second);
        known(&format!("{first:X} and {second:X}"), &file, &lines);
    }
    for (index, place) in [(0, 20), (1, 24)] {
        let mut file = worked_file();
        file[place] = 0xC0;
        known(&format!("both for hunk {index}"), &file, &refused(43, place));
    }
    let zeros = vec!["00000000".to_string(); AREA / 4];
    known("all of the memory", &empty_hunks(&[CHIP | 4000, FAST | 96]), &zeros);
    known("a word too much", &empty_hunks(&[FAST | 4096, CHIP | 1]), &refused(41, 0));
    known("too large", &empty_hunks(&[CHIP, FAST | (HUNK_WORDS + 1)]), &refused(34, 24));
    known("too large for both", &empty_hunks(&[CHIP, BOTH | (HUNK_WORDS + 1)]), &refused(43, 24));
}

/// Two targets of the worked file, put too near each other.
#[test]
fn targets_too_near() {
    let mut file = worked_file();
    let at = file.windows(8).position(|two| two == [0, 0, 0, 0x14, 0, 0, 0, 0x0E]).expect("two offsets");
    file[at + 7] = 0x12;
    known("14 and 12", &file, &refused(42, at + 4));
    file[at + 7] = 0x10;
    let lines = due(&file);
    assert_eq!(lines.len(), 10);
    hold("14 and 10", &file, &lines);
}

/// The worked file with a byte or two changed.
#[test]
fn damage_anywhere() {
    let mut rng = Rng::new(0x10AD);
    let (mut accepted, mut turned_away) = (0, 0);
    for round in 0..60 {
        let mut file = worked_file();
        for _ in 0..1 + round % 2 {
            let place = rng.below(file.len() as u64) as usize;
            file[place] = rng.below(256) as u8;
        }
        let lines = due(&file);
        if lines[0].starts_with("refused") {
            turned_away += 1;
        } else {
            accepted += 1;
        }
        hold(&format!("damage {round}"), &file, &lines);
    }
    assert!(accepted >= 10 && turned_away >= 10, "{accepted} accepted, {turned_away} refused");
}
