//! Holds the program `probe` and the exported functions to the loader of this package: 6 takes a program file over, 7
//! loads it, 8 moves it. Each file is checked as well, by the exported function alone.
//!
//! Every answer but those of the worked case comes from a [`Model`] of `probe`.

use std::collections::BTreeMap;

use compare::bad_programs::{bad_bases, scratch, short_room, BASE_CAUSES, CAUSES};
use compare::driver::checksum;
use compare::loader::RECORD;
use compare::model::{
    load_body, move_body, Model, AREA_ROOM, BAD, BASES, CHECK, FILE, FILE_ROOM, LOAD, MEMORY_BEFORE as MEMORY,
    MOST, MOVE, RECORDS, TABLE_BEFORE as TABLE,
};
use compare::program::{
    BOTH, BSS, CHIP, CODE, DATA, DEBUG, END, FAST, HEADER, HUNK_WORDS, NAME, RELOCATIONS, SYMBOLS,
};
use compare::programs::{bytes, file, good_bases, good_program, long_file, worked_file, Room};
use compare::rng::Rng;
use compare::sides::{with_seeds, Sides, Who};

/// No room at all.
const NONE: Room = Room { memory: 0, records: 0, work: 0 };

/// Room for all small files of these tests.
const SOME: Room = Room { memory: 100, records: 5, work: 100 };

/// How often each kind of answer is due.
#[derive(Default)]
struct Tally {
    calls: usize,
    loaded: usize,
    moved: usize,
    refused: BTreeMap<u32, usize>,
    bad: usize,
    /// Checks of files, which are no calls of `probe`.
    checks: usize,
    checked: usize,
    refused_checks: BTreeMap<u32, usize>,
}

impl Tally {
    fn count(&mut self, request: u32, answer: &str) {
        let mut words = answer.split(' ');
        let verb = words.next().expect("an answer");
        let is_check = request == CHECK;
        self.checks += usize::from(is_check);
        self.calls += usize::from(!is_check && verb != "file" && verb != "bad");
        match verb {
            "loaded" => self.loaded += 1,
            "moved" => self.moved += 1,
            "checked" => self.checked += 1,
            "bad" => self.bad += 1,
            "refused" => {
                let number = words.next().and_then(|word| word.parse().ok()).expect("a number");
                let refused = if is_check { &mut self.refused_checks } else { &mut self.refused };
                *refused.entry(number).or_default() += 1;
            }
            _ => {}
        }
    }
}

/// Requests with the answers that the model gives.
struct Talk {
    model: Model,
    sides: Sides,
    tally: Tally,
    about: String,
}

impl Talk {
    fn new(who: Who) -> Talk {
        let (model, sides) = (Model::default(), Sides::new(who));
        Talk { model, sides, tally: Tally::default(), about: "at first".into() }
    }

    /// Says what the next requests are about.
    fn about(&mut self, about: impl Into<String>) {
        self.about = about.into();
    }

    fn ask(&mut self, number: u32, body: &[u8]) -> String {
        let answer = self.model.answer(number, body);
        self.tally.count(number, &answer);
        self.sides.ask(&self.about, number, body, &answer);
        answer
    }

    /// A request of which the answer's beginning is known beforehand, and not only by the model.
    fn expect(&mut self, number: u32, body: &[u8], beginning: &str) {
        let answer = self.ask(number, body);
        assert!(answer.starts_with(beginning), "{}: {answer:?}, not {beginning:?}", self.about);
    }

    /// A file, which is checked.
    fn file(&mut self, bytes: &[u8]) -> String {
        self.ask(FILE, bytes);
        self.ask(CHECK, b"")
    }

    fn load(&mut self, room: Room, bases: &[u32]) -> String {
        self.ask(LOAD, &load_body(room, bases))
    }

    fn relocate(&mut self, room: Room, old: &[u32], new: &[u32]) -> String {
        self.ask(MOVE, &move_body(room, old, new))
    }

    /// A request that has to be turned away, and then one that shows memory, table and file to be the old ones: a move
    /// that stays where it is.
    fn turned_away(&mut self, number: u32, body: &[u8], bases: &[u32]) {
        self.expect(number, body, BAD);
        let held = Room { memory: self.model.memory.len(), records: self.model.table.len() / RECORD, work: 100 };
        self.relocate(held, bases, bases);
    }

    fn run(self) {
        self.sides.run();
    }
}

/// The checksums of areas that hold these words and bytes, in the form of an answer.
fn sums(memory: &[u8], table: &[u32], work: &[u8]) -> String {
    format!("memory {} table {} work {}", checksum(memory), checksum(&bytes(table)), checksum(work))
}

/// The same for areas of this room that a refused call leaves.
fn untouched(room: Room) -> String {
    sums(&vec![MEMORY; room.memory], &vec![TABLE; RECORD * room.records], &vec![0; room.work])
}

const WORKED_BASES: [u32; 2] = [0x3000, 0x7000];

/// The case that docs/FORMAT.md works out ("Worked cases"), without the model.
#[test]
fn the_worked_case() {
    let first = [0x0000_3008, 0x123C_00FF, 0x7001_4E71, 0x4EB9_0000, 0x7006_2239, 0x0000_7008];
    let second = [0x2A3C_AAAA, 0xAAAA_4E71, 0x7201_4EF9, 0x0000_300A];
    let loaded = [&first[..], &second].concat();
    let first = [0x0000_4008, 0x123C_00FF, 0x7001_4E71, 0x4EB9_0000, 0x9006_2239, 0x0000_9008];
    let second = [0x2A3C_AAAA, 0xAAAA_4E71, 0x7201_4EF9, 0x0000_400A];
    let moved = [&first[..], &second].concat();
    let memory = |words: &[u32]| [bytes(words), vec![MEMORY; 6]].concat();
    let table = |bases: [u32; 2]| {
        let records = [[0x3E9, 0, 6, bases[0], 0], [0x3E9, 24, 4, bases[1], 0], [TABLE; RECORD]];
        records.concat()
    };
    let at_first = sums(&memory(&loaded), &table(WORKED_BASES), &[0; 41]);
    let at_last = sums(&memory(&moved), &table([0x4000, 0x9000]), &[0; 41]);
    let room = Room { memory: 46, records: 3, work: 41 };
    let short = Room { memory: 39, ..room };

    let mut sides = Sides::new(Who::Both);
    sides.ask("worked out", FILE, &worked_file(), "file 148");
    sides.ask("worked out", LOAD, &load_body(room, &WORKED_BASES), &format!("loaded 2 40 {at_first}"));
    let there = move_body(room, &WORKED_BASES, &[0x4000, 0x9000]);
    sides.ask("worked out", MOVE, &there, &format!("moved 2 40 {at_last}"));
    let wrong = move_body(room, &WORKED_BASES, &[0x4000, 0x4000]);
    sides.ask("worked out", MOVE, &wrong, &format!("refused 40 3 {at_last}"));
    let back = move_body(room, &[0x4000, 0x9000], &WORKED_BASES);
    sides.ask("worked out", MOVE, &back, &format!("moved 2 40 {at_first}"));
    let untouched = untouched(short);
    sides.ask("worked out", LOAD, &load_body(short, &WORKED_BASES), &format!("refused 41 0 {untouched}"));
    sides.run();
}

#[test]
fn a_sum_wraps() {
    let words = [HEADER, 0, 1, 0, 0, 1, DATA, 1, u32::MAX, RELOCATIONS, 1, 0, 0, 0, END];
    let mut sides = Sides::new(Who::Both);
    sides.ask("worked out", FILE, &bytes(&words), "file 60");
    let room = Room { memory: 4, records: 1, work: 4 };
    let loaded = sums(&bytes(&[3]), &[0x3EA, 0, 1, 4, 0], &[0; 4]);
    sides.ask("worked out", LOAD, &load_body(room, &[4]), &format!("loaded 1 4 {loaded}"));
    let moved = sums(&bytes(&[0xFFFF_FFFB]), &[0x3EA, 0, 1, 0xFFFF_FFFC, 0], &[0; 4]);
    sides.ask("worked out", MOVE, &move_body(room, &[4], &[0xFFFF_FFFC]), &format!("moved 1 4 {moved}"));
    sides.run();
}

#[test]
fn before_any_file_its_length_is_zero() {
    let mut talk = Talk::new(Who::Both);
    talk.about("before any load");
    talk.expect(MOVE, &move_body(NONE, &[], &[]), "refused 30 0 ");
    talk.expect(MOVE, &move_body(Room { work: 9, ..NONE }, &[4], &[8]), "refused 30 0 ");
    talk.expect(MOVE, &move_body(Room { memory: 1, ..NONE }, &[4], &[8]), BAD);
    talk.expect(MOVE, &move_body(Room { records: 1, ..NONE }, &[4], &[8]), BAD);
    talk.about("before any file");
    talk.expect(LOAD, &load_body(SOME, &[4, 8]), "refused 30 0 ");
    talk.expect(MOVE, &move_body(SOME, &[4], &[8]), "refused 30 0 ");
    talk.expect(LOAD, &load_body(NONE, &[]), "refused 30 0 memory 0 table 0 work 0");
    talk.about("no bytes as a file");
    talk.file(&worked_file());
    talk.expect(LOAD, &load_body(SOME, &WORKED_BASES), "loaded 2 40 ");
    talk.file(&[]);
    talk.expect(LOAD, &load_body(SOME, &WORKED_BASES), "refused 30 0 ");
    talk.run();
}

#[test]
fn files_of_every_length_up_to_the_room() {
    let mut talk = Talk::new(Who::Both);
    for length in [0, 1, 2, 3, 4, 147, 148, 149, 5_000, FILE_ROOM - 1, FILE_ROOM] {
        talk.about(format!("{length} bytes"));
        talk.expect(FILE, &vec![0; length], &format!("file {length}"));
        let number = if length == 0 || length % 4 != 0 { 30 } else { 32 };
        talk.expect(LOAD, &load_body(SOME, &[0]), &format!("refused {number} 0 "));
    }
    talk.about("a good file as long as the room");
    let longest = long_file(FILE_ROOM / 4);
    assert_eq!(longest.len(), FILE_ROOM);
    talk.file(&longest);
    talk.expect(LOAD, &load_body(SOME, &[0x1000]), "loaded 1 4 ");
    talk.about("the last word of the longest file missing");
    talk.file(&longest[..FILE_ROOM - 4]);
    talk.expect(LOAD, &load_body(SOME, &[0x1000]), "refused 31 1048572 ");
    talk.about("files over the room");
    talk.file(&worked_file());
    talk.load(SOME, &WORKED_BASES);
    talk.turned_away(FILE, &vec![0; FILE_ROOM + 1], &WORKED_BASES);
    talk.turned_away(FILE, &vec![0; FILE_ROOM + 4], &WORKED_BASES);
    talk.expect(LOAD, &load_body(SOME, &WORKED_BASES), "loaded 2 40 ");
    talk.run();
}

#[test]
fn lengths_above_the_room_are_bad() {
    let mut talk = Talk::new(Who::Both);
    talk.file(&worked_file());
    talk.load(SOME, &WORKED_BASES);
    let above = [
        Room { memory: AREA_ROOM + 1, ..SOME },
        Room { records: RECORDS + 1, ..SOME },
        Room { work: AREA_ROOM + 1, ..SOME },
        Room { memory: 1 << 31, ..SOME },
        Room { records: 1 << 28, ..SOME },
        Room { records: 1 << 30, ..SOME },
        Room { work: 0xFFFF_FFFF, ..SOME },
        Room { memory: 0xFFFF_FFFF, records: 0xFFFF_FFFF, work: 0xFFFF_FFFF },
    ];
    for room in above {
        talk.about(format!("{room:?}"));
        talk.turned_away(LOAD, &load_body(room, &WORKED_BASES), &WORKED_BASES);
        talk.turned_away(MOVE, &move_body(room, &WORKED_BASES, &WORKED_BASES), &WORKED_BASES);
    }
    for room in [
        Room { memory: AREA_ROOM, ..SOME },
        Room { records: RECORDS, ..SOME },
        Room { work: AREA_ROOM, ..SOME },
        MOST,
    ] {
        talk.about(format!("{room:?}"));
        talk.expect(LOAD, &load_body(room, &WORKED_BASES), "loaded 2 40 ");
        talk.expect(MOVE, &move_body(room, &WORKED_BASES, &[0, 0x100]), "moved 2 40 ");
    }
    talk.run();
}

#[test]
fn a_move_has_at_most_the_room_of_the_last_load() {
    let mut talk = Talk::new(Who::Both);
    talk.file(&worked_file());
    talk.load(SOME, &WORKED_BASES);
    let there = |room| move_body(room, &WORKED_BASES, &WORKED_BASES);
    talk.about("one more than the last load");
    talk.turned_away(MOVE, &there(Room { memory: SOME.memory + 1, ..SOME }), &WORKED_BASES);
    talk.turned_away(MOVE, &there(Room { records: SOME.records + 1, ..SOME }), &WORKED_BASES);
    talk.about("more work area than the last load");
    talk.expect(MOVE, &there(Room { work: SOME.work + 1, ..SOME }), "moved 2 40 ");
    talk.about("less than the last load");
    let less = Room { memory: 40, records: 2, work: 40 };
    talk.expect(MOVE, &move_body(less, &WORKED_BASES, &[0, 0x1000]), "moved 2 40 ");
    talk.expect(MOVE, &move_body(Room { memory: 39, ..less }, &[0, 0x1000], &[4, 0x1000]), "refused 41 0 ");
    talk.expect(MOVE, &move_body(Room { records: 1, ..less }, &[0, 0x1000], &[4, 0x1000]), "refused 41 0 ");
    talk.expect(MOVE, &move_body(NONE, &[0, 0x1000], &[4, 0x1000]), "refused 41 0 memory 0 table 0 work 0");
    talk.about("as much as the last load, after moves with less");
    talk.expect(MOVE, &move_body(SOME, &[0, 0x1000], &[0x2000, 0]), "moved 2 40 ");
    talk.about("a refused load counts");
    talk.expect(LOAD, &load_body(Room { memory: 39, ..SOME }, &WORKED_BASES), "refused 41 0 ");
    talk.expect(MOVE, &move_body(Room { memory: 40, ..SOME }, &WORKED_BASES, &[0, 0x1000]), BAD);
    talk.expect(MOVE, &move_body(Room { memory: 39, ..SOME }, &WORKED_BASES, &[0, 0x1000]), "refused 41 0 ");
    talk.about("a bad request does not");
    talk.expect(LOAD, &load_body(SOME, &WORKED_BASES), "loaded 2 40 ");
    talk.expect(LOAD, &load_body(Room { memory: 50, records: 81, work: 50 }, &WORKED_BASES), BAD);
    talk.expect(MOVE, &move_body(SOME, &WORKED_BASES, &[0, 0x1000]), "moved 2 40 ");
    talk.run();
}

#[test]
fn lists_of_bases_have_their_room() {
    let mut talk = Talk::new(Who::Both);
    let list = |count: usize| vec![0x40; count];
    talk.file(&worked_file());
    talk.load(SOME, &WORKED_BASES);
    talk.about("long lists");
    for count in [BASES + 1, BASES + 2, 300, 1_000, 70_000] {
        talk.turned_away(LOAD, &load_body(SOME, &list(count)), &WORKED_BASES);
        talk.turned_away(MOVE, &move_body(SOME, &list(count), &WORKED_BASES), &WORKED_BASES);
        talk.turned_away(MOVE, &move_body(SOME, &WORKED_BASES, &list(count)), &WORKED_BASES);
        talk.turned_away(MOVE, &move_body(SOME, &list(count), &list(count)), &WORKED_BASES);
    }
    talk.about("lists as long as the room");
    talk.expect(MOVE, &move_body(SOME, &list(BASES), &WORKED_BASES), "refused 40 0 ");
    talk.expect(MOVE, &move_body(SOME, &WORKED_BASES, &list(BASES)), "refused 40 2 ");
    talk.expect(MOVE, &move_body(SOME, &list(BASES), &list(BASES)), "refused 40 0 ");
    talk.expect(LOAD, &load_body(SOME, &list(BASES)), "refused 40 0 ");
    talk.about("no bases");
    talk.expect(LOAD, &load_body(SOME, &[]), "refused 40 0 ");
    talk.expect(MOVE, &move_body(SOME, &[], &[]), "refused 40 0 ");
    talk.expect(MOVE, &move_body(SOME, &WORKED_BASES, &[]), "refused 40 2 ");
    talk.run();
}

#[test]
fn the_count_of_old_bases_splits_the_lists() {
    let mut talk = Talk::new(Who::Both);
    talk.file(&worked_file());
    talk.load(SOME, &WORKED_BASES);
    let body = |count: u32, bases: &[u32]| bytes(&[&[100, 5, 100, count], bases].concat());
    talk.about("a count above the numbers that follow");
    for count in [5, 6, 256, 257, 0x4000_0000, 0x4000_0002, 0x8000_0002, u32::MAX] {
        talk.turned_away(MOVE, &body(count, &[0x3000, 0x7000, 0x4000, 0x9000]), &WORKED_BASES);
    }
    talk.turned_away(MOVE, &body(1, &[]), &WORKED_BASES);
    talk.about("a count within the numbers that follow");
    for (count, answer) in [(0, "refused 40 0 "), (1, "refused 40 0 "), (3, "refused 40 0 "), (4, "refused 40 0 ")]
    {
        talk.expect(MOVE, &body(count, &[0x3000, 0x7000, 0x4000, 0x9000]), answer);
    }
    talk.expect(MOVE, &body(2, &[0x3000, 0x7000]), "refused 40 2 ");
    talk.expect(MOVE, &body(2, &[0x3000, 0x7000, 0x4000]), "refused 40 2 ");
    talk.expect(MOVE, &body(2, &[0x3000, 0x7000, 0x4000, 0x9000]), "moved 2 40 ");
    talk.run();
}

#[test]
fn bodies_that_lack_something_are_bad() {
    let mut talk = Talk::new(Who::Both);
    talk.file(&worked_file());
    talk.load(SOME, &WORKED_BASES);
    let (load, there) = (load_body(SOME, &WORKED_BASES), move_body(SOME, &WORKED_BASES, &[0, 0x1000]));
    for length in 0..load.len() {
        talk.about(format!("{length} bytes"));
        if length < 12 || length % 4 != 0 {
            talk.turned_away(LOAD, &load[..length], &WORKED_BASES);
        }
    }
    for length in 0..there.len() {
        talk.about(format!("{length} bytes"));
        // the count of old bases is the fourth number, and two are due
        if length < 24 || length % 4 != 0 {
            talk.turned_away(MOVE, &there[..length], &WORKED_BASES);
        }
    }
    talk.about("whole numbers");
    talk.expect(MOVE, &there[..24], "refused 40 2 ");
    talk.expect(MOVE, &there, "moved 2 40 ");
    talk.expect(LOAD, &load[..12], "refused 40 0 ");
    talk.expect(LOAD, &load, "loaded 2 40 ");
    talk.run();
}

#[test]
fn input_that_ends_inside_a_request() {
    let (load, there) = (load_body(SOME, &WORKED_BASES), move_body(SOME, &WORKED_BASES, &[0, 0x1000]));
    let frame = |number: u32, length: usize, body: &[u8]| {
        [&number.to_be_bytes()[..], &(length as u32).to_be_bytes(), body].concat()
    };
    for broken in [
        frame(FILE, 148, &worked_file()[..147]),
        frame(FILE, 1, &[]),
        frame(FILE, FILE_ROOM, &[0; 1_000]),
        frame(FILE, FILE_ROOM + 1, &[0; 1_000]),
        frame(LOAD, load.len(), &load[..load.len() - 1]),
        frame(LOAD, load.len(), &load[..12]),
        frame(LOAD, 5_000, &load),
        frame(MOVE, there.len(), &there[..there.len() - 4]),
        frame(MOVE, there.len(), &[]),
        frame(MOVE, 0xFFFF_FFFC, &there),
    ] {
        let mut talk = Talk::new(Who::Both);
        talk.file(&worked_file());
        talk.load(SOME, &WORKED_BASES);
        talk.sides.break_off(&broken, BAD);
        talk.run();
    }
}

/// Two hunks of the largest size fill the memory to its last byte; targets lie at all ends.
#[test]
fn the_largest_program_that_fits() {
    let words = 65_536;
    let mut rng = Rng::new(50);
    let hunk = |rng: &mut Rng, kind: u32| {
        let stored: Vec<u32> = (0..words).map(|_| rng.draw() as u32).collect();
        let last = 4 * words - 4;
        let offsets = [RELOCATIONS, 3, 1, last, 0, 6, 1, 0, last - 4, 0];
        [&[kind, words], &stored[..], &offsets, &[END]].concat()
    };
    let hunks = [hunk(&mut rng, CODE), hunk(&mut rng, DATA)].concat();
    let file = bytes(&[&[HEADER, 0, 2, 0, 1, words, words], &hunks[..]].concat());
    let (old, new) = ([0xFFFC_0000, 0xFFF8_0000], [0, 0x0004_0000]);
    let mut talk = Talk::new(Who::Both);
    talk.file(&file);
    talk.expect(LOAD, &load_body(MOST, &old), "loaded 2 524288 ");
    talk.expect(MOVE, &move_body(MOST, &old, &new), "moved 2 524288 ");
    talk.expect(LOAD, &load_body(MOST, &new), "loaded 2 524288 ");
    for room in
        [Room { memory: AREA_ROOM - 1, ..MOST }, Room { records: 1, ..MOST }, Room { work: AREA_ROOM - 1, ..MOST }]
    {
        talk.expect(MOVE, &move_body(room, &new, &old), "refused 41 0 ");
        talk.expect(LOAD, &load_body(room, &new), "refused 41 0 ");
        talk.load(MOST, &new);
    }
    talk.expect(LOAD, &load_body(MOST, &[0, 0x0003_FFFC]), "refused 40 1 ");
    talk.expect(LOAD, &load_body(MOST, &[0xFFFC_0004, 0]), "refused 40 0 ");
    talk.run();
}

/// Every pair of bits 30 and 31 of a size word. But for the last they ask for a kind of memory.
const BIT_PAIRS: [u32; 4] = [0, CHIP, FAST, BOTH];

/// Sizes in the other 30 bits, on both sides of the limit.
const SIZES: [u32; 6] = [0, 1, HUNK_WORDS - 1, HUNK_WORDS, HUNK_WORDS + 1, (1 << 30) - 1];

/// A program whose hunks store nothing, to be loaded at bases that rise.
struct Plain {
    /// The kind, the size and the number of the kind of memory of each hunk.
    hunks: Vec<(u32, u32, u32)>,
}

impl Plain {
    /// So many small hunks, of all kinds and kinds of memory in turn.
    fn new(total: usize) -> Plain {
        let hunk = |index: usize| ([CODE, DATA, BSS][index % 3], index as u32 % 2, index as u32 / 2 % 3);
        Plain { hunks: (0..total).map(hunk).collect() }
    }

    fn bases(&self, first: u32) -> Vec<u32> {
        (0..self.hunks.len() as u32).map(|index| first + 4 * HUNK_WORDS * index).collect()
    }

    /// The bytes of its file, with this word for the size of one hunk.
    fn file(&self, place: usize, word: u32) -> Vec<u8> {
        let total = self.hunks.len() as u32;
        let mut sizes: Vec<u32> = self.hunks.iter().map(|&(_, size, memory)| memory << 30 | size).collect();
        sizes[place] = word;
        let bodies: Vec<u32> = self.hunks.iter().flat_map(|&(kind, ..)| [kind, 0, END]).collect();
        bytes(&[&[HEADER, 0, total, 0, total - 1], &sizes[..], &bodies].concat())
    }

    fn bytes(&self) -> usize {
        self.hunks.iter().map(|&(_, size, _)| 4 * size as usize).sum()
    }

    /// The answer to a load or a move to these bases, in this room.
    fn line(&self, verb: &str, room: Room, bases: &[u32]) -> String {
        let mut place = 0;
        let records = self.hunks.iter().zip(bases).flat_map(|(&(kind, size, memory), &base)| {
            let record: [u32; RECORD] = [kind, place, size, base, memory];
            place += 4 * size;
            record
        });
        let mut table: Vec<u32> = records.collect();
        table.resize(RECORD * room.records, TABLE);
        let mut memory = vec![0; self.bytes()];
        memory.resize(room.memory, MEMORY);
        let areas = sums(&memory, &table, &vec![0; room.work]);
        format!("{verb} {} {} {areas}", self.hunks.len(), self.bytes())
    }
}

/// The number due for a size word of these bits and this size, if one is.
fn fault_of(bits: u32, size: u32) -> Option<u32> {
    match bits {
        BOTH => Some(43),
        _ => (size > HUNK_WORDS).then_some(34),
    }
}

/// One word of a size list is every pair of bits with every size. The answers are worked out here, not by the model.
fn size_word(sides: &mut Sides, total: usize, place: usize, is_lent: impl Fn(usize) -> bool) {
    let mut program = Plain::new(total);
    let (old, new) = (program.bases(0), program.bases(0x0400_0000));
    for (bits, size) in BIT_PAIRS.into_iter().flat_map(|bits| SIZES.map(|size| (bits, size))) {
        let about = format!("size word {:08X}, hunk {place} of {total}", bits | size);
        let file = program.file(place, bits | size);
        sides.ask(&about, FILE, &file, &format!("file {}", file.len()));
        let fault = fault_of(bits, size).map(|number| format!("refused {number} {}", 20 + 4 * place));
        if fault.is_none() {
            (program.hunks[place].1, program.hunks[place].2) = (size, bits >> 30);
        }
        let needed = program.bytes();
        let checked = format!("checked {total} {needed}");
        sides.ask(&about, CHECK, b"", fault.as_ref().unwrap_or(&checked));
        // what is not lent as much as it needs shows by 41 that its file is good
        let lent = if fault.is_none() && is_lent(needed) { needed } else { 0 };
        let room = Room { memory: lent + 6, records: total + 1, work: lent + 5 };
        let short = (lent < needed).then(|| "refused 41 0".to_string());
        let [loaded, moved] = match fault.or(short) {
            Some(refused) => [(); 2].map(|()| format!("{refused} {}", untouched(room))),
            None => [program.line("loaded", room, &old), program.line("moved", room, &new)],
        };
        sides.ask(&about, LOAD, &load_body(room, &old), &loaded);
        sides.ask(&about, MOVE, &move_body(room, &old, &new), &moved);
    }
}

/// The lengths of the size lists that are tried.
const LISTS: [usize; 7] = [1, 2, 3, 7, 31, 63, 64];

/// Every place of each list. `probe` takes its time over large areas, so only lists of one hunk and of two are lent
/// these.
#[test]
fn size_words_with_all_bits_at_every_place() {
    let mut sides = Sides::new(Who::Both);
    for total in LISTS {
        for place in 0..total {
            size_word(&mut sides, total, place, |bytes| total <= 2 || bytes < 1_000);
        }
    }
    sides.run();
}

/// The exported functions are lent what each program needs.
#[test]
fn size_words_for_the_exported_functions() {
    let all: Vec<(usize, usize)> =
        LISTS.into_iter().flat_map(|total| (0..total).map(move |place| (total, place))).collect();
    with_seeds(0, all.len() as u64, |number| {
        let (total, place) = all[number as usize];
        size_word(&mut Sides::new(Who::Exports), total, place, |_| true);
    });
}

/// What is wrong with several size words is wrong at the first of them, and before a later one is missed.
#[test]
fn size_words_in_their_order() {
    const LARGE: u32 = HUNK_WORDS + 1;
    // two size words, and the number and place due for them
    let lists = [
        ([BOTH, BOTH], 43, 20),
        ([BOTH | LARGE, 0], 43, 20),
        ([BOTH, LARGE], 43, 20),
        ([LARGE, BOTH], 34, 20),
        ([CHIP | LARGE, BOTH], 34, 20),
        ([FAST | LARGE, BOTH | LARGE], 34, 20),
        ([CHIP, BOTH], 43, 24),
        ([CHIP | HUNK_WORDS, FAST | LARGE], 34, 24),
        ([FAST, BOTH | LARGE], 43, 24),
    ];
    let mut talk = Talk::new(Who::Both);
    for (sizes, number, place) in lists {
        let words = [&[HEADER, 0, 2, 0, 1], &sizes[..], &[BSS, 0, END, CODE, 0, END]].concat();
        let due = format!("refused {number} {place} ");
        talk.about(format!("{sizes:X?}"));
        talk.file(&bytes(&words));
        talk.expect(LOAD, &load_body(SOME, &[0, 0x4_0000]), &due);
        talk.expect(MOVE, &move_body(SOME, &[0, 0x4_0000], &[0x4_0000, 0]), &due);
        // faults of the file come before those of bases and room
        talk.expect(LOAD, &load_body(NONE, &[1]), &due);
        // the file ends after the first size word, and after the second
        for count in [6, 7] {
            talk.file(&bytes(&words[..count]));
            let missed = format!("refused 31 {} ", 4 * count);
            talk.expect(LOAD, &load_body(SOME, &[0]), if place < 4 * count { &due } else { &missed });
        }
    }
    talk.run();
}

/// The two bits mean nothing new in any other word: it is refused as before, or is any word.
#[test]
fn the_bits_for_memory_in_other_words() {
    let words = [
        &[HEADER, 0, 1, 0, 0, CHIP | 4][..],
        &[NAME, 1, 0x61, CODE, 3, 7, 8, 9],
        &[SYMBOLS, 1, 0x61, 5, 0, DEBUG, 1, 6],
        &[RELOCATIONS, 1, 0, 8, 0, END],
    ]
    .concat();
    // the number and the place with a bit in the word; a count that is too large takes the words after it for offsets
    let length = 4 * words.len();
    let due = |index: usize| match index {
        0 | 2 | 3 | 4 => Some((32, 4 * index)),
        1 => Some((33, 4)),
        6 | 9 | 14 | 19 | 22 | 27 => Some((35, 4 * index)),
        7 | 20 => Some((31, length)),
        10 => Some((36, 40)),
        15 | 18 => Some((37, 4 * index)),
        24 | 25 => Some((38, 4 * index)),
        23 | 26 => Some((38, length - 4)),
        8 | 11 | 12 | 13 | 16 | 17 | 21 => None,
        _ => panic!("word {index} is a size"),
    };
    let mut talk = Talk::new(Who::Both);
    talk.file(&bytes(&words));
    talk.expect(LOAD, &load_body(SOME, &[0x1000]), "loaded 1 16 ");
    for index in (0..words.len()).filter(|&index| index != 5) {
        for bits in [CHIP, FAST, BOTH] {
            talk.about(format!("{bits:X} in word {index}"));
            let mut words = words.clone();
            words[index] |= bits;
            talk.file(&bytes(&words));
            let due = due(index)
                .map_or("loaded 1 16 ".to_string(), |(number, place)| format!("refused {number} {place} "));
            talk.expect(LOAD, &load_body(SOME, &[0x1000]), &due);
        }
    }
    talk.run();
}

/// 64 hunks of the largest size take 16 MiB, which is more than `probe` lends.
#[test]
fn the_largest_program_of_all() {
    let file = bytes(&[&[HEADER, 0, 64, 0, 63], &[65_536; 64][..], &[BSS, 65_536, END].repeat(64)].concat());
    let bases = |step: u32| (0..64).map(|index| index * step).collect::<Vec<u32>>();
    let mut talk = Talk::new(Who::Both);
    talk.file(&file);
    talk.expect(LOAD, &load_body(MOST, &bases(0x0004_0000)), "refused 41 0 ");
    talk.expect(MOVE, &move_body(MOST, &bases(0x0004_0000), &bases(0x0004_0004)), "refused 41 0 ");
    talk.expect(LOAD, &load_body(MOST, &bases(0x0003_FFFC)), "refused 40 1 ");
    talk.expect(MOVE, &move_body(MOST, &bases(0x0004_0000), &bases(0x0003_FFFC)), "refused 40 65 ");
    talk.run();
}

/// Every cause of a fault in the file, and of 42, met by a load and by a move.
fn bad_files(talk: &mut Talk, rng: &mut Rng) {
    for cause in CAUSES {
        for _ in 0..5 {
            let bad = cause.file(rng);
            let (old, new) = (good_bases(rng, &bad.sizes), good_bases(rng, &bad.sizes));
            let needed = Room::needed(&bad.sizes);
            let room = needed.widened(rng);
            let due = format!("refused {} {} ", bad.due.number, bad.due.place);
            talk.about(format!("{} by {}, {} bytes", cause.number, cause.what, bad.bytes.len()));
            let checked = talk.file(&bad.bytes);
            let loadable = format!("checked {} {}", bad.sizes.len(), needed.memory);
            assert_eq!(checked, if cause.number == 42 { &loadable } else { due.trim_end() }, "{}", talk.about);
            talk.expect(LOAD, &load_body(room, &old), &due);
            talk.expect(MOVE, &move_body(room, &old, &new), &due);
            if cause.number != 42 {
                // faults of the file come before those of bases and room
                let (bases, _) = bad_bases(rng, &bad.sizes);
                let short = short_room(rng, needed);
                talk.expect(LOAD, &load_body(short, &bases), &due);
            }
        }
    }
}

/// A good program: loaded and moved around, then refused for its bases and for its room.
fn good_files(talk: &mut Talk, rng: &mut Rng) {
    for _ in 0..550 {
        let program = good_program(rng);
        let (sizes, bytes) = (program.sizes(), file(&program.written()));
        let lists = [(); 3].map(|()| good_bases(rng, &sizes));
        let room = Room::needed(&sizes).widened(rng);
        talk.about(format!("a good program of {} hunks", sizes.len()));
        assert_eq!(talk.file(&bytes), format!("checked {} {}", sizes.len(), Room::needed(&sizes).memory));
        moved_around(talk, &sizes, room, &lists);
        refused_after(talk, rng, &sizes, room, &lists);
    }
}

/// Loaded at A, moved to B, to C and back to A: as it was; and at C as if it had been loaded there.
fn moved_around(talk: &mut Talk, sizes: &[u32], room: Room, [a, b, c]: &[Vec<u32>; 3]) {
    let needed = Room::needed(sizes);
    let accepted = format!("{} {} ", sizes.len(), needed.memory);
    let moved = format!("moved {accepted}");
    let at_a = talk.load(room, a);
    assert!(at_a.starts_with(&format!("loaded {accepted}")), "{at_a}");
    talk.expect(MOVE, &move_body(room, a, b), &moved);
    let at_c = talk.relocate(room, b, c);
    assert_eq!(talk.relocate(room, c, a), at_a.replace("loaded", "moved"));
    assert_eq!(talk.load(room, c).replace("loaded", "moved"), at_c);
    // on memory that it was not loaded into with these bases
    talk.expect(MOVE, &move_body(needed, a, b), &moved);
}

/// Refused for its bases, and for its room.
fn refused_after(talk: &mut Talk, rng: &mut Rng, sizes: &[u32], room: Room, [a, b, c]: &[Vec<u32>; 3]) {
    talk.about("bad bases");
    let ((bad, entry), (also_bad, _)) = (bad_bases(rng, sizes), bad_bases(rng, sizes));
    let refused = |entry: usize| format!("refused 40 {entry} ");
    match rng.below(3) {
        0 => talk.expect(MOVE, &move_body(room, a, &bad), &refused(sizes.len() + entry)),
        1 => talk.expect(MOVE, &move_body(room, &bad, a), &refused(entry)),
        _ => talk.expect(MOVE, &move_body(room, &bad, &also_bad), &refused(entry)),
    }
    talk.about("short room");
    let short = short_room(rng, Room::needed(sizes));
    let cut = Room { memory: short.memory.min(room.memory), records: short.records.min(room.records), ..short };
    talk.expect(MOVE, &move_body(cut, b, c), "refused 41 0 ");
    talk.expect(LOAD, &load_body(short, c), "refused 41 0 ");
    if rng.below(2) == 0 {
        talk.about("bad bases and perhaps short room");
        let room = rng.pick(&[room, short]);
        talk.expect(LOAD, &load_body(room, &bad), &refused(entry));
    }
}

/// Every cause of 40.
fn bad_lists(talk: &mut Talk, rng: &mut Rng) {
    for cause in BASE_CAUSES {
        talk.about(cause.what);
        let mut made = 0;
        while made < 6 {
            let program = good_program(rng);
            let sizes = program.sizes();
            let Some((bad, entry)) = cause.bases(rng, &sizes) else { continue };
            made += 1;
            let (good, room) = (good_bases(rng, &sizes), Room::needed(&sizes));
            talk.file(&file(&program.written()));
            talk.expect(LOAD, &load_body(room, &bad), &format!("refused 40 {entry} "));
            talk.expect(MOVE, &move_body(room, &bad, &good), &format!("refused 40 {entry} "));
            talk.expect(MOVE, &move_body(room, &good, &bad), &format!("refused 40 {} ", sizes.len() + entry));
            talk.expect(MOVE, &move_body(room, &good, &good), &format!("moved {} {}", sizes.len(), room.memory));
        }
    }
}

/// Files with scratches, of which nothing is known beforehand; the moves work on what other programs left.
fn scratched_files(talk: &mut Talk, rng: &mut Rng) {
    for _ in 0..700 {
        let program = good_program(rng);
        let (sizes, mut bytes) = (program.sizes(), file(&program.written()));
        scratch(rng, &mut bytes);
        talk.about(format!("a scratched file, {} bytes", bytes.len()));
        talk.file(&bytes);
        let (old, new) = (good_bases(rng, &sizes), good_bases(rng, &sizes));
        let room = Room::needed(&sizes);
        // often a bad request: the last load was another program's, and perhaps a smaller one
        talk.relocate(room, &old, &new);
        talk.load(room.widened(rng), &old);
        talk.relocate(room, &old, &new);
    }
}

/// Moves of one program in memory that another one filled.
fn strange_memory(talk: &mut Talk, rng: &mut Rng) {
    for _ in 0..150 {
        let (one, other) = (good_program(rng), good_program(rng));
        let [needed, others] = [&one, &other].map(|program| Room::needed(&program.sizes()));
        let room =
            Room { memory: needed.memory.max(others.memory), records: 64, work: needed.work.max(others.work) };
        let [at, old, new] = [&one, &other, &other].map(|program| good_bases(rng, &program.sizes()));
        talk.about("a program in another one's memory");
        talk.file(&file(&one.written()));
        talk.load(room, &at);
        talk.file(&file(&other.written()));
        let before = talk.model.memory.to_vec();
        talk.expect(MOVE, &move_body(others, &old, &new), "moved ");
        talk.expect(MOVE, &move_body(room, &new, &old), "moved ");
        assert!(talk.model.memory[..] == before, "there and back again");
    }
}

/// All of it together.
fn talk(who: Who, seed: u64) -> Talk {
    let (mut talk, mut rng) = (Talk::new(who), Rng::new(seed));
    bad_files(&mut talk, &mut rng);
    good_files(&mut talk, &mut rng);
    bad_lists(&mut talk, &mut rng);
    scratched_files(&mut talk, &mut rng);
    strange_memory(&mut talk, &mut rng);
    talk
}

/// Enough of everything is asked: for each talk at least 5,000 calls, each number at least 5 times.
fn are_enough(talks: &[Talk]) {
    let sum = |of: &dyn Fn(&Tally) -> usize| talks.iter().map(|talk| of(&talk.tally)).sum::<usize>();
    let [calls, loaded] = [sum(&|tally| tally.calls), sum(&|tally| tally.loaded)];
    let [moved, bad] = [sum(&|tally| tally.moved), sum(&|tally| tally.bad)];
    let numbers = (30..44).map(|number| (number, sum(&|tally| tally.refused.get(&number).copied().unwrap_or(0))));
    let numbers: BTreeMap<u32, usize> = numbers.collect();
    println!("{calls} calls, {loaded} loaded, {moved} moved, {bad} bad requests, refused by number: {numbers:?}");
    let [checks, checked] = [sum(&|tally| tally.checks), sum(&|tally| tally.checked)];
    let of_check = |number| sum(&|tally| tally.refused_checks.get(&number).copied().unwrap_or(0));
    let of_check: BTreeMap<u32, usize> = (30..40).chain([43]).map(|number| (number, of_check(number))).collect();
    println!("{checks} checks, {checked} accepted, refused by number: {of_check:?}");
    let least = talks.len();
    assert!(calls >= 5_000 * least, "{calls} calls");
    assert!(loaded >= 500 * least && moved >= 500 * least, "{loaded} loaded, {moved} moved");
    assert!(bad >= 5 * least, "{bad} bad requests");
    assert_eq!(loaded + moved + numbers.values().sum::<usize>(), calls, "an answer of another number");
    assert!(checks >= 1_000 * least && checked >= 500 * least, "{checks} checks, {checked} accepted");
    assert_eq!(checked + of_check.values().sum::<usize>(), checks, "a check of another number");
    let rare: Vec<_> = numbers.iter().chain(&of_check).filter(|(_, &times)| times < 5 * least).collect();
    assert!(rare.is_empty(), "too few of {rare:?}");
}

/// Over and over: at least 20,000 calls, each number at least 20 times.
#[test]
fn programs_good_and_bad() {
    let talks: Vec<Talk> = (60..64).map(|seed| talk(Who::Both, seed)).collect();
    are_enough(&talks);
    talks.into_iter().for_each(Talk::run);
}

/// The exported functions are fast, and are asked ten times as much.
#[test]
fn programs_for_the_exported_functions() {
    with_seeds(600, 40, |seed| are_enough(&[talk(Who::Exports, seed)]));
}
