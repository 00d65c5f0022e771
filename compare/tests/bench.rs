//! Holds the counter's tool `bench` to its page: what it says of images and programs, and what it says where it
//! cannot ask.
//!
//! Answers due come from this package, see [`counter`](compare::counter); what is said of a wrong use is written out
//! here. Standard output and standard error are both held to the byte, and so is the exit status. Every run has a
//! folder of its own, and what is in it has to be the same afterwards.

use std::collections::{BTreeMap, BTreeSet};
use std::ffi::OsStr;
use std::fs;
use std::os::unix::ffi::OsStrExt;
use std::os::unix::fs::PermissionsExt;
use std::path::{Path, PathBuf};
use std::process::{Command, Stdio};
use std::sync::atomic::{AtomicU32, Ordering};

use compare::bad_programs::{bad_bases, scratch as scratch_program, BASE_CAUSES, CAUSES};
use compare::bad_volumes::{apply, scratch, Patch, NO_SIZES};
use compare::bitmap::place;
use compare::counter::{
    audited, line, loaded, looked_up, moved, read_out, reset, Said, ACCEPTED, ARGUMENT_ROOM, BASES, FILE_ROOM,
    IMAGE_ROOM, MEMORY, REFUSED, SENTENCES, UNASKED,
};
use compare::disk::{Disk, ANY, FLOPPY, HIGH_DENSITY};
use compare::driver::rattle;
use compare::kinds::retagged;
use compare::names::{put_name, slot};
use compare::paths::{bad_forms, Paths};
use compare::program::{BOTH, BSS, CHIP, CODE, DATA, END, FAST, HEADER, HUNK_WORDS, RELOCATIONS, SYMBOLS};
use compare::programs::{bytes, file, good_bases, good_program, long_file, worked_file};
use compare::rng::Rng;
use compare::samples::{
    damaged, fast, high_density, international, latin_1, title, titles, FONT, LOGO, OPTIONS, PICTURE, SETTINGS,
    SUMMER, TITLE,
};
use compare::sizes::largest_file;
use compare::volumes::{
    alike, any_style, chain, empty, files, full, mixed, nested, telling_sizes, Entry, Filling, Kind, Order, Plan,
    Style, Volume,
};
use compare::words::{mend, put, slot_word, word, BLOCK_BYTES, TABLE};

/// Bases for the title program.
const BASES_A: [u32; 3] = [0x1_0000, 0x2_0000, 0x3_0000];
const BASES_B: [u32; 3] = [0x4_0000, 0x0, 0xFFFF_FFE4];

/// The number of blocks that a call names: what stands for it after the verb, and the number.
#[derive(Clone, Debug)]
struct Named {
    words: Vec<String>,
    number: u32,
}

impl Named {
    /// Without a word about it a floppy is named.
    fn nothing() -> Named {
        Named { words: Vec::new(), number: FLOPPY }
    }

    /// This number, or `any` for 0.
    fn blocks(number: u32) -> Named {
        let word = if number == ANY { "any".to_string() } else { number.to_string() };
        Named { words: vec!["-b".to_string(), word], number }
    }

    /// The words of a call of this verb.
    fn call<W: AsRef<[u8]>>(&self, verb: &str, words: &[W]) -> Vec<Vec<u8>> {
        let named = self.words.iter().map(|word| word.as_bytes());
        let given = words.iter().map(|word| word.as_ref());
        [verb.as_bytes()].into_iter().chain(named).chain(given).map(<[u8]>::to_vec).collect()
    }
}

/// The sentence of refusal 1.
const UNFIT: &str = "no disk that is asked for has the image's length: 901120 bytes are 1760 blocks, 1802240 are 3520";

/// A folder in which the tool is run, and the files in it.
struct Desk {
    folder: PathBuf,
    files: BTreeMap<String, Vec<u8>>,
}

impl Drop for Desk {
    fn drop(&mut self) {
        // nothing can be done about what will not go, least of all while unwinding
        let _ = fs::remove_dir_all(&self.folder);
    }
}

impl Desk {
    /// A desk with these files.
    fn new<N: Into<String>>(files: impl IntoIterator<Item = (N, Vec<u8>)>) -> Desk {
        static MADE: AtomicU32 = AtomicU32::new(0);
        let (process, count) = (std::process::id(), MADE.fetch_add(1, Ordering::Relaxed));
        let folder = std::env::temp_dir().join(format!("compare-bench-{process}-{count}"));
        fs::create_dir(&folder).expect("a new folder");
        let files = files.into_iter().map(|(name, bytes)| (name.into(), bytes)).collect();
        let desk = Desk { folder, files };
        for (name, bytes) in &desk.files {
            fs::write(desk.folder.join(name), bytes).expect("room for a file");
        }
        desk
    }

    /// The desk with the samples.
    fn with_samples() -> Desk {
        Desk::new(compare::samples::all())
    }

    fn file(&self, name: &str) -> &[u8] {
        &self.files[name]
    }

    /// What a command says with these words; the files have to stay as they are, and no others to come.
    fn said_by(&self, mut command: Command, words: &[impl AsRef<[u8]>]) -> Said {
        command.args(words.iter().map(|word| OsStr::from_bytes(word.as_ref())));
        command.current_dir(&self.folder).stdin(Stdio::null());
        let run = command.output().expect("a program that starts");
        let status = run.status.code().unwrap_or_else(|| panic!("{}: {}", shown(words), run.status));
        self.hold_files(words);
        Said { out: run.stdout, err: run.stderr, status }
    }

    fn hold_files(&self, words: &[impl AsRef<[u8]>]) {
        let mut names = BTreeSet::new();
        for entry in fs::read_dir(&self.folder).expect("the folder") {
            let entry = entry.expect("an entry of the folder");
            let name = entry.file_name().into_string().expect("a name of ours");
            if entry.file_type().expect("a kind of entry").is_file() {
                let found = fs::read(entry.path()).expect("a file of ours");
                assert!(self.files.get(&name) == Some(&found), "{}: {name} is changed or new", shown(words));
                names.insert(name);
            }
        }
        assert!(names.iter().eq(self.files.keys()), "{}: {names:?} are left", shown(words));
    }

    /// What the program says with these words.
    fn said(&self, words: &[impl AsRef<[u8]>]) -> Said {
        self.said_by(rattle("bench"), words)
    }

    fn hold(&self, words: &[impl AsRef<[u8]>], due: &Said) {
        hold_said(words, &self.said(words), due);
    }

    /// Holds the tool to this standard output, and to silence on the other side.
    fn hold_out(&self, words: &[impl AsRef<[u8]>], out: &[u8], accepted: bool) {
        self.hold(words, &Said::answer(out.to_vec(), accepted));
    }

    /// Holds the tool to this one line on standard error, after `bench: `, and to nothing else.
    fn hold_err(&self, words: &[impl AsRef<[u8]>], text: impl AsRef<[u8]>) {
        let err = [b"bench: ", text.as_ref(), b"\n"].concat();
        self.hold(words, &Said { out: Vec::new(), err, status: UNASKED });
    }

    /// What an audit of these files is to say, all of which are there; several get a last line. Without a number of
    /// blocks.
    fn hold_audit(&self, names: &[&str]) {
        self.hold_audit_of(&Named::nothing(), names);
    }

    /// The same with this number named.
    fn hold_audit_of(&self, named: &Named, names: &[&str]) {
        let answers: Vec<_> = names.iter().map(|name| (name, audited(named.number, self.file(name)))).collect();
        let mut out: Vec<u8> = answers.iter().flat_map(|(name, (text, _))| line(name.as_bytes(), text)).collect();
        let accepted = answers.iter().filter(|(_, (_, accepted))| *accepted).count();
        let refused = names.len() - accepted;
        if names.len() > 1 {
            let last = format!("{} images: {accepted} accepted, {refused} refused, 0 not read\n", names.len());
            out.extend(last.bytes());
        }
        self.hold_out(&named.call("audit", names), &out, refused == 0);
    }

    fn hold_find(&self, image: &str, paths: &[impl AsRef<[u8]>]) {
        self.hold_find_of(&Named::nothing(), image, paths);
    }

    fn hold_find_of(&self, named: &Named, image: &str, paths: &[impl AsRef<[u8]>]) {
        let given = paths.iter().map(|path| path.as_ref());
        let words: Vec<&[u8]> = [image.as_bytes()].into_iter().chain(given.clone()).collect();
        let answers: Vec<_> = given.map(|path| (path, looked_up(named.number, self.file(image), path))).collect();
        let out: Vec<u8> = answers.iter().flat_map(|(path, (text, _))| line(path, text)).collect();
        self.hold_out(&named.call("find", &words), &out, answers.iter().all(|(_, (_, found))| *found));
    }

    fn hold_read(&self, image: &str, path: &[u8]) {
        self.hold_read_of(&Named::nothing(), image, path);
    }

    fn hold_read_of(&self, named: &Named, image: &str, path: &[u8]) {
        let words = named.call("read", &[image.as_bytes(), path]);
        self.hold(&words, &read_out(named.number, self.file(image), path));
    }

    fn hold_load(&self, name: &str, bases: &[u32]) {
        let due = loaded(name.as_bytes(), self.file(name), bases);
        self.hold(&words_of("load", name, &[bases]), &due);
    }

    fn hold_move(&self, name: &str, old: &[u32], new: &[u32]) {
        let due = moved(name.as_bytes(), self.file(name), old, new);
        self.hold(&words_of("move", name, &[old, new]), &due);
    }

    fn hold_reset(&self, image: &str, path: &[u8], bases: &[u32]) {
        self.hold_reset_of(&Named::nothing(), image, path, bases);
    }

    fn hold_reset_of(&self, named: &Named, image: &str, path: &[u8], bases: &[u32]) {
        let bases_given = bases.iter().map(|base| format!("{base:X}").into_bytes());
        let start = [image.as_bytes().to_vec(), path.to_vec()];
        let words: Vec<Vec<u8>> = start.into_iter().chain(bases_given).collect();
        self.hold(&named.call("reset", &words), &reset(named.number, self.file(image), path, bases));
    }
}

/// A base in one of the forms that it may have.
fn base_word(index: usize, base: u32) -> String {
    match index % 5 {
        0 => format!("{base:X}"),
        1 => format!("{base:x}"),
        2 => format!("0x{base:X}"),
        3 => format!("{base:08x}"),
        _ => format!("0x{base:08X}"),
    }
}

/// The words of a load of a file, or of a move if there are two lists.
fn words_of(verb: &str, name: &str, lists: &[&[u32]]) -> Vec<String> {
    let written = |list: &&[u32]| list.iter().enumerate().map(|(at, &base)| base_word(at, base)).collect();
    let lists: Vec<Vec<String>> = lists.iter().map(written).collect();
    let bases = lists.join(&"to".to_string());
    [verb.to_string(), name.to_string()].into_iter().chain(bases).collect()
}

/// Words for a message; long ones are cut.
fn shown(words: &[impl AsRef<[u8]>]) -> String {
    let cut = |word: &[u8]| String::from_utf8_lossy(&word[..word.len().min(60)]).into_owned();
    words.iter().map(|word| cut(word.as_ref())).take(12).collect::<Vec<_>>().join(" ")
}

/// Holds what was said to what is due; a message shows both from a little before where they part.
fn hold_said(words: &[impl AsRef<[u8]>], got: &Said, due: &Said) {
    for (side, got, due) in [("error", &got.err, &due.err), ("output", &got.out, &due.out)] {
        let same = got.iter().zip(due).take_while(|(a, b)| a == b).count();
        let near = |bytes: &[u8]| {
            let part = bytes.iter().skip(same.saturating_sub(80)).take(240).copied();
            String::from_utf8_lossy(&part.collect::<Vec<u8>>()).into_owned()
        };
        let words = shown(words);
        assert!(got == due, "{words}: standard {side}, byte {same}: {:?}, not {:?}", near(got), near(due));
    }
    assert_eq!(got.status, due.status, "{}: the exit status", shown(words));
}

fn laid_out(rng: &mut Rng, plan: &Plan) -> Volume {
    let style = any_style(rng);
    Volume::new(rng, plan, style)
}

#[test]
fn alone_it_says_how_it_is_used() {
    let desk = Desk::with_samples();
    let none: [&str; 0] = [];
    let said = desk.said(&none);
    assert_eq!((&said.err[..], said.status), (&b""[..], ACCEPTED));
    for words in [&["--help"][..], &["-h"], &["--help", "titles.adf"], &["-h", "audit"], &["--help", "--version"]]
    {
        desk.hold(words, &said);
    }
    let text = String::from_utf8(said.out).expect("a text");
    assert!(text.ends_with('\n') && (7..=10).contains(&text.lines().count()), "{text}");
    for word in ["audit", "find", "read", "load", "move", "reset", "-b", "1760", "3520", "any"] {
        assert!(text.contains(word), "{word} in {text}");
    }
    assert!(text.replace(',', "").contains(&MEMORY.to_string()), "the room for program memory in {text}");
}

/// The newest version that the changelog names: its first heading that begins with a digit.
fn newest_version() -> String {
    let page = fs::read_to_string(repository().join("CHANGELOG.md")).expect("the page");
    let mut headings = page.lines().filter_map(|line| line.strip_prefix("## "));
    let version = headings.find(|text| text.starts_with(|first: char| first.is_ascii_digit()));
    version.expect("a version").to_string()
}

#[test]
fn the_version_is_the_newest_of_the_changelog() {
    let desk = Desk::with_samples();
    let due = format!("bench {}\n", newest_version());
    desk.hold_out(&["--version"], due.as_bytes(), true);
    desk.hold_out(&["--version", "titles.adf"], due.as_bytes(), true);
}

#[test]
fn wrong_uses() {
    let desk = Desk::with_samples();
    let find = "find needs an IMAGE and a PATH";
    let read = "read needs an IMAGE and one PATH";
    let load = "load needs a FILE and a BASE for each hunk";
    let there = "move needs a FILE, old bases, the word to, and new bases";
    let reset = "reset needs an IMAGE, a PATH and a BASE for each hunk";
    let uses: [(&[&str], &str); 28] = [
        (&["audit"], "audit needs an IMAGE"),
        (&["audit", "-b", "3520"], "audit needs an IMAGE"),
        (&["find", "-b", "3520"], find),
        (&["find", "-b", "any", "titles.adf"], find),
        (&["read", "-b", "1760", "titles.adf"], read),
        (&["read", "-b", "1760", "titles.adf", TITLE, SETTINGS], read),
        (&["reset", "-b", "3520", "high-density.adf", TITLE], reset),
        (&["find"], find),
        (&["find", "titles.adf"], find),
        (&["find", "nothing.adf"], find),
        (&["read"], read),
        (&["read", "titles.adf"], read),
        (&["read", "titles.adf", TITLE, SETTINGS], read),
        (&["read", "titles.adf", TITLE, "0"], read),
        (&["load"], load),
        (&["load", "title"], load),
        (&["load", "nothing"], load),
        (&["move"], there),
        (&["move", "title"], there),
        (&["move", "title", "to"], there),
        (&["move", "title", "1000", "2000", "3000"], there),
        (&["move", "title", "1000", "2000", "3000", "to"], there),
        (&["move", "title", "to", "1000", "2000", "3000"], there),
        (&["move", "nothing"], there),
        (&["reset"], reset),
        (&["reset", "titles.adf"], reset),
        (&["reset", "titles.adf", TITLE], reset),
        (&["reset", "nothing.adf", TITLE], reset),
    ];
    for (words, text) in uses {
        desk.hold_err(words, text);
    }
}

#[test]
fn verbs_that_are_none() {
    let desk = Desk::with_samples();
    let longest = "v".repeat(ARGUMENT_ROOM);
    for verb in ["frobnicate", "AUDIT", "audits", "audi", "help", "-help", "--hel", "-v", "", " ", "to", &longest]
    {
        let text = format!("{verb} is no verb; ./bench alone says how it is used");
        desk.hold_err(&[verb], &text);
        desk.hold_err(&[verb, "titles.adf"], &text);
    }
    let high = [b"verb\xE4 is no verb; ", &b"./bench alone says how it is used"[..]].concat();
    desk.hold_err(&[b"verb\xE4"], high);
}

/// Texts that are no bases.
const NO_BASES: [&str; 17] = [
    "",
    "xyz",
    "123456789",
    "000000001",
    "0x",
    "0x123456789",
    "0x0x1",
    "x1",
    "10g",
    " 10",
    "10 ",
    "+10",
    "-4",
    "1.0",
    "1,000",
    "$1000",
    "to0",
];

/// Texts that are no numbers of blocks: not made of digits, or above what 32 bits hold.
const NO_NUMBERS: [&str; 19] = [
    "",
    "xyz",
    "x1760",
    "1760x",
    " 1760",
    "1760 ",
    "1,760",
    "1760.0",
    "-1",
    "-1760",
    "+1760",
    "0x6E0",
    "6E0",
    "ANY",
    "anyone",
    "none",
    "-b",
    "4294967296",
    "99999999999999999999999",
];

/// What is said of such a text, after the text.
const NO_NUMBER: &str = " is no number of blocks: name 1760, 3520 or any";

/// The verbs with an image, and what may stand after it in a call; the image is the second word.
const WITH_IMAGE: [&[&str]; 4] = [
    &["audit", "titles.adf"],
    &["find", "titles.adf", TITLE],
    &["read", "titles.adf", TITLE],
    &["reset", "titles.adf", TITLE, "10000", "20000", "30000"],
];

/// What stands after -b is looked at before a file is opened, for each verb with an image.
#[test]
fn numbers_of_blocks_that_are_none() {
    let desk = Desk::with_samples();
    for (number, text) in NO_NUMBERS.into_iter().enumerate() {
        let words = WITH_IMAGE[number % 4];
        let image = if number % 3 == 0 { "nothing.adf" } else { words[1] };
        let call = [&[words[0], "-b", text, image], &words[2..]].concat();
        desk.hold_err(&call, format!("{text}{NO_NUMBER}"));
    }
    let high = [&b"17\xFF0"[..], NO_NUMBER.as_bytes()].concat();
    desk.hold_err(&[&b"audit"[..], b"-b", b"17\xFF0", b"titles.adf"], high);
    let longest = "9".repeat(ARGUMENT_ROOM);
    desk.hold_err(&["find", "-b", &longest, "titles.adf", TITLE], format!("{longest}{NO_NUMBER}"));
}

/// A number that is not there is said so before an image is missed.
#[test]
fn numbers_of_blocks_that_are_missing() {
    let desk = Desk::with_samples();
    for words in WITH_IMAGE {
        desk.hold_err(&[words[0], "-b"], "-b needs a number of blocks: name 1760, 3520 or any");
    }
}

/// Where no number of blocks is asked for, -b is a word like others: the name of a file, or a path.
#[test]
fn words_that_look_like_numbers_of_blocks() {
    let desk = Desk::with_samples();
    desk.hold_find("titles.adf", &["-b", "3520", TITLE]);
    desk.hold_find_of(&Named::blocks(ANY), "titles.adf", &["-b", "1760", TITLE]);
    desk.hold_read("titles.adf", b"-b");
    let err = "bench: -b: cannot be opened\nbench: 3520: cannot be opened\n";
    let last = b"3 images: 1 accepted, 0 refused, 2 not read\n";
    let out = [line(b"titles.adf", &audited(FLOPPY, &titles()).0), last.to_vec()].concat();
    desk.hold(&["audit", "titles.adf", "-b", "3520"], &Said { out, err: err.into(), status: UNASKED });
    let no_base = "title is no base: a base is 1 to 8 hex digits";
    desk.hold_err(&["load", "-b", "3520", "title", "10000", "20000", "30000"], no_base);
    desk.hold_err(&["move", "-b", "1760", "title", "10000", "to", "20000"], no_base);
    desk.hold_err(&["-b", "3520", "audit", "titles.adf"], "-b is no verb; ./bench alone says how it is used");
}

/// Good images of each size, with every number of blocks that may be named, with none, and with some that may not.
#[test]
fn every_named_number() {
    let mut rng = Rng::new(182);
    let images = [Disk::OLD, Disk::FAST.with_blocks(HIGH_DENSITY)].map(|disk| {
        let plan = mixed(&mut rng, &disk, 40);
        laid_out(&mut rng, &plan).image
    });
    let [small, large] = images;
    // the same bytes at the other's length
    let [longer, cut] = [[&small[..], &vec![0; small.len()]].concat(), large[..small.len()].to_vec()];
    let desk = Desk::new([("small", small), ("large", large), ("longer", longer), ("cut", cut), ("none", vec![])]);
    let numbers = [0, 1_760, 3_520].into_iter().chain(NO_SIZES).chain([5]);
    for named in numbers.map(Named::blocks).chain([Named::nothing()]) {
        desk.hold_audit_of(&named, &["small", "large", "longer", "cut", "none"]);
        let (image, other) = if named.number % 2 == 0 { ("small", "large") } else { ("large", "small") };
        desk.hold_audit_of(&named, &[image]);
        desk.hold_find_of(&named, other, &["", "nobody", "a//b"]);
        desk.hold_read_of(&named, image, b"nobody");
        desk.hold_reset_of(&named, other, b"nobody", &BASES_A);
    }
    // 0 is the number that names none
    let zero = Named { words: vec!["-b".to_string(), "0".to_string()], number: ANY };
    desk.hold_audit_of(&zero, &["small", "large", "none"]);
}

/// All bases are tested before a file is opened.
#[test]
fn bases_that_are_none() {
    let desk = Desk::with_samples();
    for (number, text) in NO_BASES.into_iter().enumerate() {
        let due = format!("{text} is no base: a base is 1 to 8 hex digits");
        desk.hold_err(&["load", "title", text, "2000", "3000"], &due);
        let elsewhere: [&[&str]; 4] = [
            &["load", "nothing", "1000", "2000", text],
            &["move", "nothing", "1000", text, "xyz", "to", "1000"],
            &["move", "title", "1000", "to", "1000", "2000", text],
            &["reset", "nothing.adf", TITLE, "1000", text],
        ];
        desk.hold_err(elsewhere[number % 4], &due);
    }
    desk.hold_err(&["load", "title", "to"], "to is no base: a base is 1 to 8 hex digits");
    desk.hold_err(&["move", "title", "1", "to", "2", "to", "3"], "to is no base: a base is 1 to 8 hex digits");
    let high = [&b"1\xFF is no base: "[..], b"a base is 1 to 8 hex digits"].concat();
    desk.hold_err(&[&b"load"[..], b"title", b"1\xFF"], high);
    let longest = "0".repeat(ARGUMENT_ROOM);
    desk.hold_err(&["load", "title", &longest], format!("{longest} is no base: a base is 1 to 8 hex digits"));
}

#[test]
fn lists_of_256_bases_and_longer_ones() {
    let desk = Desk::with_samples();
    let list = vec![0x1000; BASES];
    let longer: Vec<u32> = list.iter().copied().chain([0x1000]).collect();
    desk.hold_load("title", &list);
    desk.hold_move("title", &list, &list);
    desk.hold_move("title", &BASES_A, &list);
    desk.hold_reset("titles.adf", TITLE.as_bytes(), &list);
    let text = "there are more than 256 bases";
    desk.hold_err(&words_of("load", "title", &[&longer]), text);
    desk.hold_err(&words_of("load", "nothing", &[&longer]), text);
    desk.hold_err(&words_of("load", "title", &[&[&longer[..], &list].concat()]), text);
    desk.hold_err(&words_of("move", "title", &[&longer, &BASES_A]), text);
    desk.hold_err(&words_of("move", "title", &[&BASES_A, &longer]), text);
    let mut reset = words_of("reset", "titles.adf", &[&longer]);
    reset.insert(2, TITLE.to_string());
    desk.hold_err(&reset, text);
}

/// The words of a call of each verb about the file of this name, an image or a program file.
fn calls(name: &str) -> [(bool, Vec<String>); 6] {
    let call = |words: &[&str]| words.iter().map(|word| word.to_string()).collect();
    [
        (true, call(&["audit", name])),
        (true, call(&["find", name, TITLE, SETTINGS])),
        (true, call(&["read", name, TITLE])),
        (true, call(&["reset", name, TITLE, "1000", "2000", "3000"])),
        (false, call(&["load", name, "1000", "2000", "3000"])),
        (false, call(&["move", name, "1000", "2000", "3000", "to", "1000", "2000", "3000"])),
    ]
}

#[test]
fn files_that_cannot_be_had() {
    let desk = Desk::new([
        ("long.adf", vec![0; 3_000_000]),
        ("longer.adf", vec![0; IMAGE_ROOM + 1]),
        ("long", vec![0; FILE_ROOM + 1]),
    ]);
    fs::create_dir(desk.folder.join("folder")).expect("a folder");
    for (name, what) in [("nothing", "opened"), ("", "opened"), ("folder/nothing", "opened"), ("folder", "read")] {
        for (_, words) in calls(name) {
            desk.hold_err(&words, format!("{name}: cannot be {what}"));
        }
    }
    for (name, in_image) in [("long.adf", true), ("longer.adf", true), ("long", false), ("long.adf", false)] {
        for (_, words) in calls(name).into_iter().filter(|&(image, _)| image == in_image) {
            let room = if in_image {
                "1802240 bytes, the room for an image"
            } else {
                "1802240 bytes, the room for a program file"
            };
            desk.hold_err(&words, format!("{name}: longer than {room}"));
        }
    }
    let longest = "n".repeat(ARGUMENT_ROOM);
    desk.hold_err(&["audit", &longest], format!("{longest}: cannot be opened"));
    desk.hold_err(&["move", "to", "1000", "to", "2000"], "to: cannot be opened");
    let high = [&b"n\xE9ant"[..], b": cannot be opened"].concat();
    desk.hold_err(&[&b"load"[..], b"n\xE9ant", b"1000"], high);
}

/// A word that is too long is said so before anything is looked at; it is counted from the verb on.
#[test]
fn arguments_above_their_room() {
    let desk = Desk::with_samples();
    let long = "a".repeat(5_000);
    let just = "a".repeat(ARGUMENT_ROOM + 1);
    let calls: [(&[&str], usize); 17] = [
        (&["audit", "-b", &long, "titles.adf"], 3),
        (&["audit", "-b", "3520", &just], 4),
        (&["reset", "-b", "xyz", "titles.adf", &long], 5),
        (&[&long], 1),
        (&[&just], 1),
        (&["audit", &long], 2),
        (&["audit", &just], 2),
        (&["audit", "titles.adf", &long], 3),
        (&["audit", "nothing.adf", "titles.adf", &just, &long], 4),
        (&["find", "titles.adf", TITLE, &long], 4),
        (&["find", &long, TITLE], 2),
        (&["find", "titles.adf", &just], 3),
        (&["read", "titles.adf", &long], 3),
        (&["load", "title", "1000", &long, "3000"], 4),
        (&["load", "nothing", "xyz", &long], 4),
        (&["move", "title", "1000", "2000", "3000", "to", "1000", &just], 8),
        (&["reset", "titles.adf", &long, "1000", "2000", "3000"], 3),
    ];
    for (words, place) in calls {
        desk.hold_err(words, format!("argument {place}: longer than 4096 bytes"));
    }
}

/// Images of lengths that no volume has; those within the room are refused by the audit, not by the tool.
#[test]
fn images_of_other_lengths() {
    let whole = titles();
    let cut = |length: usize| whole.iter().copied().chain(std::iter::repeat(0)).take(length).collect::<Vec<u8>>();
    let lengths = [0, 1, 901_119, 901_121, IMAGE_ROOM];
    let names = lengths.map(|length| format!("{length}.adf"));
    let desk = Desk::new(names.iter().cloned().zip(lengths.map(cut)));
    for name in &names {
        let due = format!("refused 1 at 0 ({UNFIT})");
        desk.hold_out(&["audit", name], &line(name.as_bytes(), &due), false);
        desk.hold_find(name, &["", TITLE, "a//b"]);
        desk.hold_read(name, TITLE.as_bytes());
        desk.hold_reset(name, TITLE.as_bytes(), &BASES_A);
    }
    let names = names.each_ref().map(|name| &name[..]);
    desk.hold_audit(&names);
    desk.hold_audit_of(&Named::blocks(HIGH_DENSITY), &names);
    desk.hold_audit_of(&Named::blocks(ANY), &names);
    // the longest fits another number of blocks, and has no root there
    let text = "1802240.adf: refused 8 at 1760 (a type word of the block is wrong)\n";
    for number in ["3520", "any"] {
        desk.hold_out(&["audit", "-b", number, "1802240.adf"], text.as_bytes(), false);
    }
}

/// A file that cannot be had does not end an audit of several.
#[test]
fn audits_of_several_images_go_on() {
    let mut files = compare::samples::all().to_vec();
    files.push(("long.adf", vec![0; IMAGE_ROOM + 1]));
    files.push(("a b.adf", titles()));
    let desk = Desk::new(files);
    fs::create_dir(desk.folder.join("folder")).expect("a folder");
    let (good, bad) = (audited(FLOPPY, &titles()).0, audited(FLOPPY, &damaged()).0);
    let words = ["audit", "nothing", "titles.adf", "folder", "damaged.adf", "long.adf", "a b.adf", "title"];
    let lines = [
        line(b"titles.adf", &good),
        line(b"damaged.adf", &bad),
        line(b"a b.adf", &good),
        line(b"title", &format!("refused 1 at 0 ({UNFIT})")),
        b"7 images: 2 accepted, 2 refused, 3 not read\n".to_vec(),
    ];
    let errors = "bench: nothing: cannot be opened\nbench: folder: cannot be read\n\
                  bench: long.adf: longer than 1802240 bytes, the room for an image\n";
    desk.hold(&words, &Said { out: lines.concat(), err: errors.into(), status: UNASKED });
    let last = b"2 images: 0 accepted, 0 refused, 2 not read\n".to_vec();
    let errors = "bench: folder: cannot be read\nbench: : cannot be opened\n";
    desk.hold(&["audit", "folder", ""], &Said { out: last, err: errors.into(), status: UNASKED });
    desk.hold_audit(&["titles.adf", "titles.adf"]);
}

#[test]
fn every_verb_on_the_samples() {
    let desk = Desk::with_samples();
    desk.hold_audit(&["titles.adf"]);
    desk.hold_audit(&["damaged.adf"]);
    desk.hold_audit(&["titles.adf", "damaged.adf", "title", "international.adf", "fast.adf", "high-density.adf"]);
    let paths = ["", "c", TITLE, "C/TITLE", SETTINGS, FONT, "t", "t/x", "c/title/x", "/", "c/", ":c", "a b"];
    for image in ["titles.adf", "damaged.adf"] {
        desk.hold_find(image, &paths);
        for path in [TITLE, SETTINGS, FONT, "Fonts/Lower-Third", "", "c", "nobody", "c/title/x", "c//title"] {
            desk.hold_read(image, path.as_bytes());
        }
        for path in [TITLE, SETTINGS, "c", "", "nobody"] {
            desk.hold_reset(image, path.as_bytes(), &BASES_A);
        }
    }
    desk.hold_load("title", &BASES_A);
    desk.hold_load("title", &BASES_B);
    desk.hold_move("title", &BASES_A, &BASES_B);
    desk.hold_move("title", &BASES_A, &BASES_A);
    // an image is no program file
    desk.hold_load("titles.adf", &BASES_A);
}

/// The international volume, with paths in every case; what is said of a path has its bytes as they were given.
#[test]
fn accents_on_the_samples() {
    let desk = Desk::with_samples();
    desk.hold_audit(&["international.adf"]);
    let paths = [SUMMER, "MÉTÉO/ÉTÉ", "météo/été", "METEO/ETE", OPTIONS, "S/RÉGLAGES", "générique", TITLE, "t"];
    let paths = paths.map(latin_1);
    desk.hold_find("international.adf", &paths);
    // on a plain disk there is none of them
    desk.hold_find("titles.adf", &paths);
    for path in &paths {
        desk.hold_read("international.adf", path);
    }
    desk.hold_reset("international.adf", TITLE.as_bytes(), &BASES_A);
    let image = international();
    let (answer, found) = looked_up(FLOPPY, &image, b"M\xC9T\xC9O");
    assert!(found && answer.starts_with("directory, key "), "{answer}");
    let due = [b"M\xC9T\xC9O: ", answer.as_bytes(), b"\n"].concat();
    desk.hold_out(&[b"find", &b"international.adf"[..], b"M\xC9T\xC9O"], &due, true);
}

/// The volume in the Fast File System: its files, which begin where their blocks do, and the pin's way.
#[test]
fn the_fast_file_system_on_the_samples() {
    let desk = Desk::with_samples();
    let image = fast();
    desk.hold_audit(&["fast.adf"]);
    desk.hold_find(
        "fast.adf",
        &["", "c", TITLE, "C/TITLE", SETTINGS, LOGO, "Logos/Station", "t", FONT, "c/title/x"],
    );
    for path in [TITLE, SETTINGS, LOGO, "", "c", FONT, "logos//station"] {
        desk.hold_read("fast.adf", path.as_bytes());
    }
    desk.hold_out(&["read", "fast.adf", TITLE], &title(), true);
    for path in [TITLE, SETTINGS, LOGO, "t"] {
        desk.hold_reset("fast.adf", path.as_bytes(), &BASES_A);
    }
    // the logo has 79 blocks and a list block; a disk of the old file system has 82 for it
    let (logo, found) = looked_up(FLOPPY, &image, LOGO.as_bytes());
    assert!(found && logo.contains(", size 40000, "), "{logo}");
    assert!(
        audited(FLOPPY, &image).0.contains(", 1 list blocks, 81 data blocks, "),
        "{}",
        audited(FLOPPY, &image).0
    );
}

/// The volume on a high-density disk: without a number of blocks it is refused, and so it is as a floppy.
#[test]
fn the_high_density_disk_on_the_samples() {
    let desk = Desk::with_samples();
    let name = "high-density.adf";
    let refused = format!("refused 1 at 0 ({UNFIT})");
    desk.hold_out(&["audit", name], &line(name.as_bytes(), &refused), false);
    desk.hold_out(&["find", name, TITLE], &line(TITLE.as_bytes(), &refused), false);
    desk.hold_out(&["reset", name, TITLE, "10000", "20000", "30000"], &line(b"audit", &refused), false);
    let err = [b"bench: ", &line(TITLE.as_bytes(), &refused)[..]].concat();
    desk.hold(&["read", name, TITLE], &Said { out: Vec::new(), err, status: REFUSED });
    for named in [Named::nothing(), Named::blocks(1_760), Named::blocks(3_520), Named::blocks(ANY)] {
        desk.hold_audit_of(&named, &[name]);
        desk.hold_audit_of(&named, &[name, "titles.adf", name, "fast.adf"]);
        desk.hold_find_of(&named, name, &["", "c", TITLE, "C/TITLE", SETTINGS, PICTURE, "t", FONT, "c//title"]);
        for path in [TITLE, SETTINGS, PICTURE, "", "nobody", "c//title"] {
            desk.hold_read_of(&named, name, path.as_bytes());
            desk.hold_reset_of(&named, name, path.as_bytes(), &BASES_A);
        }
    }
    for number in ["3520", "any"] {
        desk.hold_out(&["read", "-b", number, name, TITLE], &title(), true);
        desk.hold_out(&["find", "-b", number, name, ""], b": directory, key 1760, compared 0\n", true);
    }
    let (answer, accepted) = audited(HIGH_DENSITY, &high_density());
    assert!(accepted && answer.ends_with(", 26 list blocks, 1922 data blocks, 1957 used, 1561 free"), "{answer}");
}

/// Every tag of a kind and those beside them, with the sentence written out.
#[test]
fn images_of_other_kinds() {
    let of_kind = |kind: u8| {
        let mut image = international();
        image[3] = kind;
        (format!("{kind}.adf"), image)
    };
    let desk = Desk::new([0, 1, 2, 3, 4, 5, 0x80, 0xFF].map(of_kind));
    for kind in [4, 5, 0x80, 0xFF] {
        let name = format!("{kind}.adf");
        let due = "refused 3 at 0 (the image does not begin with a boot tag DOS 0 to DOS 3)";
        desk.hold_out(&["audit", &name], &line(name.as_bytes(), due), false);
        desk.hold_find(&name, &["", TITLE, "a//b"]);
        desk.hold_read(&name, TITLE.as_bytes());
        desk.hold_reset(&name, TITLE.as_bytes(), &BASES_A);
    }
    for kind in 0..4 {
        let name = format!("{kind}.adf");
        desk.hold_find(&name, &["", TITLE, "t", "a//b"]);
        desk.hold_read(&name, TITLE.as_bytes());
        desk.hold_reset(&name, TITLE.as_bytes(), &BASES_A);
    }
    desk.hold_audit(&["0.adf", "1.adf", "2.adf", "3.adf", "4.adf", "255.adf"]);
}

/// The four lines of a reset, and each step's refusal as the last.
#[test]
fn resets() {
    let desk = Desk::with_samples();
    let (audit, find) = (audited(FLOPPY, &titles()).0, looked_up(FLOPPY, &titles(), TITLE.as_bytes()).0);
    let start = format!("audit: {audit}\nfind: {find}\nread: 300 bytes\n");
    let whole = |base: &str, last: &str, accepted: bool| {
        let words = ["reset", "titles.adf", TITLE, "10000", base, "30000"];
        desk.hold_out(&words, format!("{start}load: {last}\n").as_bytes(), accepted);
    };
    whole("0x20000", "3 hunks, 116 bytes", true);
    let not_allowed = "(the bases are not one for each hunk, or this one is not allowed)";
    whole("2", &format!("refused 40 at 1 {not_allowed}"), false);

    let ends = |path: &str, lines: &str| {
        let words = ["reset", "titles.adf", path, "10000"];
        desk.hold_out(&words, format!("audit: {audit}\n{lines}").as_bytes(), false);
    };
    let as_directory = "(a file is used as a directory, or a directory as a file)";
    ends("c/tilte", "find: refused 19 at 1 (there is no such name)\n");
    ends("c//title", "find: refused 18 at 1 (the path is not well formed here)\n");
    ends("c/title/x", &format!("find: refused 20 at 1 {as_directory}\n"));
    ends("c", &format!("find: directory, key 2, compared 1\nread: refused 20 at 0 {as_directory}\n"));
    ends("", &format!("find: directory, key 880, compared 0\nread: refused 20 at 0 {as_directory}\n"));
    let text = "audit: refused 7 at 4 (the sum of the block is not 0)\n";
    desk.hold_out(&["reset", "damaged.adf", TITLE, "10000"], text.as_bytes(), false);
}

/// A program of hunks without stored words, of these sizes.
fn empty_hunks(sizes: &[u32]) -> Vec<u8> {
    let bodies = sizes.iter().flat_map(|&size| [BSS, size, END]);
    let header = [HEADER, 0, sizes.len() as u32, 0, sizes.len() as u32 - 1];
    bytes(&header.into_iter().chain(sizes.iter().copied()).chain(bodies).collect::<Vec<u32>>())
}

/// A program that fills the memory to its last word, and one that is a word too large.
#[test]
fn programs_as_large_as_the_memory() {
    let count = MEMORY as u32 / 4 / HUNK_WORDS;
    let sizes = |last: u32| -> Vec<u32> { (0..count).map(|_| HUNK_WORDS).chain([last]).collect() };
    let desk = Desk::new([("full", empty_hunks(&sizes(0))), ("over", empty_hunks(&sizes(1)))]);
    let bases: Vec<u32> = (0..=count).map(|index| 4 * HUNK_WORDS * index).collect();
    desk.hold_load("full", &bases);
    let text = format!("refused 41 at 0 (the room is too small: {} bytes needed, {MEMORY} lent)", MEMORY + 4);
    desk.hold_out(&words_of("load", "over", &[&bases]), &line(b"over", &text), false);
    desk.hold_out(&words_of("move", "over", &[&bases, &bases]), &line(b"over", &text), false);
}

#[test]
fn programs_of_64_hunks_and_of_one_more() {
    let desk = Desk::new([("most", empty_hunks(&[1; 64])), ("more", empty_hunks(&[1; 65]))]);
    let bases: Vec<u32> = (0..65).map(|index| 0x8000_0000 - 4 * index).collect();
    desk.hold_load("most", &bases[..64]);
    desk.hold_move("most", &bases[..64], &bases[1..]);
    desk.hold_load("more", &bases);
}

/// A program of four hunks: any memory, chip, fast, and chip without words. The first has two targets, one of which
/// lies over two words.
fn with_kinds_of_memory() -> Vec<u8> {
    let header = [HEADER, 0, 4, 0, 3, 3, CHIP | 2, FAST | 1, CHIP];
    let first = [CODE, 3, 0x10, 0, 0x20, RELOCATIONS, 1, 1, 0, 1, 2, 6, 0, END];
    let others = [DATA, 1, 7, END, BSS, 1, END, BSS, 0, END];
    bytes(&[&header[..], &first, &others].concat())
}

/// What is printed after a load of that program, or a move, to addresses of which these are the high digits.
fn kinds_of_memory_at([first, second, third, fourth]: [&str; 4]) -> String {
    format!(
        "{second}0010\n0000{third}\n00000020\n00000007\n00000000\n00000000\n\
         hunk 0: kind 3E9, place 0, size 3, base {first}0000, memory any\n\
         hunk 1: kind 3EA, place 12, size 2, base {second}0000, memory chip\n\
         hunk 2: kind 3EB, place 20, size 1, base {third}0000, memory fast\n\
         hunk 3: kind 3EB, place 24, size 0, base {fourth}0000, memory chip\n"
    )
}

/// Its lines are written out here, and are those of this package too.
#[test]
fn programs_with_kinds_of_memory() {
    let program = with_kinds_of_memory();
    let (old, new) = ([0x1_0000, 0x2_0000, 0x3_0000, 0x4_0000], [0x10_0000, 0xFFFE_0000, 0x1_0000, 0x10_0000]);
    let desk = Desk::new([("kinds", program.clone()), ("worked", worked_file())]);
    for (words, due, said) in [
        (
            words_of("load", "kinds", &[&old]),
            kinds_of_memory_at(["0001", "0002", "0003", "0004"]),
            loaded(b"kinds", &program, &old),
        ),
        (
            words_of("move", "kinds", &[&old, &new]),
            kinds_of_memory_at(["0010", "FFFE", "0001", "0010"]),
            moved(b"kinds", &program, &old, &new),
        ),
    ] {
        assert_eq!(String::from_utf8(said.out).as_ref(), Ok(&due));
        desk.hold_out(&words, due.as_bytes(), true);
    }
    // programs that ask for none in particular say so
    let plain = desk.said(&words_of("load", "worked", &[&[0x3000, 0x7000]]));
    assert_eq!(String::from_utf8_lossy(&plain.out).matches(", memory any\n").count(), 2);
}

/// The pin's way with that program, on a volume with nothing else; and with the same, but for both bits in a size.
#[test]
fn resets_with_kinds_of_memory() {
    let program = with_kinds_of_memory();
    let mut both = program.clone();
    put(&mut both, 6, BOTH | 2);
    for disk in [Disk::OLD_INTERNATIONAL, Disk::FAST, Disk::FAST_INTERNATIONAL.with_blocks(HIGH_DENSITY)] {
        resets_on(&disk, &program, &both);
    }
}

fn resets_on(disk: &Disk, program: &[u8], both: &[u8]) {
    let mut plan = empty(disk);
    plan.add_named(None, b"kinds", Kind::File(program.len() as u32));
    let volume = laid_out(&mut Rng::new(177), &plan);
    let entry = entry(&volume, "kinds");
    let image = |program: &[u8]| {
        let data = |block: &mut [u8]| block[disk.data_start()..][..program.len()].copy_from_slice(program);
        changed(&volume, entry.data[0], data)
    };
    let desk = Desk::new([("kinds.adf", image(program)), ("both.adf", image(both))]);
    let bases = [0x1_0000, 0x2_0000, 0x3_0000, 0x4_0000];
    for (name, last, accepted) in [
        ("kinds.adf", "4 hunks, 24 bytes", true),
        ("both.adf", "refused 43 at 24 (chip and fast memory are asked for at once)", false),
    ] {
        let named = Named::blocks(disk.blocks);
        let find = looked_up(disk.blocks, desk.file(name), b"kinds").0;
        let start = format!("audit: {}\nfind: {find}\n", audited(disk.blocks, desk.file(name)).0);
        let due = format!("{start}read: {} bytes\nload: {last}\n", program.len());
        let said = reset(disk.blocks, desk.file(name), b"kinds", &bases);
        assert_eq!(said, Said::answer(due.clone().into_bytes(), accepted));
        desk.hold_reset_of(&named, name, b"kinds", &bases);
    }
}

#[test]
fn a_program_file_as_long_as_the_room() {
    let desk = Desk::new([("long", long_file(FILE_ROOM / 4)), ("worked", worked_file())]);
    desk.hold_load("long", &[0x3000]);
    desk.hold_move("long", &[0x3000], &[0xFFFF_FFFC]);
    desk.hold_load("worked", &[0x3000, 0x7000]);
    desk.hold_move("worked", &[0x3000, 0x7000], &[0x4000, 0x9000]);
}

/// Names with a space, with letters and bytes that are none, and paths of the greatest length and above it.
#[test]
fn paths_of_all_sorts() {
    Disk::FLOPPIES.iter().for_each(paths_of_all_sorts_on);
    paths_of_all_sorts_on(&Disk::OLD_INTERNATIONAL.with_blocks(HIGH_DENSITY));
}

fn paths_of_all_sorts_on(disk: &Disk) {
    let mut rng = Rng::new(170);
    let mut plan = empty(disk);
    plan.add_named(None, b"two words", Kind::File(10));
    plan.add_named(None, b"\xC4rger\xFF\x01", Kind::File(20));
    plan.add_named(None, b"tab\tand\nline", Kind::File(30));
    let deepest = (0..8).fold(None, |within, _| Some(plan.add_named(within, &[b'L'; 30], Kind::Directory)));
    plan.add_named(deepest, b"to 255_", Kind::File(40));
    plan.add_named(deepest, b"to 256__", Kind::File(50));
    let volume = laid_out(&mut rng, &plan);
    let desk = Desk::new([("volume.adf", volume.image.clone())]);
    let deep = [[b'L'; 30]; 8].join(&b'/');
    let longest = [&deep[..], b"/to 255_"].concat();
    assert_eq!(longest.len(), 255);
    let accents = looked_up(disk.blocks, &volume.image, b"\xE4RGER\xFF\x01");
    assert_eq!(accents.1, disk.is_international(), "{}", accents.0);
    let paths: [&[u8]; 14] = [
        b"two words",
        b"TWO WORDS",
        b"\xC4rger\xFF\x01",
        b"\xE4rger\xFF\x01",
        b"\xE4RGER\xFF\x01",
        b"\xE4RGER\xDF\x01",
        b"tab\tand\nline",
        b"",
        &longest,
        &[&deep[..], b"/to 256__"].concat(),
        &[b'p'; 300],
        &[b'p'; ARGUMENT_ROOM],
        b" ",
        b"a:b",
    ];
    let named = Named::blocks(disk.blocks);
    desk.hold_find_of(&named, "volume.adf", &paths);
    for path in paths {
        desk.hold_read_of(&named, "volume.adf", path);
    }
}

/// Volumes of all sorts, some of each kind, and the deepest, the largest and a full one on high-density disks.
fn volumes(rng: &mut Rng) -> Vec<(String, Volume)> {
    let [old, fast, old_international, fast_international] = &Disk::FLOPPIES;
    let [large_old, large_fast] = &[Disk::OLD, Disk::FAST].map(|disk| disk.with_blocks(HIGH_DENSITY));
    let sizes = |disk| [&telling_sizes(disk)[..], &[3 * TABLE * disk.data_bytes() + 1]].concat();
    let plans = [
        ("empty", empty(fast_international)),
        ("nested", nested(rng, fast, fast.chain_limit())),
        ("chain", chain(rng, old_international, 300)),
        ("largest", files(rng, old, &[largest_file(old)])),
        ("largest fast", files(rng, fast, &[largest_file(fast)])),
        ("telling", files(rng, old_international, &sizes(old_international))),
        ("telling fast", files(rng, fast_international, &sizes(fast_international))),
        ("full", full(rng, old)),
        ("full fast", full(rng, fast_international)),
        ("mixed", mixed(rng, fast, 150)),
        ("more", mixed(rng, old_international, 400)),
        ("pairs", alike(rng, old, 10, 2)),
        ("large nested", nested(rng, large_old, large_old.chain_limit())),
        ("large chain", chain(rng, large_fast, 2_000)),
        ("largest of all", files(rng, large_fast, &[largest_file(large_fast)])),
        ("large full", full(rng, large_old)),
    ];
    plans.iter().map(|(name, plan)| (name.to_string(), laid_out(rng, plan))).collect()
}

#[test]
fn audits_of_generated_volumes() {
    let mut rng = Rng::new(171);
    let mut all: Vec<(String, Vec<u8>)> = Vec::new();
    for (name, volume) in volumes(&mut rng) {
        for number in 0..3 {
            let mut image = volume.image.clone();
            apply(&scratch(&mut rng, &volume), &mut image);
            all.push((format!("{name}{number}"), image));
        }
        for other in volume.disk.others() {
            let mut image = volume.image.clone();
            apply(&[retagged(&volume, &other).0], &mut image);
            all.push((format!("{name}-{}", other.kind), image));
        }
        all.push((name, volume.image));
    }
    let desk = Desk::new(all);
    let names: Vec<&str> = desk.files.keys().map(|name| &name[..]).collect();
    let (large, small): (Vec<&str>, Vec<&str>) = names.iter().partition(|name| name.starts_with("large "));
    desk.hold_audit(&names);
    desk.hold_audit_of(&Named::blocks(HIGH_DENSITY), &large);
    desk.hold_audit_of(&Named::blocks(ANY), &names);
    small.iter().take(3).for_each(|name| desk.hold_audit(&[name]));
}

/// Paths of some entries and of nothing, as far as they can be said in an argument.
fn some_paths(rng: &mut Rng, volume: &Volume) -> Vec<Vec<u8>> {
    let paths = Paths::new(volume);
    let count = volume.entries.len() as u64;
    let numbers: Vec<usize> = (0..30).filter(|_| count > 0).map(|_| rng.below(count.max(1)) as usize).collect();
    let mut all = vec![paths.root().path];
    all.extend(numbers.iter().map(|&number| paths.existing(rng, number).path));
    all.extend(numbers.iter().take(5).map(|&number| paths.past_file(rng, number).path));
    all.extend(paths.missing(rng, None).into_iter().map(|question| question.path));
    let components = paths.components(numbers.first().copied());
    all.extend(bad_forms(rng, &components).into_iter().map(|question| question.path));
    all.retain(|path| !path.contains(&0) && path.len() <= ARGUMENT_ROOM);
    all
}

#[test]
fn finds_and_reads_on_generated_volumes() {
    let mut rng = Rng::new(172);
    let (mut read, mut with_lists) = (0, 0);
    for (name, volume) in volumes(&mut rng) {
        let desk = Desk::new([("v", volume.image.clone())]);
        let paths = some_paths(&mut rng, &volume);
        let named =
            &if volume.disk.blocks == FLOPPY { Named::nothing() } else { Named::blocks(volume.disk.blocks) };
        desk.hold_find_of(named, "v", &paths);
        let by_paths = Paths::new(&volume);
        let is_sayable = |path: &[u8]| !path.contains(&0) && path.len() <= 255;
        let files: Vec<usize> = (0..volume.entries.len())
            .filter(|&number| volume.entries[number].size() > 0 && is_sayable(&by_paths.path(number)))
            .take(6)
            .collect();
        for &number in &files {
            let path = by_paths.existing(&mut rng, number).path;
            let said = desk.said(&named.call("read", &[&b"v"[..], &path]));
            assert!(said == Said::answer(by_paths.contents(number), true), "{name}: {path:?}");
            desk.hold_reset_of(named, "v", &path, &[0]);
            read += 1;
            with_lists += usize::from(!volume.entries[number].lists.is_empty());
        }
        paths.iter().take(4).for_each(|path| desk.hold_read_of(named, "v", path));
    }
    assert!(read > 15 && with_lists > 4, "{read} read, {with_lists} of them with lists");
}

/// A move prints what a load at the new bases prints.
#[test]
fn moves_are_loads_at_the_new_bases() {
    let mut rng = Rng::new(173);
    for round in 0..12 {
        let program = if round == 0 { None } else { Some(good_program(&mut rng)) };
        let (bytes, sizes) = match program {
            None => (title(), vec![10, 12, 7]),
            Some(program) => (file(&program.written()), program.sizes()),
        };
        let desk = Desk::new([("program", bytes)]);
        let [old, new] = [(); 2].map(|()| good_bases(&mut rng, &sizes));
        let load = desk.said(&words_of("load", "program", &[&new]));
        let there = desk.said(&words_of("move", "program", &[&old, &new]));
        assert!(load == there && load.err.is_empty() && load.status == ACCEPTED, "round {round}");
        desk.hold_load("program", &old);
        desk.hold_move("program", &old, &new);
    }
}

#[test]
fn programs_with_faults() {
    let mut rng = Rng::new(174);
    for cause in CAUSES.iter().step_by(3) {
        let bad = cause.file(&mut rng);
        let [old, new] = [(); 2].map(|()| good_bases(&mut rng, &bad.sizes));
        let desk = Desk::new([("program", bad.bytes)]);
        desk.hold_load("program", &old);
        if rng.below(4) == 0 {
            desk.hold_move("program", &old, &new);
        }
    }
    for _ in 0..20 {
        let program = good_program(&mut rng);
        let mut bytes = file(&program.written());
        scratch_program(&mut rng, &mut bytes);
        let desk = Desk::new([("program", bytes)]);
        desk.hold_load("program", &good_bases(&mut rng, &program.sizes()));
    }
}

#[test]
fn bases_with_faults() {
    let mut rng = Rng::new(175);
    for _ in 0..BASE_CAUSES.len() {
        let program = good_program(&mut rng);
        let (desk, sizes) = (Desk::new([("program", file(&program.written()))]), program.sizes());
        let ((bad, _), good) = (bad_bases(&mut rng, &sizes), good_bases(&mut rng, &sizes));
        // without a base it is a wrong use
        if !bad.is_empty() {
            desk.hold_load("program", &bad);
            desk.hold_move("program", &bad, &good);
            desk.hold_move("program", &good, &bad);
        }
    }
}

/// An image that a number is due for: by an audit, by a lookup of a path, by a read of one.
struct Flaw {
    number: u32,
    image: Vec<u8>,
    audit: bool,
    find: Option<&'static [u8]>,
    read: Option<&'static [u8]>,
}

/// A small volume: three entries on one chain, of which the second is a directory with a file, and a file with a list.
fn small(disk: &Disk) -> Volume {
    let mut plan = empty(disk);
    plan.add_named(None, b"cp", Kind::File(488));
    let within = Some(plan.add_named(None, b"Mary", Kind::Directory));
    plan.add_named(None, b"dc", Kind::File(3));
    plan.add_named(within, b"box", Kind::File(1_000));
    plan.add_named(None, b"one", Kind::File(74 * disk.data_bytes() + 1));
    laid_out(&mut Rng::new(176), &plan)
}

fn entry<'a>(volume: &'a Volume, name: &str) -> &'a Entry {
    volume.entries.iter().find(|entry| entry.name == name.as_bytes()).expect("an entry")
}

/// The image with a block changed; its sum is mended, if it has one.
fn changed(volume: &Volume, key: u32, change: impl Fn(&mut [u8])) -> Vec<u8> {
    let mut block = volume.block(key).to_vec();
    change(&mut block);
    if volume.position(key).is_none_or(|position| volume.is_summed(volume.order[position].part)) {
        mend(&mut block, if key == volume.bitmap { 0 } else { 5 });
    }
    let patch: Patch = (key as usize * BLOCK_BYTES, block);
    let mut image = volume.image.clone();
    apply(&[patch], &mut image);
    image
}

/// The image with one word of a block changed.
fn with_word(volume: &Volume, key: u32, index: usize, value: u32) -> Vec<u8> {
    changed(volume, key, |block| put(block, index, value))
}

/// Flaws that all three calls find on the way to a path.
fn common_flaws(volume: &Volume) -> Vec<Flaw> {
    let [mary, cp, dc] = ["Mary", "cp", "dc"].map(|name| entry(volume, name).key);
    let [mut untagged, mut unsummed] = [(); 2].map(|()| volume.image.clone());
    untagged[3] = 4;
    unsummed[mary as usize * BLOCK_BYTES + 23] ^= 1;
    let slots = [&b"Mary"[..], b"cp", b"dc", b"hw", b"Mars"].map(|name| slot(&volume.disk, name));
    let hangs = slots[0];
    assert!(slots[1..4].iter().all(|&slot| slot == hangs) && slots[4] != hangs);
    let (root, blocks) = (volume.disk.root(), volume.disk.blocks);
    let flaws: [(u32, Vec<u8>, &'static [u8]); 11] = [
        (1, volume.image[1..].to_vec(), b"cp"),
        (3, untagged, b"cp"),
        (4, with_word(volume, root, 3, 71), b"cp"),
        (5, with_word(volume, root, slot_word(hangs), blocks), b"cp"),
        // a chain that bites its tail, and a name that it lacks
        (6, with_word(volume, dc, 124, cp), b"hw"),
        (7, unsummed, b"Mary/box"),
        (8, with_word(volume, mary, 0, 8), b"Mary/box"),
        (9, with_word(volume, mary, 127, 4), b"Mary/box"),
        (10, with_word(volume, mary, 125, 0), b"Mary/box"),
        (11, changed(volume, mary, |block| put_name(block, b"M:ry")), b"Mary/box"),
        (12, changed(volume, mary, |block| put_name(block, b"Mars")), b"Mary/box"),
    ];
    let flaw = |(number, image, path)| Flaw { number, image, audit: true, find: Some(path), read: Some(path) };
    flaws.into_iter().map(flaw).collect()
}

/// Flaws that audits alone find, or audits and reads.
fn deeper_flaws(volume: &Volume) -> Vec<Flaw> {
    let (one, dc) = (entry(volume, "one"), entry(volume, "dc").key);
    let free = volume.free()[0];
    let (index, bit) = place(free);
    let bits = word(volume.block(volume.bitmap), index);
    let mut flaws = vec![
        (13, changed(volume, dc, |block| put_name(block, b"CP")), None),
        (14, with_word(volume, one.key, 2, 71), Some(&b"one"[..])),
        (16, with_word(volume, volume.disk.root(), 78, 0), None),
        (17, with_word(volume, volume.bitmap, index, bits ^ 1 << bit), None),
    ];
    // the words of data blocks, where they have some
    if volume.disk.has_data_words() {
        flaws.push((15, with_word(volume, one.data[73], 2, 73), Some(b"one")));
    }
    let flaw = |(number, image, read)| Flaw { number, image, audit: true, find: None, read };
    flaws.into_iter().map(flaw).collect()
}

/// Every number that an image or a path can bring on a disk of this kind.
fn flaws(disk: &Disk) -> Vec<Flaw> {
    let volume = small(disk);
    let mut all = common_flaws(&volume);
    all.extend(deeper_flaws(&volume));
    let paths: [(u32, &'static [u8], &'static [u8]); 3] =
        [(18, b"Mary//box", b"Mary/"), (19, b"Mary/bix", b"nobody"), (20, b"cp/x", b"Mary")];
    for (number, find, read) in paths {
        let image = volume.image.clone();
        all.push(Flaw { number, image, audit: false, find: Some(find), read: Some(read) });
    }
    all
}

/// The image of a volume under the tag of a disk of another kind.
fn under(volume: &Volume, disk: &Disk) -> Vec<u8> {
    let mut image = volume.image.clone();
    apply(&[retagged(volume, disk).0], &mut image);
    image
}

/// Flaws that lie in the file system alone: without the last byte of the tag there is none.
fn flaws_in_file_systems() -> Vec<Flaw> {
    let of = |disk: &Disk, size: u32| {
        let mut plan = empty(disk);
        plan.add_named(None, b"file", Kind::File(size));
        Volume::new(&mut Rng::new(181), &plan, Style { filling: Filling::Old, order: Order::Rising })
    };
    let path: Option<&'static [u8]> = Some(b"file");
    let flaw = |number, image| Flaw { number, image, audit: true, find: None, read: path };
    let (old, fast) = (of(&Disk::OLD, 500), of(&Disk::FAST, 500));
    // one block in either, with the words of the old file system, and one of them wrong
    let small = of(&Disk::FAST, 400);
    let data = small.entries[0].data[0];
    let with = |index: usize, mended: bool| {
        let mut block = small.block(data).to_vec();
        put(&mut block, index, 7);
        if mended {
            mend(&mut block, 5);
        }
        let mut image = under(&small, &Disk::OLD);
        apply(&[(data as usize * BLOCK_BYTES, block)], &mut image);
        image
    };
    assert!(audited(FLOPPY, &under(&small, &Disk::OLD)).1, "as good in the old file system");
    vec![
        flaw(14, under(&old, &Disk::FAST)),
        flaw(14, under(&fast, &Disk::OLD)),
        flaw(7, with(9, false)),
        flaw(8, with(0, true)),
        flaw(15, with(3, true)),
    ]
}

/// Flaws that lie in accents alone: without the last byte of the tag there is none.
fn flaws_in_accents() -> Vec<Flaw> {
    let [old, fast] = [(Disk::OLD, Disk::OLD_INTERNATIONAL), (Disk::FAST, Disk::FAST_INTERNATIONAL)]
        .map(|(plain, international)| flaws_in_accents_of(&plain, &international));
    old.into_iter().chain(fast).collect()
}

fn flaws_in_accents_of(plain: &Disk, international: &Disk) -> Vec<Flaw> {
    // a plain disk has the small letters elsewhere, and asks for the capitals where they are
    let mut plan = empty(international);
    plan.add_named(None, b"\xE9t\xE9", Kind::File(5));
    let misplaced = laid_out(&mut Rng::new(178), &plan);
    let path: Option<&'static [u8]> = Some(b"\xC9T\xC9");
    let plan = alike(&mut Rng::new(179), plain, 0, 1);
    let double = laid_out(&mut Rng::new(180), &plan);
    let lost: Option<&'static [u8]> = Some(b"\xE9t\xE9");
    vec![
        Flaw { number: 12, image: under(&misplaced, plain), audit: true, find: path, read: path },
        Flaw { number: 13, image: under(&double, international), audit: true, find: None, read: None },
        Flaw { number: 19, image: under(&misplaced, plain), audit: false, find: lost, read: lost },
    ]
}

/// Whether a text says this number, with its sentence.
fn says(text: &[u8], number: u32) -> bool {
    let text = String::from_utf8_lossy(text);
    let sentence = compare::counter::sentence(number);
    text.contains(&format!("refused {number} at ")) && text.contains(&format!("({sentence}"))
}

/// Holds the tool to what is due for each flaw of an image, with this number of blocks named.
fn hold_flaws(named: &Named, flaws: &[Flaw]) {
    let names: Vec<String> = flaws.iter().zip(0..).map(|(flaw, at)| format!("{at}-{}.adf", flaw.number)).collect();
    let desk = Desk::new(names.iter().cloned().zip(flaws.iter().map(|flaw| flaw.image.clone())));
    let audited_names: Vec<&str> =
        names.iter().zip(flaws).filter(|(_, flaw)| flaw.audit).map(|(name, _)| &name[..]).collect();
    desk.hold_audit_of(named, &audited_names);
    for (name, Flaw { number, image, audit, find, read }) in names.iter().zip(flaws) {
        assert!(!audit || says(audited(named.number, image).0.as_bytes(), *number), "{number} by an audit");
        if let Some(path) = find {
            assert!(says(looked_up(named.number, image, path).0.as_bytes(), *number), "{number} by a lookup");
            desk.hold_find_of(named, name, &[path]);
        }
        if let Some(path) = read {
            assert!(says(&read_out(named.number, image, path).err, *number), "{number} by a read");
            desk.hold_read_of(named, name, path);
        }
    }
}

#[test]
fn every_number_of_images_and_paths() {
    for disk in &Disk::FLOPPIES {
        hold_flaws(&Named::nothing(), &flaws(disk));
    }
    let by_tags: Vec<Flaw> = flaws_in_accents().into_iter().chain(flaws_in_file_systems()).collect();
    hold_flaws(&Named::nothing(), &by_tags);
}

#[test]
fn every_number_of_large_images_and_paths() {
    for (disk, number) in Disk::of_blocks(HIGH_DENSITY).iter().zip([HIGH_DENSITY, ANY, ANY, HIGH_DENSITY]) {
        hold_flaws(&Named::blocks(number), &flaws(disk));
    }
}

/// Programs, each with bases, and the number due for them.
fn program_flaws() -> Vec<(u32, Vec<u8>, Vec<u32>)> {
    let header = [HEADER, 0, 1, 0, 0, 4];
    let body = [CODE, 3, 7, 8, 9];
    let good = |more: &[u32]| bytes(&[&header[..], &body, more, &[END]].concat());
    let with = |index: usize, value: u32| {
        let mut bytes = good(&[]);
        put(&mut bytes, index, value);
        bytes
    };
    let whole = good(&[]);
    let count = MEMORY as u32 / 4 / HUNK_WORDS + 1;
    let sizes = vec![HUNK_WORDS; count as usize];
    let large = [&[HEADER, 0, count, 0, count - 1], &sizes[..], &[BSS, 0, END].repeat(sizes.len())].concat();
    let apart: Vec<u32> = (0..count).map(|index| 4 * HUNK_WORDS * index).collect();
    vec![
        (30, whole[..whole.len() - 1].to_vec(), vec![0]),
        (31, whole[..whole.len() - 4].to_vec(), vec![0]),
        (32, with(2, 65), vec![0]),
        (33, with(1, 1), vec![0]),
        (34, with(5, HUNK_WORDS + 1), vec![0]),
        (35, with(6, END), vec![0]),
        (36, with(7, 5), vec![0]),
        (37, good(&[SYMBOLS, 0x0100_0001, 0x61, 0, 0]), vec![0]),
        (38, good(&[RELOCATIONS, 1, 0, 10, 0]), vec![0]),
        (39, [&whole[..], &whole[..4]].concat(), vec![0]),
        (40, whole, vec![2]),
        (41, bytes(&large), apart),
        (42, good(&[RELOCATIONS, 2, 0, 4, 6, 0]), vec![0]),
        (43, with(5, BOTH | 4), vec![0]),
    ]
}

#[test]
fn every_number_of_programs_and_bases() {
    for (number, bytes, bases) in program_flaws() {
        assert!(says(&loaded(b"p", &bytes, &bases).out, number), "{number} by a load");
        assert!(says(&moved(b"p", &bytes, &bases, &bases).out, number), "{number} by a move");
        let desk = Desk::new([("p", bytes)]);
        desk.hold_load("p", &bases);
        desk.hold_move("p", &bases, &bases);
    }
    // and in the second list alone
    let desk = Desk::with_samples();
    assert!(says(&moved(b"title", &title(), &BASES_A, &[0]).out, 40));
    desk.hold_move("title", &BASES_A, &[0]);
    desk.hold_move("title", &BASES_A, &[BASES_A[0], BASES_A[1], BASES_A[1] + 44]);
}

/// Every number comes on a disk of each size and kind, but 2: the tool lends an audit a claim area of a byte for each
/// block of the largest disk, whatever the image. 15 comes where data blocks have words.
#[test]
fn the_numbers_tried_are_all_there_are() {
    let of_programs: Vec<u32> = program_flaws().into_iter().map(|(number, ..)| number).collect();
    for disk in &Disk::ALL {
        let of_images: Vec<Flaw> = flaws(disk);
        let numbers = |of: fn(&Flaw) -> bool| -> BTreeSet<u32> {
            of_images.iter().filter(|flaw| of(flaw)).map(|flaw| flaw.number).collect()
        };
        let is_given = |number: &u32| *number != 15 || disk.has_data_words();
        assert!(numbers(|flaw| flaw.audit).into_iter().eq([1].into_iter().chain(3..18).filter(is_given)));
        assert!(numbers(|flaw| flaw.find.is_some()).into_iter().eq([1].into_iter().chain(3..13).chain(18..21)));
        let of_read = [1].into_iter().chain(3..13).chain([14, 15]).chain(18..21).filter(is_given);
        assert!(numbers(|flaw| flaw.read.is_some()).into_iter().eq(of_read));
        let tried: BTreeSet<u32> = of_images.iter().map(|flaw| flaw.number).chain(of_programs.clone()).collect();
        let all: BTreeSet<u32> =
            SENTENCES.iter().map(|&(number, _)| number).filter(|&number| number != 2).filter(is_given).collect();
        assert_eq!(tried, all);
    }
}

/// The folder of the repository.
fn repository() -> &'static Path {
    Path::new(env!("CARGO_MANIFEST_DIR")).parent().expect("this package lies in a repository")
}

/// A word of a command as bash takes it: within `$'` and `'` a byte may stand as `\x` and two digits.
fn unquoted(word: &str) -> Vec<u8> {
    let Some(inner) = word.strip_prefix("$'").and_then(|word| word.strip_suffix('\'')) else { return word.into() };
    let mut parts = inner.split("\\x");
    let mut bytes: Vec<u8> = parts.next().unwrap_or_default().into();
    for part in parts {
        let (digits, rest) = part.split_at(2);
        bytes.push(u8::from_str_radix(digits, 16).expect("two digits"));
        bytes.extend(rest.bytes());
    }
    bytes
}

/// A call that a page shows, and the lines shown for it.
type ShownCall<'a> = (Vec<Vec<u8>>, Vec<&'a str>);

/// The calls that a page shows. They stand in lines that are set in by four.
fn shown_calls(page: &str) -> Vec<ShownCall<'_>> {
    let mut calls: Vec<ShownCall> = Vec::new();
    for text in page.lines().filter_map(|line| line.strip_prefix("    ")) {
        match (text.strip_prefix("./bench "), calls.last_mut()) {
            (Some(words), _) => calls.push((words.split(' ').map(unquoted).collect(), Vec::new())),
            (None, Some((_, lines))) => lines.push(text),
            (None, None) => {}
        }
    }
    calls
}

/// Whether a line is as shown, where ` ..` at the end stands for the rest of it.
fn is_as_shown(line: &str, shown: &str) -> bool {
    shown
        .strip_suffix("..")
        .filter(|start| start.ends_with(' '))
        .map_or(line == shown, |start| line.starts_with(start))
}

/// Whether lines are as shown, where a line `..` stands for any lines.
fn are_as_shown(lines: &[&str], shown: &[&str]) -> bool {
    match shown.split_first() {
        None => lines.is_empty(),
        Some((&"..", rest)) => (0..=lines.len()).any(|skipped| are_as_shown(&lines[skipped..], rest)),
        Some((first, rest)) => {
            lines.first().is_some_and(|line| is_as_shown(line, first)) && are_as_shown(&lines[1..], rest)
        }
    }
}

/// What the page of the samples shows is what the tool prints, read as letters of Latin-1.
#[test]
fn the_page_of_the_samples_is_right() {
    let page = fs::read_to_string(repository().join("samples/README.md")).expect("the page");
    let calls = shown_calls(&page);
    let verbs: BTreeSet<&[u8]> = calls.iter().map(|(words, _)| &words[0][..]).collect();
    assert!(verbs.into_iter().eq(["audit", "find", "load", "move", "read", "reset"].map(str::as_bytes)));
    assert!(calls.iter().any(|(words, _)| words.concat().contains(&0xC9)), "a path with accents");
    let named: BTreeSet<&[u8]> =
        calls.iter().filter(|(words, _)| words[1] == b"-b").map(|(words, _)| &words[2][..]).collect();
    assert!(named.into_iter().eq(["3520", "any"].map(str::as_bytes)), "numbers of blocks");
    let is_shown =
        |name: &str| calls.iter().any(|(words, _)| words.iter().any(|word| word.ends_with(name.as_bytes())));
    assert!(compare::samples::all().iter().all(|(name, _)| is_shown(name)), "every sample");
    for (words, lines) in calls {
        let mut command = rattle("bench");
        command.args(words.iter().map(|word| OsStr::from_bytes(word)));
        command.current_dir(repository()).stdin(Stdio::null());
        let run = command.output().expect("a program that starts");
        let text: String = [run.stdout, run.stderr].concat().into_iter().map(char::from).collect();
        let got: Vec<&str> = text.lines().collect();
        assert!(are_as_shown(&got, &lines), "{}: {text:?}", shown(&words));
    }
}

#[test]
fn lines_left_out_of_a_page() {
    assert!(are_as_shown(&["a", "b", "c"], &["a", "..", "c"]));
    assert!(are_as_shown(&["a", "c"], &["a", "..", "c"]));
    assert!(!are_as_shown(&["a", "b"], &["a", "..", "c"]));
    assert!(!are_as_shown(&["a", "b"], &["a"]));
    assert!(!are_as_shown(&["a"], &["a", "b"]));
    assert!(are_as_shown(&["one two", "c"], &["one ..", "c"]) && !are_as_shown(&["one two"], &["on .."]));
    assert!(!are_as_shown(&["one"], &["one .."]) && !are_as_shown(&["one two"], &["one.."]));
    let page = "text\n\n    cargo run\n\n    ./bench find a b\n    b: x\n\n    ./bench audit a\n";
    let words = |words: &[&str]| words.iter().map(|word| word.as_bytes().to_vec()).collect::<Vec<_>>();
    let wanted = [(words(&["find", "a", "b"]), vec!["b: x"]), (words(&["audit", "a"]), vec![])];
    assert_eq!(shown_calls(page), wanted);
    assert_eq!(unquoted(r"$'M\xc9T\xE9'"), b"M\xC9T\xE9");
    assert_eq!(unquoted(r"M\xc9"), br"M\xc9");
}

/// A desk with a stand-in for `rt`: a script that says where the kit is, and does this where it is asked to check.
fn kit_with(check: &str) -> Desk {
    let asked = "case \"$1\" in doc | version) PATH=${PATH#*:} exec rt \"$@\" ;; esac";
    stand_in(&format!("{asked}\n{check}"))
}

/// A desk with a stand-in for `rt` that does this.
fn stand_in(text: &str) -> Desk {
    let desk = Desk::new([("rt", format!("#!/bin/sh\n{text}\n").into_bytes())]);
    let mode = fs::Permissions::from_mode(0o755);
    fs::set_permissions(desk.folder.join("rt"), mode).expect("a program of ours");
    desk
}

/// The script of this folder, with that stand-in.
fn script(top: &Path, kit: &Desk) -> Command {
    let path = std::env::var("PATH").expect("a PATH");
    let mut command = Command::new(top.join("bench"));
    command.env("PATH", format!("{}:{path}", kit.folder.display()));
    command
}

/// Names that look like what the tool says: the first three are of a volume, the others of the same damaged.
const FORGED: [&str; 5] = [
    "x: refused 17 at 2 (the bitmap has the bit of this block wrong)",
    "1",
    "2\nbench: x: cannot be opened\n2",
    "x: accepted, 4 directories, 3 files, 1 list blocks, 76 data blocks, 86 used, 1672 free",
    "0",
];

/// The script runs the program that is there, from any folder, and proves nothing for it: it says what the program
/// says, and ends with the status that the program writes.
#[test]
fn the_script_from_another_folder() {
    // it has to be built before
    let _program = rattle("bench");
    let images = [titles(), titles(), titles(), damaged(), damaged()];
    let desk = Desk::new(compare::samples::all().into_iter().chain(FORGED.into_iter().zip(images)));
    let kit = kit_with("echo \"asked rt to $*\" >&2\nexit 1");
    let longest = "a".repeat(ARGUMENT_ROOM + 1);
    let calls: [(i32, &[&str]); 50] = [
        (ACCEPTED, &["audit", "-b", "3520", "high-density.adf"]),
        (ACCEPTED, &["audit", "-b", "any", "high-density.adf", "titles.adf"]),
        (ACCEPTED, &["read", "-b", "any", "high-density.adf", PICTURE]),
        (ACCEPTED, &["reset", "-b", "3520", "high-density.adf", TITLE, "10000", "20000", "30000"]),
        (REFUSED, &["audit", "high-density.adf"]),
        (REFUSED, &["audit", "-b", "3520", "high-density.adf", "titles.adf"]),
        (REFUSED, &["find", "-b", "5", "high-density.adf", TITLE]),
        (UNASKED, &["audit", "-b", "xyz", "high-density.adf"]),
        (UNASKED, &["read", "-b"]),
        (ACCEPTED, &[]),
        (ACCEPTED, &["--help"]),
        (ACCEPTED, &["-h"]),
        (ACCEPTED, &["--version"]),
        (ACCEPTED, &["audit", "titles.adf"]),
        (ACCEPTED, &["audit", FORGED[0], "titles.adf", FORGED[1], FORGED[2]]),
        (ACCEPTED, &["audit", "fast.adf", "titles.adf"]),
        (ACCEPTED, &["reset", "fast.adf", TITLE, "10000", "20000", "30000"]),
        (ACCEPTED, &["find", "titles.adf", "", TITLE]),
        (ACCEPTED, &["read", "titles.adf", FONT]),
        (ACCEPTED, &["load", "title", "10000", "20000", "30000"]),
        (ACCEPTED, &["move", "title", "10000", "20000", "30000", "to", "0", "100", "200"]),
        (ACCEPTED, &["reset", FORGED[0], TITLE, "10000", "20000", "30000"]),
        (REFUSED, &["audit", "titles.adf", "damaged.adf", "titles.adf"]),
        (REFUSED, &["audit", FORGED[3]]),
        (REFUSED, &["audit", FORGED[4]]),
        (REFUSED, &["find", "titles.adf", "", TITLE, "two words", "*"]),
        (REFUSED, &["find", "titles.adf", "0: file, key 3, size 300, compared 2", TITLE]),
        (REFUSED, &["read", "titles.adf", ""]),
        (REFUSED, &["read", "damaged.adf", TITLE]),
        (REFUSED, &["load", "title", "10000", "20000"]),
        (REFUSED, &["load", "titles.adf", "10000"]),
        (REFUSED, &["move", "title", "10000", "20000", "to", "0", "100", "200"]),
        (REFUSED, &["move", "title", "10000", "20000", "30000", "to", "0", "100", "1"]),
        (REFUSED, &["reset", FORGED[3], TITLE, "10000", "20000", "30000"]),
        (REFUSED, &["reset", "titles.adf", "c/tilte", "10000", "20000", "30000"]),
        (REFUSED, &["reset", "titles.adf", "c", "10000", "20000", "30000"]),
        (REFUSED, &["reset", "titles.adf", TITLE, "10000", "20000"]),
        (UNASKED, &["audit"]),
        (UNASKED, &["audit", "titles.adf", "nothing", "damaged.adf"]),
        (UNASKED, &["audit", "nothing: accepted, 4 directories"]),
        (UNASKED, &["find", "titles.adf"]),
        (UNASKED, &["find", "nothing", TITLE]),
        (UNASKED, &["read", "nothing", TITLE]),
        (UNASKED, &["load", "title", "10000", "", "30000"]),
        (UNASKED, &["load", ".", "10000"]),
        (UNASKED, &["move", "title", "10000", "20000", "30000"]),
        (UNASKED, &["reset", "nothing", TITLE, "10000"]),
        (UNASKED, &["reset", "titles.adf", TITLE, "base"]),
        (UNASKED, &["0"]),
        (UNASKED, &["audit", "titles.adf", &longest]),
    ];
    for (status, words) in calls {
        let said = desk.said_by(script(repository(), &kit), words);
        assert_eq!(said.status, status, "{}", shown(words));
        hold_said(words, &said, &desk.said(words));
    }
    let answer = line(b"titles.adf", &audited(FLOPPY, &titles()).0);
    let said = desk.said_by(script(repository(), &kit), &["audit", "titles.adf"]);
    hold_said(&["audit"], &said, &Said::answer(answer, true));
}

/// What cannot be written to the end is said, and no reader takes it for a whole file.
#[test]
fn output_that_cannot_be_written() {
    let (desk, kit) = (Desk::with_samples(), kit_with("exit 1"));
    let full = fs::File::options().write(true).open("/dev/full").expect("a device that is always full");
    let mut command = script(repository(), &kit);
    command.args(["read", "titles.adf", FONT]).current_dir(&desk.folder).stdin(Stdio::null());
    let run = command.stdout(full).output().expect("a program that starts");
    let text = String::from_utf8(run.stderr).expect("a text");
    assert_eq!(text, format!("bench: {FONT}: cannot be written to standard output\n"));
    assert_eq!(run.status.code(), Some(UNASKED));
}

#[test]
fn the_script_without_the_kit() {
    let (desk, kit) = (Desk::with_samples(), stand_in("exit 127"));
    let said = desk.said_by(script(repository(), &kit), &["audit", "titles.adf"]);
    let err = b"bench: the Rattle kit is not there: its command rt must be on the PATH\n".to_vec();
    hold_said(&["audit"], &said, &Said { out: Vec::new(), err, status: UNASKED });
}

/// A folder as the repository is before the first use, with two crates; one of those that `bench` names is the kit's.
fn unbuilt() -> Desk {
    let script = fs::read(repository().join("bench")).expect("the script");
    let list = b"words:\nother:\nbench: words io\n".to_vec();
    let desk = Desk::new([("bench", script), ("crates.txt", list), ("titles.adf", titles())]);
    fs::set_permissions(desk.folder.join("bench"), fs::Permissions::from_mode(0o755)).expect("a file of ours");
    for name in ["words", "other", "bench"] {
        fs::create_dir_all(desk.folder.join("crates").join(name)).expect("a folder");
    }
    desk
}

/// The text with the seconds that it took left out.
fn untimed(text: &[u8]) -> String {
    let text = String::from_utf8(text.to_vec()).expect("a text");
    let cut = |line: &str| match line.strip_suffix(" s").and_then(|line| line.rsplit_once(", ")) {
        Some((start, seconds)) if seconds.parse::<u32>().is_ok() => format!("{start}, N s\n"),
        _ => format!("{line}\n"),
    };
    text.lines().map(cut).collect()
}

const PROVING: &str = "bench: proving and building; this takes some minutes, once\n\
                       bench: proved words, 1 of 2 crates, N s\n";

/// The first use proves and builds, says how far it is, and then does what is asked; the second says no more of it.
#[test]
fn the_first_use_says_how_far_it_is() {
    let program = rattle("bench").get_program().to_owned();
    let desk = unbuilt();
    let check = format!(
        "[ \"${{PWD##*/}} $*\" = \"bench run -- --version\" ] || exit 1\n\
         echo \"crate words: modules loaded=0 checked=39\"\necho \"logic=proved functions=11 native=nat\"\n\
         echo \"note: bench proved nothing\" >&2\nmkdir -p out\ncp '{}' out/\n\
         echo \"library words: modules loaded=39 checked=0\"\n\
         echo \"crate bench: modules loaded=7 checked=88\"\necho \"logic=proved functions=81 axioms=2\"",
        program.to_str().expect("a path of ours")
    );
    let kit = kit_with(&check);
    let words = ["audit", "titles.adf"];
    let due = Said::answer(line(b"titles.adf", &audited(FLOPPY, &titles()).0), true);
    let first = desk.said_by(script(&desk.folder, &kit), &words);
    assert_eq!(untimed(&first.err), format!("{PROVING}bench: proved bench, 2 of 2 crates, N s\n"));
    hold_said(&words, &Said { err: Vec::new(), ..first }, &due);
    hold_said(&words, &desk.said_by(script(&desk.folder, &kit), &words), &due);
}

#[test]
fn a_first_use_that_fails() {
    let desk = unbuilt();
    let kit = kit_with(
        "echo \"crate words: modules loaded=0 checked=39\"\necho \"logic=proved functions=11\"\n\
         echo \"crate bench: modules loaded=7 checked=88\"\necho \"logic=not-proved\"\nexit 1",
    );
    let said = desk.said_by(script(&desk.folder, &kit), &["audit", "titles.adf"]);
    let log = desk.folder.canonicalize().expect("a folder of ours").join("target/bench.log");
    let told = "crate words: modules loaded=0 checked=39\nlogic=proved functions=11\n\
                crate bench: modules loaded=7 checked=88\nlogic=not-proved\nbench: not proved or not built";
    assert_eq!(untimed(&said.err), format!("{PROVING}{told}; {} has all of it\n", log.display()));
    assert_eq!((&said.out[..], said.status), (&b""[..], UNASKED));
}
