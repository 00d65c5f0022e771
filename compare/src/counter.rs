//! What the counter's tool `bench` is to say, made from the answers of this package.
//!
//! Names and paths are shown as they were given, so all text is bytes here. What the tool says before it asks
//! anything, such as a wrong use, is not here: the tests write it out.

use crate::audit::{audit, Report};
use crate::blocks::DIRECTORY;
use crate::disk::{claim_length, image_length, HIGH_DENSITY};
use crate::loader::{load, relocate, Lent, Loaded, RECORD};
use crate::lookup::{find, Found};
use crate::program::{read as read_program, Refusal, HUNKS};
use crate::reading::read;

/// The longest image that the tool takes, the longest program file, and the longest argument.
pub const IMAGE_ROOM: usize = 1_802_240;
pub const FILE_ROOM: usize = 1_802_240;
pub const ARGUMENT_ROOM: usize = 4_096;

/// The memory that it lends a program, and as much of a work area.
pub const MEMORY: usize = 1_048_576;

/// The most entries of a list of bases.
pub const BASES: usize = 256;

/// What each refusal means, in words; to that of 41 belong two numbers.
pub const SENTENCES: [(u32, &str); 34] = [
    (
        1,
        "no disk that is asked for has the image's length: 901120 bytes are 1760 blocks, 1802240 are 3520",
    ),
    (2, "the claim area is too short"),
    (3, "the image does not begin with a boot tag DOS 0 to DOS 3"),
    (4, "a fixed word of the root block is wrong"),
    (5, "a key is not in 2 to the last block of the disk"),
    (6, "a block is claimed twice, or a chain is too long"),
    (7, "the sum of the block is not 0"),
    (8, "a type word of the block is wrong"),
    (9, "the entry is a link"),
    (10, "the own key, the parent or a directory's last link is wrong"),
    (11, "the name is not allowed"),
    (12, "the name hangs in the wrong slot"),
    (13, "the directory has this name twice"),
    (14, "the size, the key count, the list link or an empty file's first data key is wrong"),
    (15, "the words of the data block are wrong, or the block before does not name it"),
    (16, "a bitmap word of the root block is wrong"),
    (17, "the bitmap has the bit of this block wrong"),
    (18, "the path is not well formed here"),
    (19, "there is no such name"),
    (20, "a file is used as a directory, or a directory as a file"),
    (30, "the file is empty or not made of whole words"),
    (31, "the file ends too early"),
    (32, "the first word, the hunk count, or the first or last hunk number is wrong"),
    (33, "the file names a library"),
    (34, "the size of the hunk is too large"),
    (35, "this type of block is not allowed here"),
    (36, "the count of words is above the size of the hunk"),
    (37, "the symbol type is not allowed"),
    (38, "the hunk number or the offset is not allowed"),
    (39, "there is more after the last hunk"),
    (40, "the bases are not one for each hunk, or this one is not allowed"),
    (41, "the room is too small"),
    (42, "the offset is less than 4 bytes from another one of its hunk"),
    (43, "chip and fast memory are asked for at once"),
];

/// Exit statuses: all was accepted, something was refused, the tool could not ask. Of several it is the highest.
pub const ACCEPTED: i32 = 0;
pub const REFUSED: i32 = 1;
pub const UNASKED: i32 = 2;

/// What a run says.
#[derive(Clone, Debug, Default, PartialEq, Eq)]
pub struct Said {
    /// Standard output.
    pub out: Vec<u8>,
    /// Standard error.
    pub err: Vec<u8>,
    /// The exit status.
    pub status: i32,
}

impl Said {
    /// What is said on standard output alone, where all was accepted or not.
    pub fn answer(out: Vec<u8>, accepted: bool) -> Said {
        Said { out, err: Vec::new(), status: if accepted { ACCEPTED } else { REFUSED } }
    }
}

/// What a refusal means.
pub fn sentence(number: u32) -> &'static str {
    let (_, text) = SENTENCES.iter().find(|&&(other, _)| other == number).expect("a number with a sentence");
    text
}

/// A refusal, with its number, its place and its sentence.
fn refused(refusal: Refusal) -> String {
    let Refusal { number, place } = refusal;
    format!("refused {number} at {place} ({})", sentence(number))
}

/// A refusal of a load or a move of this file.
fn program_refused(refusal: Refusal, file: &[u8]) -> String {
    if refusal.number != 41 {
        return refused(refusal);
    }
    let hunks = read_program(file).expect("room is asked for after the whole file");
    let needed: usize = hunks.iter().map(|hunk| 4 * hunk.size).sum();
    format!("refused 41 at 0 ({}: {needed} bytes needed, {MEMORY} lent)", sentence(41))
}

/// A name or a path, and what is said of it.
pub fn line(name: &[u8], text: &str) -> Vec<u8> {
    [name, b": ", text.as_bytes(), b"\n"].concat()
}

/// The claim area that the tool lends, long enough for every disk.
const CLAIM: usize = claim_length(HIGH_DENSITY);

/// An output that no file is longer than: none is as long as its image.
const OUTPUT: usize = image_length(HIGH_DENSITY);

/// What an audit says of an image, and whether it accepts it.
pub fn audited(named: u32, image: &[u8]) -> (String, bool) {
    match audit(named, image, &mut vec![0; CLAIM]) {
        Ok(Report { directories, files, list_blocks, data_blocks, used, free }) => {
            let entries = format!("{directories} directories, {files} files");
            let blocks = format!("{list_blocks} list blocks, {data_blocks} data blocks, {used} used, {free} free");
            (format!("accepted, {entries}, {blocks}"), true)
        }
        Err(refusal) => (refused(refusal), false),
    }
}

/// What a lookup says of a path, and whether it leads anywhere.
pub fn looked_up(named: u32, image: &[u8], path: &[u8]) -> (String, bool) {
    match find(named, image, path) {
        Ok(Found { kind, key, compared, .. }) if kind == DIRECTORY => {
            (format!("directory, key {key}, compared {compared}"), true)
        }
        Ok(Found { key, size, compared, .. }) => {
            (format!("file, key {key}, size {size}, compared {compared}"), true)
        }
        Err(refusal) => (refused(refusal), false),
    }
}

/// All bytes of a file on an image.
pub fn bytes_of(named: u32, image: &[u8], path: &[u8]) -> Result<Vec<u8>, Refusal> {
    let mut output = vec![0; OUTPUT];
    let count = read(named, image, path, 0, &mut output)?;
    output.truncate(count);
    Ok(output)
}

/// What a read says: the bytes of the file, or on the other side why not.
pub fn read_out(named: u32, image: &[u8], path: &[u8]) -> Said {
    match bytes_of(named, image, path) {
        Ok(out) => Said::answer(out, true),
        Err(refusal) => {
            let err = [b"bench: ", &line(path, &refused(refusal))[..]].concat();
            Said { out: Vec::new(), err, status: REFUSED }
        }
    }
}

/// The areas that the tool lends.
struct Areas {
    memory: Vec<u8>,
    table: Vec<u32>,
    work: Vec<u8>,
}

impl Areas {
    fn new() -> Areas {
        Areas { memory: vec![0; MEMORY], table: vec![0; RECORD * HUNKS as usize], work: vec![0; MEMORY] }
    }

    fn lent(&mut self) -> Lent<'_> {
        Lent { memory: &mut self.memory, table: &mut self.table, work: &mut self.work }
    }

    /// What is said of a program with this name, which came to this answer in these areas.
    fn said(&self, name: &[u8], file: &[u8], answer: Result<Loaded, Refusal>) -> Said {
        match answer {
            Ok(loaded) => Said::answer(self.shown(loaded), true),
            Err(refusal) => Said::answer(line(name, &program_refused(refusal, file)), false),
        }
    }

    /// The words and the table of a program in these areas.
    fn shown(&self, loaded: Loaded) -> Vec<u8> {
        let word = |four: &[u8]| four.iter().map(|byte| format!("{byte:02X}")).collect::<String>() + "\n";
        let words: String = self.memory[..loaded.bytes].chunks(4).map(word).collect();
        let (records, _) = self.table.as_chunks::<RECORD>();
        let line = |(index, record): (usize, &[u32; RECORD])| hunk_line(index, record) + "\n";
        let records: String = records.iter().take(loaded.hunks).enumerate().map(line).collect();
        (words + &records).into_bytes()
    }
}

/// What is said of hunk `index`, which has this record.
pub fn hunk_line(index: usize, &[kind, place, size, base, memory]: &[u32; RECORD]) -> String {
    let memory = ["any", "chip", "fast"][memory as usize];
    format!("hunk {index}: kind {kind:03X}, place {place}, size {size}, base {base:08X}, memory {memory}")
}

/// What a load says of a file with this name.
pub fn loaded(name: &[u8], file: &[u8], bases: &[u32]) -> Said {
    let mut areas = Areas::new();
    let answer = load(file, bases, areas.lent());
    areas.said(name, file, answer)
}

/// What a load and a move say of a file with this name.
pub fn moved(name: &[u8], file: &[u8], old: &[u32], new: &[u32]) -> Said {
    let mut areas = Areas::new();
    let answer = load(file, old, areas.lent()).and_then(|_| relocate(file, old, new, areas.lent()));
    areas.said(name, file, answer)
}

/// What a reset says: a line for each step, and whether the last of them is no refusal.
fn steps(named: u32, image: &[u8], path: &[u8], bases: &[u32]) -> (Vec<(&'static str, String)>, bool) {
    let (text, accepted) = audited(named, image);
    let mut steps = vec![("audit", text)];
    if !accepted {
        return (steps, false);
    }
    let (text, accepted) = looked_up(named, image, path);
    steps.push(("find", text));
    if !accepted {
        return (steps, false);
    }
    let file = match bytes_of(named, image, path) {
        Ok(file) => file,
        Err(refusal) => {
            steps.push(("read", refused(refusal)));
            return (steps, false);
        }
    };
    steps.push(("read", format!("{} bytes", file.len())));
    let (text, accepted) = match load(&file, bases, Areas::new().lent()) {
        Ok(Loaded { hunks, bytes }) => (format!("{hunks} hunks, {bytes} bytes"), true),
        Err(refusal) => (program_refused(refusal, &file), false),
    };
    steps.push(("load", text));
    (steps, accepted)
}

/// What a reset says of the program with this path.
pub fn reset(named: u32, image: &[u8], path: &[u8], bases: &[u32]) -> Said {
    let (steps, accepted) = steps(named, image, path, bases);
    Said::answer(steps.iter().flat_map(|(step, text)| line(step.as_bytes(), text)).collect(), accepted)
}

#[cfg(test)]
mod tests {
    use super::*;
    use crate::disk::FLOPPY;
    use crate::programs::worked_file;
    use crate::samples::{damaged, title, titles, SETTINGS, TITLE};
    use std::collections::BTreeSet;

    /// Every number has a sentence, and no two have the same.
    #[test]
    fn sentences_tell_the_numbers_apart() {
        let numbers: Vec<u32> = SENTENCES.iter().map(|&(number, _)| number).collect();
        assert_eq!(numbers, (1..21).chain(30..44).collect::<Vec<u32>>());
        let different: BTreeSet<&str> = SENTENCES.iter().map(|&(_, text)| text).collect();
        assert_eq!(different.len(), SENTENCES.len());
    }

    #[test]
    fn lines_of_the_samples() {
        let (text, accepted) = audited(FLOPPY, &titles());
        assert_eq!(text, "accepted, 4 directories, 3 files, 1 list blocks, 76 data blocks, 86 used, 1672 free");
        assert!(accepted);
        let (text, accepted) = audited(FLOPPY, &damaged());
        assert_eq!((&text[..12], accepted), ("refused 7 at", false));
        assert!(text.ends_with(" (the sum of the block is not 0)"), "{text}");
        assert_eq!(looked_up(FLOPPY, &titles(), b""), ("directory, key 880, compared 0".to_string(), true));
        let size = title().len();
        let (text, _) = looked_up(FLOPPY, &titles(), TITLE.as_bytes());
        assert!(text.ends_with(&format!(", size {size}, compared 2")), "{text}");
        let said = read_out(FLOPPY, &titles(), b"s/nobody");
        assert_eq!(said.err, b"bench: s/nobody: refused 19 at 1 (there is no such name)\n");
        assert_eq!(said.status, REFUSED);
        let said = read_out(FLOPPY, &titles(), SETTINGS.as_bytes());
        assert_eq!((&said.err[..], said.status), (&b""[..], ACCEPTED));
    }

    /// The case that docs/FORMAT.md works out ("Worked cases"), loaded and moved.
    #[test]
    fn words_and_tables() {
        let said = loaded(b"f", &worked_file(), &[0x3000, 0x7000]);
        assert_eq!(said.status, ACCEPTED);
        let text = String::from_utf8(said.out).expect("a text");
        let lines: Vec<&str> = text.lines().collect();
        assert_eq!((lines.len(), lines[0], lines[9]), (12, "00003008", "0000300A"));
        assert_eq!(lines[10], "hunk 0: kind 3E9, place 0, size 6, base 00003000, memory any");
        assert_eq!(lines[11], "hunk 1: kind 3E9, place 24, size 4, base 00007000, memory any");
        let said = moved(b"f", &worked_file(), &[0x3000, 0x7000], &[0x4000, 0x9000]);
        assert_eq!(said, loaded(b"f", &worked_file(), &[0x4000, 0x9000]));
        assert_eq!(said.out[..9], *b"00004008\n");
        let said = moved(b"f", &worked_file(), &[0x3000, 0x7000], &[0, 1]);
        let due = "f: refused 40 at 3 (the bases are not one for each hunk, or this one is not allowed)\n";
        assert_eq!(said, Said::answer(due.into(), false));
    }

    /// The worked file, its first hunk in chip memory and its second in fast memory; and one with both bits.
    #[test]
    fn kinds_of_memory() {
        let mut file = worked_file();
        (file[20], file[24]) = (0x40, 0x80);
        let said = loaded(b"f", &file, &[0x3000, 0x7000]);
        let text = String::from_utf8(said.out).expect("a text");
        let lines: Vec<&str> = text.lines().collect();
        assert_eq!(lines[10], "hunk 0: kind 3E9, place 0, size 6, base 00003000, memory chip");
        assert_eq!(lines[11], "hunk 1: kind 3E9, place 24, size 4, base 00007000, memory fast");
        file[24] = 0xC0;
        let due = "f: refused 43 at 24 (chip and fast memory are asked for at once)\n";
        assert_eq!(loaded(b"f", &file, &[0x3000, 0x7000]), Said::answer(due.into(), false));
    }

    #[test]
    fn a_reset_ends_at_the_first_refusal() {
        let lines = |image: &[u8], path: &[u8], bases: &[u32]| {
            let (steps, accepted) = steps(FLOPPY, image, path, bases);
            (steps.len(), accepted)
        };
        assert_eq!(lines(&titles(), TITLE.as_bytes(), &[0x1000, 0x2000, 0x3000]), (4, true));
        assert_eq!(lines(&titles(), TITLE.as_bytes(), &[0x1000]), (4, false));
        assert_eq!(lines(&titles(), b"c", &[0x1000]), (3, false));
        assert_eq!(lines(&titles(), b"d", &[0x1000]), (2, false));
        assert_eq!(lines(&damaged(), TITLE.as_bytes(), &[0x1000]), (1, false));
    }
}
