//! Checking, loading and moving a program.
//!
//! A file is gone through twice. The first time every word that a rule asks about is tested, and on the way each target
//! is marked in the work area, so that near targets are known by then. The second time stored words are copied, a hunk
//! at once, and bases are added.

use jufferdeeg::{fault, Hunk, ProgramNumbers, BSS, CODE, MOST_HUNKS};

// the types of blocks besides those of bodies
const HEADER: u32 = 0x3F3;
const NAME: u32 = 0x3E8;
const RELOCATIONS: u32 = 0x3EC;
const SYMBOLS: u32 = 0x3F0;
const DEBUG: u32 = 0x3F1;
const END: u32 = 0x3F2;

/// The most words of a hunk.
const MOST_WORDS: u32 = 65_536;

/// A word as it stands in a file.
type Word = [u8; 4];

/// The number of a refusal, and its place.
struct Refusal(u32, usize);

impl Refusal {
    fn answer(self) -> ProgramNumbers {
        ProgramNumbers { number: self.0, place: self.1, hunks: 0, bytes: 0 }
    }
}

/// The words of a file, and which of them is the next.
#[derive(Clone, Copy)]
struct Words<'a> {
    all: &'a [Word],
    next: usize,
}

impl<'a> Words<'a> {
    /// A refusal at the word that was taken last.
    #[cold]
    fn refused(&self, number: u32) -> Refusal {
        Refusal(number, 4 * (self.next - 1))
    }

    #[cold]
    fn ended(&self) -> Refusal {
        Refusal(fault::EARLY_END, 4 * self.all.len())
    }

    #[inline(always)]
    fn take(&mut self) -> Result<u32, Refusal> {
        let Some(&word) = self.all.get(self.next) else { return Err(self.ended()) };
        self.next += 1;
        Ok(u32::from_be_bytes(word))
    }

    /// Takes a word that has to be this one.
    #[inline(always)]
    fn take_only(&mut self, word: u32, number: u32) -> Result<(), Refusal> {
        if self.take()? == word {
            Ok(())
        } else {
            Err(self.refused(number))
        }
    }

    #[inline(always)]
    fn skip(&mut self, count: u32) -> Result<(), Refusal> {
        if count as usize > self.all.len() - self.next {
            return Err(self.ended());
        }
        self.next += count as usize;
        Ok(())
    }

    /// Takes so many words, or those that are left if they are fewer.
    #[inline(always)]
    fn take_up_to(&mut self, count: u32) -> &'a [Word] {
        let rest = &self.all[self.next..];
        let taken = &rest[..rest.len().min(count as usize)];
        self.next += taken.len();
        taken
    }

    /// Goes on after the symbols of a block.
    fn skip_symbols(&mut self) -> Result<(), Refusal> {
        loop {
            match self.take()? {
                0 => return Ok(()),
                // the words of its name, and its value
                unit @ ..=0xFF_FFFF => self.skip(unit + 1)?,
                _ => return Err(self.refused(fault::SYMBOL_TYPE)),
            }
        }
    }
}

/// Offsets to which the base of one hunk is added.
struct Group<'a> {
    hunk: usize,
    /// The word at which the offsets begin.
    first: usize,
    offsets: &'a [Word],
}

/// What is left of a hunk after its body, as the groups of its relocation blocks.
struct Groups<'a> {
    words: Words<'a>,
    /// How many hunks the file has.
    hunks: usize,
    /// Whether the next word is one of a relocation block.
    within: bool,
}

impl<'a> Groups<'a> {
    fn new(words: Words<'a>, hunks: usize) -> Groups<'a> {
        Groups { words, hunks, within: false }
    }

    /// The next group; none at the end of the hunk. If offsets of a group are missing, the file has ended, and the next
    /// call refuses it.
    #[inline(always)]
    fn next(&mut self) -> Result<Option<Group<'a>>, Refusal> {
        loop {
            if self.within {
                let count = self.words.take()?;
                if count > 0 {
                    let hunk = self.words.take()? as usize;
                    if hunk >= self.hunks {
                        return Err(self.words.refused(fault::BAD_TARGET));
                    }
                    let first = self.words.next;
                    return Ok(Some(Group { hunk, first, offsets: self.words.take_up_to(count) }));
                }
                self.within = false;
            }
            match self.words.take()? {
                RELOCATIONS => self.within = true,
                SYMBOLS => self.words.skip_symbols()?,
                DEBUG => {
                    let count = self.words.take()?;
                    self.words.skip(count)?;
                }
                END => return Ok(None),
                _ => return Err(self.words.refused(fault::MISPLACED_BLOCK)),
            }
        }
    }
}

/// What is known of a hunk.
#[derive(Clone, Copy)]
struct Part {
    kind: u32,
    /// Its size and kind of memory, as the header has them.
    size_word: u32,
    /// How many words are stored.
    stored: usize,
    /// The first of them in the file.
    body: usize,
    /// How many groups of offsets there are.
    groups: usize,
}

impl Part {
    const NONE: Part = Part { kind: 0, size_word: 0, stored: 0, body: 0, groups: 0 };

    fn words(&self) -> u32 {
        self.size_word & 0x3FFF_FFFF
    }

    fn bytes(&self) -> usize {
        4 * self.words() as usize
    }
}

/// A file that has passed its tests.
struct Program<'a> {
    words: &'a [Word],
    hunks: usize,
    /// What its hunks take together.
    bytes: usize,
    /// The word of the first offset that is too near an earlier one.
    near: Option<usize>,
}

impl Program<'_> {
    fn answer(&self) -> ProgramNumbers {
        ProgramNumbers { number: 0, place: 0, hunks: self.hunks as u32, bytes: self.bytes }
    }
}

/// Tests a file and puts down its hunks. Marks are made in the work area if it is as long as it has to be.
#[inline(always)]
fn read<'a>(file: &'a [u8], work: &mut [u8], parts: &mut [Part; MOST_HUNKS]) -> Result<Program<'a>, Refusal> {
    let (all @ [_, ..], []) = file.as_chunks() else { return Err(Refusal(fault::FILE_LENGTH, 0)) };
    let mut words = Words { all, next: 0 };
    words.take_only(HEADER, fault::HEADER_WORD)?;
    words.take_only(0, fault::LIBRARY)?;
    let total = words.take()?;
    if !(1..=MOST_HUNKS as u32).contains(&total) {
        return Err(words.refused(fault::HEADER_WORD));
    }
    words.take_only(0, fault::HEADER_WORD)?;
    words.take_only(total - 1, fault::HEADER_WORD)?;
    let parts = &mut parts[..total as usize];
    let mut bytes = 0;
    for part in parts.iter_mut() {
        part.size_word = words.take()?;
        if part.size_word >> 30 == 3 {
            return Err(words.refused(fault::BOTH_MEMORIES));
        }
        if part.words() > MOST_WORDS {
            return Err(words.refused(fault::HUNK_SIZE));
        }
        bytes += part.bytes();
    }
    let near = read_hunks(&mut words, parts, work.get_mut(..bytes))?;
    if words.next < all.len() {
        return Err(Refusal(fault::TRAILING_WORDS, 4 * words.next));
    }
    Ok(Program { words: all, hunks: parts.len(), bytes, near })
}

/// Tests the hunks one after the other. The word of the first offset that is too near an earlier one, if there is room
/// for marks.
#[inline(always)]
fn read_hunks(
    words: &mut Words,
    parts: &mut [Part],
    mut marks: Option<&mut [u8]>,
) -> Result<Option<usize>, Refusal> {
    let hunks = parts.len();
    let mut near = None;
    for part in parts {
        read_body(words, part)?;
        let halves = 2 * part.stored;
        let mut groups = Groups::new(*words, hunks);
        while let Some(Group { first, offsets, .. }) = groups.next()? {
            let marked = marks.as_deref_mut().map(|marks| {
                let marks = &mut marks[..halves];
                if part.groups == 0 {
                    marks.fill(0);
                }
                mark(offsets, marks)
            });
            let rest = &offsets[marked.unwrap_or(0)..];
            if let Some(bad) = rest.iter().position(|&offset| half(offset) + 2 > halves) {
                return Err(Refusal(fault::BAD_TARGET, 4 * (first + marked.unwrap_or(0) + bad)));
            }
            if let Some(marked) = marked.filter(|&marked| marked < offsets.len()) {
                // a near one; no other is asked for
                near = Some(first + marked);
                marks = None;
            }
            part.groups += 1;
        }
        *words = groups.words;
    }
    Ok(near)
}

/// A hunk up to the end of its body.
#[inline(always)]
fn read_body(words: &mut Words, part: &mut Part) -> Result<(), Refusal> {
    let mut kind = words.take()?;
    if kind == NAME {
        let count = words.take()?;
        words.skip(count)?;
        kind = words.take()?;
    }
    if !(CODE..=BSS).contains(&kind) {
        return Err(words.refused(fault::MISPLACED_BLOCK));
    }
    let count = words.take()?;
    if count > part.words() {
        return Err(words.refused(fault::BODY_LENGTH));
    }
    let stored = if kind == BSS { 0 } else { count };
    part.kind = kind;
    part.stored = stored as usize;
    part.body = words.next;
    words.skip(stored)
}

/// An offset in halves of a word; an odd one is far above all others.
#[inline(always)]
fn half(offset: Word) -> usize {
    u32::from_be_bytes(offset).rotate_right(1) as usize
}

/// Marks the two halves of each target, and answers how many targets are marked. It ends before one that shares a half
/// with an earlier one, which is near then, and before one that reaches past the stored words, whose halves the marks
/// are for.
#[inline(never)]
fn mark(offsets: &[Word], marks: &mut [u8]) -> usize {
    for (index, &offset) in offsets.iter().enumerate() {
        let half = half(offset);
        match marks.get_mut(half..half + 2) {
            Some(pair) if *pair == [0, 0] => pair.fill(1),
            _ => return index,
        }
    }
    offsets.len()
}

/// The first entry that may not be a base; 0 if there is not one for each hunk.
fn bad_base(parts: &[Part], bases: &[u32]) -> Option<usize> {
    if bases.len() != parts.len() {
        return Some(0);
    }
    let addresses = |part: &Part, base: u32| (u64::from(base), u64::from(base) + part.bytes() as u64);
    // no hunk so far reaches further
    let mut highest = 0;
    for (entry, (part, &base)) in parts.iter().zip(bases).enumerate() {
        let (start, end) = addresses(part, base);
        let shared = |(part, &base): (&Part, &u32)| {
            let (other_start, other_end) = addresses(part, base);
            start.max(other_start) < end.min(other_end)
        };
        let is_bad = base % 4 != 0 || end > 1 << 32;
        if is_bad || start < highest && parts[..entry].iter().zip(bases).any(shared) {
            return Some(entry);
        }
        highest = highest.max(end);
    }
    None
}

/// Tests all that a load or a move asks for: the file, these lists of bases, and the room.
#[inline(always)]
fn admit<'a>(
    file: &'a [u8],
    lists: &[&[u32]],
    memory: &[u8],
    table: &[Hunk],
    work: &mut [u8],
    parts: &mut [Part; MOST_HUNKS],
) -> Result<Program<'a>, Refusal> {
    let program = read(file, work, parts)?;
    for (number, list) in lists.iter().enumerate() {
        if let Some(entry) = bad_base(&parts[..program.hunks], list) {
            return Err(Refusal(fault::BAD_BASE, number * program.hunks + entry));
        }
    }
    if memory.len() < program.bytes || work.len() < program.bytes || table.len() < program.hunks {
        return Err(Refusal(fault::SHORT_ROOM, 0));
    }
    match program.near {
        Some(word) => Err(Refusal(fault::NEAR_TARGETS, 4 * word)),
        None => Ok(program),
    }
}

/// Writes the hunks and their records. A hunk's bytes are made by `fill` from its stored words; then each target gets
/// what `way` says for the hunk that its group names.
#[inline(always)]
fn place(
    program: &Program,
    parts: &[Part; MOST_HUNKS],
    bases: &[u32],
    memory: &mut [u8],
    table: &mut [Hunk],
    fill: impl Fn(&mut [u8], &[u8]),
    way: impl Fn(usize) -> u32,
) {
    let mut at = 0;
    for ((part, &base), record) in parts[..program.hunks].iter().zip(bases).zip(table) {
        let hunk = &mut memory[at..at + part.bytes()];
        fill(hunk, program.words[part.body..part.body + part.stored].as_flattened());
        let after = Words { all: program.words, next: part.body + part.stored };
        let mut groups = Groups::new(after, program.hunks);
        for _ in 0..part.groups {
            // the file has passed
            let Ok(Some(group)) = groups.next() else { break };
            add(group.offsets, hunk, way(group.hunk));
        }
        let memory = part.size_word >> 30;
        *record = Hunk { kind: part.kind, place: at as u32, size: part.words(), base, memory };
        at += part.bytes();
    }
}

/// Adds a number to each target.
#[inline(never)]
fn add(offsets: &[Word], hunk: &mut [u8], number: u32) {
    for &offset in offsets {
        let offset = u32::from_be_bytes(offset) as usize;
        if let Some(target) = hunk.get_mut(offset..offset + 4).and_then(|four| four.first_chunk_mut()) {
            *target = u32::from_be_bytes(*target).wrapping_add(number).to_be_bytes();
        }
    }
}

/// Checks a program file.
pub fn check(file: &[u8]) -> ProgramNumbers {
    let mut parts = [Part::NONE; MOST_HUNKS];
    read(file, &mut [], &mut parts).map_or_else(Refusal::answer, |program| program.answer())
}

/// Loads a program file for the given bases.
pub fn load(file: &[u8], bases: &[u32], memory: &mut [u8], table: &mut [Hunk], work: &mut [u8]) -> ProgramNumbers {
    let mut parts = [Part::NONE; MOST_HUNKS];
    let answer = match admit(file, &[bases], memory, table, work, &mut parts) {
        Err(refusal) => refusal.answer(),
        Ok(program) => {
            let fill = |hunk: &mut [u8], stored: &[u8]| {
                let (start, tail) = hunk.split_at_mut(stored.len());
                start.copy_from_slice(stored);
                tail.fill(0);
            };
            place(&program, &parts, bases, memory, table, fill, |hunk| bases[hunk]);
            program.answer()
        }
    };
    work.fill(0);
    answer
}

/// Moves a loaded program from the old bases to the new ones.
pub fn move_program(
    file: &[u8],
    old: &[u32],
    new: &[u32],
    memory: &mut [u8],
    table: &mut [Hunk],
    work: &mut [u8],
) -> ProgramNumbers {
    let mut parts = [Part::NONE; MOST_HUNKS];
    let answer = match admit(file, &[old, new], memory, table, work, &mut parts) {
        Err(refusal) => refusal.answer(),
        Ok(program) => {
            let way = |hunk: usize| new[hunk].wrapping_sub(old[hunk]);
            place(&program, &parts, new, memory, table, |_, _| {}, way);
            program.answer()
        }
    };
    work.fill(0);
    answer
}
