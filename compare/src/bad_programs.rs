//! What can be wrong with a program, with its bases or with the room it is lent: for every number from 30 to 43
//! of docs/FORMAT.md, section "Numbers", several causes, each drawn at random.
//!
//! Harm is done to one place of something good, so the refusal due for it is known without a check. What is known
//! beforehand reaches only so far; [`scratch`] does harm without knowing what comes of it.

use crate::program::{Refusal, BOTH, BSS, CHIP, CODE, DATA, DEBUG, END, FAST, HEADER, HUNK_WORDS, NAME};
use crate::program::{RELOCATIONS, SYMBOLS};
use crate::programs::{file, good_bases, good_program, Part, Room, Written};
use crate::rng::Rng;

/// A file with the fault at this place.
type Faulty = Option<(Vec<u8>, usize)>;

/// A way to do harm to a good file; `None` where the file has no place for it.
pub struct Cause {
    /// The number due.
    pub number: u32,
    /// The harm in words; no two causes of a number have the same.
    pub what: &'static str,
    make: fn(&mut Rng, &[Written]) -> Faulty,
}

/// A file with one fault.
pub struct BadFile {
    /// Its bytes.
    pub bytes: Vec<u8>,
    /// The refusal due for it. With 42 it is due where bases and room are good.
    pub due: Refusal,
    /// The words of its hunks. For a fault in the header, these are those of the file before.
    pub sizes: Vec<u32>,
}

impl Cause {
    /// A random file with this harm.
    pub fn file(&self, rng: &mut Rng) -> BadFile {
        loop {
            let program = good_program(rng);
            if let Some((bytes, place)) = (self.make)(rng, &program.written()) {
                return BadFile { bytes, due: Refusal::at(self.number, place), sizes: program.sizes() };
            }
        }
    }
}

/// The index of some word that has this part.
fn some(rng: &mut Rng, words: &[Written], part: Part) -> Option<usize> {
    some_with(rng, words, part, |_| true)
}

/// The same, but only words of whose index this holds.
fn some_with(rng: &mut Rng, words: &[Written], part: Part, holds: impl Fn(usize) -> bool) -> Option<usize> {
    let all: Vec<usize> = (0..words.len()).filter(|&index| words[index].part == part && holds(index)).collect();
    (!all.is_empty()).then(|| rng.pick(&all))
}

/// The file up to this word, without it.
fn cut(words: &[Written], index: usize) -> Faulty {
    Some((file(&words[..index]), 4 * index))
}

/// The file cut at some word of this part.
fn cut_at(rng: &mut Rng, words: &[Written], part: Part) -> Faulty {
    let index = some(rng, words, part)?;
    cut(words, index)
}

/// The file with another value in this word. Now and then it ends there: what is wrong is wrong before the end is
/// missed.
fn changed(rng: &mut Rng, words: &[Written], index: usize, value: u32) -> Faulty {
    let mut words = words.to_vec();
    words[index].value = value;
    if rng.below(4) == 0 {
        words.truncate(index + 1);
    }
    Some((file(&words), 4 * index))
}

/// The file with some word of this part changed to one of these.
fn change(rng: &mut Rng, words: &[Written], part: Part, values: &[u32]) -> Faulty {
    let index = some(rng, words, part)?;
    let value = rng.pick(values);
    changed(rng, words, index, value)
}

/// The file with more words in front of this one; the fault is `fault` words after the first of them.
fn inserted(words: &[Written], index: usize, more: &[u32], fault: usize) -> Faulty {
    let (front, back) = words.split_at(index);
    let more: Vec<u8> = more.iter().flat_map(|word| word.to_be_bytes()).collect();
    Some(([file(front), more, file(back)].concat(), 4 * (index + fault)))
}

/// The file with more words at some place before a hunk's end where a block may begin.
fn insert_after_body(rng: &mut Rng, words: &[Written], more: &[u32], fault: usize) -> Faulty {
    let part = rng.pick(&[Part::Block, Part::End, Part::End]);
    let index = some(rng, words, part)?;
    inserted(words, index, more, fault)
}

/// The file with a body left out. Whatever comes after it is then in the wrong place.
fn without_body(rng: &mut Rng, words: &[Written], then: Part) -> Faulty {
    let body = some_with(rng, words, Part::Body, |body| {
        let mut after = words[body + 2..].iter();
        after.find(|word| word.part != Part::Stored).is_some_and(|word| word.part == then)
    })?;
    let end = (body + 2..).find(|&index| words[index].part != Part::Stored)?;
    Some(([file(&words[..body]), file(&words[end..])].concat(), 4 * body))
}

/// The stored words of the hunk that this word belongs to.
fn stored(words: &[Written], index: usize) -> u32 {
    let stored = |word: &&Written| word.part == Part::Stored && word.hunk == words[index].hunk;
    words.iter().filter(stored).count() as u32
}

/// The number of words that the header gives the hunk to which this word belongs.
fn size(words: &[Written], index: usize) -> u32 {
    let size = words.iter().find(|word| word.part == Part::Size && word.hunk == words[index].hunk);
    size.expect("every hunk has a size").value & !BOTH
}

/// Whether this word belongs to a bss hunk.
fn in_bss(words: &[Written], index: usize) -> bool {
    let hunk = words[index].hunk;
    words.iter().any(|word| word.part == Part::Body && word.hunk == hunk && word.value == BSS)
}

/// How many hunks the file has.
fn total(words: &[Written]) -> u32 {
    words[2].value
}

/// The index of the first size word, and of the last.
fn end_sizes(words: &[Written]) -> [usize; 2] {
    [5, 4 + total(words) as usize]
}

/// Sizes above the limit, as far as 30 bits hold them.
fn too_large(rng: &mut Rng) -> u32 {
    let any = HUNK_WORDS + 1 + rng.below(u64::from(!BOTH - HUNK_WORDS)) as u32;
    rng.pick(&[HUNK_WORDS + 1, HUNK_WORDS + 2, 0x0002_0000, 0x2000_0000, !BOTH, any])
}

/// The file with a size above the limit in some size word, which asks for this memory.
fn too_large_in(rng: &mut Rng, words: &[Written], memory: u32) -> Faulty {
    let size = too_large(rng);
    change(rng, words, Part::Size, &[memory | size])
}

/// The file with both bits for memory set in this size word, whatever its size.
fn both(rng: &mut Rng, words: &[Written], index: usize) -> Faulty {
    changed(rng, words, index, words[index].value | BOTH)
}

/// The file with both bits in a size word that is not the last, and another value in the size word after it.
fn both_before(rng: &mut Rng, words: &[Written], next: u32) -> Faulty {
    let index = some_with(rng, words, Part::Size, |index| index < end_sizes(words)[1])?;
    let mut words = words.to_vec();
    words[index].value |= BOTH;
    words[index + 1].value = next;
    Some((file(&words), 4 * index))
}

/// The file with a body's length above its hunk's size.
fn too_long(rng: &mut Rng, words: &[Written], kind: u32) -> Faulty {
    let body = some_with(rng, words, Part::Body, |body| words[body].value == kind)?;
    let size = size(words, body);
    let above = rng.below(u64::from(u32::MAX - size)) as u32;
    let length = size + 1 + rng.pick(&[0, 0, above, u32::MAX - size - 1]);
    changed(rng, words, body + 1, length)
}

/// The file with some offset changed to what comes of the number of bytes stored in its hunk.
fn bad_offset(rng: &mut Rng, words: &[Written], of: impl Fn(u32) -> u32) -> Faulty {
    let index = some(rng, words, Part::Offset)?;
    changed(rng, words, index, of(4 * stored(words, index)))
}

/// The file with a block of one group in some bss hunk.
fn offset_in_bss(rng: &mut Rng, words: &[Written], offset: u32) -> Faulty {
    let part = rng.pick(&[Part::Block, Part::End]);
    let index = some_with(rng, words, part, |index| in_bss(words, index))?;
    inserted(words, index, &[RELOCATIONS, 1, 0, offset, 0], 3)
}

/// How a second offset comes to stand near some offset of the file.
#[derive(Clone, Copy)]
enum Near {
    /// In the same group.
    Group,
    /// In another group of the same block.
    Groups,
    /// In another block.
    Blocks,
}

/// The file with an offset `by` bytes from another one of the same hunk.
fn near(rng: &mut Rng, words: &[Written], how: Near, by: i32) -> Faulty {
    let old = some(rng, words, Part::Offset)?;
    let offset = words[old].value.checked_add_signed(by)?;
    if offset + 4 > 4 * stored(words, old) {
        return None;
    }
    let hunk = words[old].hunk;
    let named = rng.below(u64::from(total(words))) as u32;
    let word = |part, value| Written { part, value, hunk };
    let group = [word(Part::GroupLength, 1), word(Part::GroupHunk, named), word(Part::Offset, offset)];
    let mut words = words.to_vec();
    let (at, more) = match how {
        Near::Group => {
            let length = (0..old).rfind(|&index| words[index].part == Part::GroupLength)?;
            let place = length + 2 + rng.below(u64::from(words[length].value) + 1) as usize;
            words[length].value += 1;
            (place, group[2..].to_vec())
        }
        Near::Groups => {
            let block = (0..old).rfind(|&index| words[index].part == Part::Block)?;
            let end = (old..).find(|&index| words[index].part == Part::GroupsEnd)?;
            let starts = |index: &usize| matches!(words[*index].part, Part::GroupLength | Part::GroupsEnd);
            let places: Vec<usize> = (block..=end).filter(starts).collect();
            (rng.pick(&places), group.to_vec())
        }
        Near::Blocks => {
            let block = [&[word(Part::Block, RELOCATIONS)], &group[..], &[word(Part::GroupsEnd, 0)]].concat();
            let starts = |index: usize| words[index].hunk == hunk;
            let part = rng.pick(&[Part::Block, Part::End]);
            (some_with(rng, &words, part, starts)?, block)
        }
    };
    let new = at + more.iter().position(|word| word.part == Part::Offset)?;
    words.splice(at..at, more);

    let first = first_of_two(&words, new)?;
    Some((file(&words), 4 * first))
}

/// The offset at fault, `new` being one that came to others. These get on with each other: it is the new one if it
/// has a neighbour in front of it, else its first neighbour after it.
fn first_of_two(words: &[Written], new: usize) -> Option<usize> {
    let (hunk, offset) = (words[new].hunk, words[new].value);
    let neighbour = |index: &usize| {
        let word = words[*index];
        *index != new && word.part == Part::Offset && word.hunk == hunk && word.value.abs_diff(offset) < 4
    };
    (0..words.len()).find(neighbour).map(|first| first.max(new))
}

const fn cause(number: u32, what: &'static str, make: fn(&mut Rng, &[Written]) -> Faulty) -> Cause {
    Cause { number, what, make }
}

/// High bits for numbers that are not to have them.
const HIGH: [u32; 5] = [0x0100_0000, CHIP, FAST, BOTH, 0xFF00_0000];

/// The causes that lie in the file: 30 to 39, 42 and 43.
pub const CAUSES: &[Cause] = &[
    cause(30, "no bytes", |_, _| Some((Vec::new(), 0))),
    cause(30, "not one word", |rng, words| Some((file(words)[..rng.pick(&[1, 2, 3])].to_vec(), 0))),
    cause(30, "bytes too many", |rng, words| {
        let more = rng.pick(&[1, 2, 3]);
        Some(([file(words), rng.bytes(more)].concat(), 0))
    }),
    cause(30, "bytes too few", |rng, words| {
        let bytes = file(words);
        Some((bytes[..bytes.len() - rng.pick(&[1, 2, 3])].to_vec(), 0))
    }),
    cause(30, "cut anywhere", |rng, words| {
        let bytes = file(words);
        let whole = rng.below(words.len() as u64) as usize;
        Some((bytes[..4 * whole + rng.pick(&[1, 2, 3])].to_vec(), 0))
    }),
    cause(31, "library", |rng, words| cut_at(rng, words, Part::Library)),
    cause(31, "total", |rng, words| cut_at(rng, words, Part::Total)),
    cause(31, "first", |rng, words| cut_at(rng, words, Part::First)),
    cause(31, "last", |rng, words| cut_at(rng, words, Part::Last)),
    cause(31, "size", |rng, words| cut_at(rng, words, Part::Size)),
    cause(31, "name", |rng, words| cut_at(rng, words, Part::Name)),
    cause(31, "name length", |rng, words| cut_at(rng, words, Part::NameLength)),
    cause(31, "name word", |rng, words| cut_at(rng, words, Part::NameWord)),
    cause(31, "body", |rng, words| cut_at(rng, words, Part::Body)),
    cause(31, "body length", |rng, words| cut_at(rng, words, Part::BodyLength)),
    cause(31, "stored word", |rng, words| cut_at(rng, words, Part::Stored)),
    cause(31, "block", |rng, words| cut_at(rng, words, Part::Block)),
    cause(31, "group length", |rng, words| cut_at(rng, words, Part::GroupLength)),
    cause(31, "group hunk", |rng, words| cut_at(rng, words, Part::GroupHunk)),
    cause(31, "offset", |rng, words| cut_at(rng, words, Part::Offset)),
    cause(31, "end of groups", |rng, words| cut_at(rng, words, Part::GroupsEnd)),
    cause(31, "symbol", |rng, words| cut_at(rng, words, Part::Symbol)),
    cause(31, "symbol word", |rng, words| cut_at(rng, words, Part::SymbolWord)),
    cause(31, "symbol value", |rng, words| cut_at(rng, words, Part::SymbolValue)),
    cause(31, "end of symbols", |rng, words| cut_at(rng, words, Part::SymbolsEnd)),
    cause(31, "debug length", |rng, words| cut_at(rng, words, Part::DebugLength)),
    cause(31, "debug word", |rng, words| cut_at(rng, words, Part::DebugWord)),
    cause(31, "end", |rng, words| cut_at(rng, words, Part::End)),
    cause(31, "name longer than the file", |rng, words| longer_than_the_file(rng, words, Part::NameLength)),
    cause(31, "debug block longer than the file", |rng, words| {
        longer_than_the_file(rng, words, Part::DebugLength)
    }),
    cause(31, "symbol longer than the file", |rng, words| {
        let index = some(rng, words, Part::Symbol)?;
        let length = rng.pick(&[words.len() as u32, 0x0080_0000, 0x00FF_FFFF]);
        let (bytes, _) = changed(rng, words, index, length)?;
        let end = bytes.len();
        Some((bytes, end))
    }),
    cause(31, "group longer than the file", |rng, words| {
        // cut after the group, lest the words after it are taken for offsets
        let length = some(rng, words, Part::GroupLength)?;
        let end = length + 2 + words[length].value as usize;
        let mut words = words[..end].to_vec();
        words[length].value += rng.pick(&[1, 2, CHIP, FAST, BOTH]);
        Some((file(&words), 4 * end))
    }),
    cause(31, "a hunk number of a bss hunk", |rng, words| {
        let index = some_with(rng, words, Part::End, |index| in_bss(words, index))?;
        let (bytes, place) = inserted(words, index, &[RELOCATIONS, 1], 2)?;
        Some((bytes[..place].to_vec(), place))
    }),
    cause(31, "an offset of a bss hunk", |rng, words| {
        let index = some_with(rng, words, Part::End, |index| in_bss(words, index))?;
        let (bytes, place) = inserted(words, index, &[RELOCATIONS, 1, 0], 3)?;
        Some((bytes[..place].to_vec(), place))
    }),
    cause(32, "first word", |rng, words| {
        let any = (rng.draw() as u32) | 0x8000_0000;
        let values = [0, 0x3E7, NAME, CODE, END, 0x3F4, 0x3F5, 0xF303_0000, any];
        change(rng, words, Part::Magic, &values)
    }),
    cause(32, "first word with a high bit", |rng, words| {
        let high = rng.pick(&HIGH);
        change(rng, words, Part::Magic, &[HEADER | high])
    }),
    cause(32, "no hunks", |rng, words| change(rng, words, Part::Total, &[0])),
    cause(32, "too many hunks", |rng, words| {
        change(rng, words, Part::Total, &[65, 66, 256, 0x8000_0001, u32::MAX])
    }),
    cause(32, "total with a high bit", |rng, words| {
        let high = rng.pick(&HIGH);
        change(rng, words, Part::Total, &[total(words) | high])
    }),
    cause(32, "total that the last hunk does not fit", |rng, words| {
        let total = 1 + (total(words) + rng.below(63) as u32) % 64;
        let mut words = words.to_vec();
        words[2].value = total;
        Some((file(&words), 16))
    }),
    cause(32, "first hunk", |rng, words| {
        let last = total(words) - 1;
        change(rng, words, Part::First, &[1, last.max(1), CHIP, FAST, u32::MAX])
    }),
    cause(32, "last hunk too high", |rng, words| {
        let total = total(words);
        change(rng, words, Part::Last, &[total, total + 1, 64 + total, u32::MAX])
    }),
    cause(32, "last hunk with a high bit", |rng, words| {
        let high = rng.pick(&HIGH);
        change(rng, words, Part::Last, &[(total(words) - 1) | high])
    }),
    cause(32, "last hunk too low", |rng, words| {
        let total = total(words);
        change(rng, words, Part::Last, &[total.wrapping_sub(2), total.wrapping_sub(3)])
    }),
    cause(33, "one", |rng, words| change(rng, words, Part::Library, &[1])),
    cause(33, "any number", |rng, words| {
        let any = (rng.draw() as u32).max(2);
        change(rng, words, Part::Library, &[2, 0x3F3, 0x8000_0000, u32::MAX, any])
    }),
    cause(33, "a whole name", |_, words| {
        let (bytes, _) = inserted(words, 1, &[1, 0x646F_7300], 0)?;
        Some((bytes, 4))
    }),
    cause(33, "together with a bad total", |rng, words| {
        let mut words = words.to_vec();
        words[2].value = 0;
        change(rng, &words, Part::Library, &[1, u32::MAX])
    }),
    cause(33, "the high byte alone", |rng, words| change(rng, words, Part::Library, &HIGH)),
    cause(34, "one too many", |rng, words| change(rng, words, Part::Size, &[HUNK_WORDS + 1])),
    cause(34, "one too many in chip memory", |rng, words| {
        change(rng, words, Part::Size, &[CHIP | (HUNK_WORDS + 1)])
    }),
    cause(34, "one too many in fast memory", |rng, words| {
        change(rng, words, Part::Size, &[FAST | (HUNK_WORDS + 1)])
    }),
    cause(34, "too many", |rng, words| too_large_in(rng, words, 0)),
    cause(34, "too many in chip memory", |rng, words| too_large_in(rng, words, CHIP)),
    cause(34, "too many in fast memory", |rng, words| too_large_in(rng, words, FAST)),
    cause(34, "the last size", |rng, words| {
        let [_, last] = end_sizes(words);
        let size = rng.pick(&[0, CHIP, FAST]) | 0x0010_0000;
        changed(rng, words, last, size)
    }),
    cause(34, "two of them", |rng, words| {
        let one = some(rng, words, Part::Size)?;
        let other = some(rng, words, Part::Size)?;
        let mut words = words.to_vec();
        words[one].value = HUNK_WORDS + 1;
        words[other].value = rng.pick(&[!BOTH, CHIP | !BOTH, FAST | !BOTH]);
        Some((file(&words), 4 * one.min(other)))
    }),
    cause(34, "before a size with both bits", |rng, words| {
        let index = some_with(rng, words, Part::Size, |index| index < end_sizes(words)[1])?;
        let mut words = words.to_vec();
        words[index].value = rng.pick(&[0, CHIP, FAST]) | too_large(rng);
        words[index + 1].value |= BOTH;
        Some((file(&words), 4 * index))
    }),
    cause(35, "second name", |rng, words| {
        let name = some(rng, words, Part::Name)?;
        let after = name + 2 + words[name + 1].value as usize;
        inserted(words, after, &[NAME, 0], 0)
    }),
    cause(35, "name after the body", |rng, words| insert_after_body(rng, words, &[NAME, 0], 0)),
    cause(35, "second body", |rng, words| {
        let kind = rng.pick(&[CODE, DATA, BSS]);
        insert_after_body(rng, words, &[kind, 0], 0)
    }),
    cause(35, "end without a body", |rng, words| without_body(rng, words, Part::End)),
    cause(35, "block without a body", |rng, words| without_body(rng, words, Part::Block)),
    cause(35, "block before the body", |rng, words| {
        let index = some(rng, words, Part::Body)?;
        let kind = rng.pick(&[RELOCATIONS, SYMBOLS, DEBUG]);
        inserted(words, index, &[kind, 0], 0)
    }),
    cause(35, "block before the name", |rng, words| {
        let index = some(rng, words, Part::Name)?;
        let kind = rng.pick(&[RELOCATIONS, SYMBOLS, DEBUG]);
        inserted(words, index, &[kind, 0], 0)
    }),
    cause(35, "unknown type at the start", |rng, words| {
        let any = rng.draw() as u32 | 0x1000;
        let values = [0, 1, 0x3E7, 0x3ED, 0x3EE, 0x3EF, 0x3F3, 0x3F4, 0x3F5, 0x3F6, u32::MAX, any];
        let part = rng.pick(&[Part::Body, Part::Body, Part::Name]);
        change(rng, words, part, &values)
    }),
    cause(35, "unknown type after the body", |rng, words| {
        let any = rng.draw() as u32 | 0x1000;
        let values = [0, 1, 0x3E7, 0x3ED, 0x3EE, 0x3EF, 0x3F3, 0x3F4, 0x3F5, 0x3F6, u32::MAX, any];
        let part = rng.pick(&[Part::Block, Part::End]);
        change(rng, words, part, &values)
    }),
    cause(35, "type with a high bit", |rng, words| {
        let part = rng.pick(&[Part::Name, Part::Body, Part::Block, Part::End]);
        let index = some(rng, words, part)?;
        let high = rng.pick(&HIGH);
        changed(rng, words, index, words[index].value | high)
    }),
    cause(36, "code", |rng, words| too_long(rng, words, CODE)),
    cause(36, "data", |rng, words| too_long(rng, words, DATA)),
    cause(36, "bss", |rng, words| too_long(rng, words, BSS)),
    cause(36, "size too small", |rng, words| {
        let body = some_with(rng, words, Part::BodyLength, |index| words[index].value > 0)?;
        let mut words = words.to_vec();
        let size = rng.below(u64::from(words[body].value)) as u32;
        let hunk = words[body].hunk;
        words[5 + hunk].value = words[5 + hunk].value & BOTH | size;
        Some((file(&words), 4 * body))
    }),
    cause(36, "length with a high bit", |rng, words| {
        let index = some(rng, words, Part::BodyLength)?;
        let high = rng.pick(&HIGH);
        changed(rng, words, index, words[index].value | high)
    }),
    cause(37, "definition", |rng, words| {
        let index = some(rng, words, Part::Symbol)?;
        changed(rng, words, index, words[index].value | 0x0100_0000)
    }),
    cause(37, "reference", |rng, words| {
        let index = some(rng, words, Part::Symbol)?;
        changed(rng, words, index, words[index].value | 0x8100_0000)
    }),
    cause(37, "any type", |rng, words| {
        let index = some(rng, words, Part::Symbol)?;
        let kind = 1 + rng.below(255) as u32;
        changed(rng, words, index, words[index].value | kind << 24)
    }),
    cause(37, "type without a length", |rng, words| {
        let kind = (1 + rng.below(255) as u32) << 24;
        change(rng, words, Part::Symbol, &[kind, 0x0100_0000])
    }),
    cause(37, "at the end of the list", |rng, words| {
        let kind = (1 + rng.below(255) as u32) << 24;
        change(rng, words, Part::SymbolsEnd, &[kind, kind | 1, u32::MAX])
    }),
    cause(38, "hunk number just too high", |rng, words| {
        change(rng, words, Part::GroupHunk, &[total(words), total(words) + 1])
    }),
    cause(38, "hunk number far too high", |rng, words| {
        change(rng, words, Part::GroupHunk, &[64, 65, CHIP, FAST, 0xFF00_0000, u32::MAX])
    }),
    cause(38, "odd offset", |rng, words| {
        let index = some(rng, words, Part::Offset)?;
        changed(rng, words, index, words[index].value | 1)
    }),
    cause(38, "offset whose last two bytes are out", |rng, words| bad_offset(rng, words, |bytes| bytes - 2)),
    cause(38, "offset at the end", |rng, words| bad_offset(rng, words, |bytes| bytes)),
    cause(38, "offset after the end", |rng, words| {
        let more = 2 * rng.below(1 << 20) as u32;
        bad_offset(rng, words, |bytes| bytes + more)
    }),
    cause(38, "offset in the tail", |rng, words| {
        let tailed = |index| stored(words, index) < size(words, index);
        let index = some_with(rng, words, Part::Offset, tailed)?;
        changed(rng, words, index, 4 * size(words, index) - 4)
    }),
    cause(38, "offset that would wrap", |rng, words| {
        change(rng, words, Part::Offset, &[0xFFFF_FFFC, 0xFFFF_FFFE, 0xFFFF_FFFD, u32::MAX])
    }),
    cause(38, "offset with a sign", |rng, words| {
        let index = some(rng, words, Part::Offset)?;
        let high = rng.pick(&[FAST, CHIP, BOTH]);
        changed(rng, words, index, words[index].value | high)
    }),
    cause(38, "offset 0 in bss", |rng, words| offset_in_bss(rng, words, 0)),
    cause(38, "offset in bss", |rng, words| {
        let offset = rng.pick(&[2, 4, 8, 3, u32::MAX]);
        offset_in_bss(rng, words, offset)
    }),
    cause(38, "hunk number in bss", |rng, words| {
        let index = some_with(rng, words, Part::End, |index| in_bss(words, index))?;
        inserted(words, index, &[RELOCATIONS, 1, total(words), 0, 0], 2)
    }),
    cause(38, "offset with nothing stored", |rng, words| {
        let empty = |index| !in_bss(words, index) && stored(words, index) == 0;
        let index = some_with(rng, words, Part::End, empty)?;
        inserted(words, index, &[RELOCATIONS, 1, 0, 0, 0], 3)
    }),
    cause(38, "offset in front of a missing word", |rng, words| {
        let index = some(rng, words, Part::Offset)?;
        let mut words = words[..=index].to_vec();
        words[index].value = rng.pick(&[1, 0x0010_0000]);
        let length = (0..index).rfind(|&length| words[length].part == Part::GroupLength)?;
        words[length].value += 1_000;
        Some((file(&words), 4 * index))
    }),
    cause(39, "a zero", |_, words| inserted(words, words.len(), &[0], 0)),
    cause(39, "another end", |_, words| inserted(words, words.len(), &[END], 0)),
    cause(39, "another hunk", |_, words| inserted(words, words.len(), &[BSS, 0, END], 0)),
    cause(39, "overlays", |_, words| inserted(words, words.len(), &[0x3F5, 1, 3, 0, 0], 0)),
    cause(39, "another file", |_, words| {
        let again: Vec<u32> = words.iter().map(|word| word.value).collect();
        inserted(words, words.len(), &again, 0)
    }),
    cause(39, "any words", |rng, words| {
        let more: Vec<u32> = (0..1 + rng.below(5)).map(|_| rng.draw() as u32).collect();
        inserted(words, words.len(), &more, 0)
    }),
    cause(42, "twice in a group", |rng, words| near(rng, words, Near::Group, 0)),
    cause(42, "2 above in a group", |rng, words| near(rng, words, Near::Group, 2)),
    cause(42, "2 below in a group", |rng, words| near(rng, words, Near::Group, -2)),
    cause(42, "twice over groups", |rng, words| near(rng, words, Near::Groups, 0)),
    cause(42, "2 above over groups", |rng, words| near(rng, words, Near::Groups, 2)),
    cause(42, "2 below over groups", |rng, words| near(rng, words, Near::Groups, -2)),
    cause(42, "twice over blocks", |rng, words| near(rng, words, Near::Blocks, 0)),
    cause(42, "2 above over blocks", |rng, words| near(rng, words, Near::Blocks, 2)),
    cause(42, "2 below over blocks", |rng, words| near(rng, words, Near::Blocks, -2)),
    cause(43, "the first size", |rng, words| both(rng, words, end_sizes(words)[0])),
    cause(43, "the last size", |rng, words| both(rng, words, end_sizes(words)[1])),
    cause(43, "some size", |rng, words| {
        let index = some(rng, words, Part::Size)?;
        both(rng, words, index)
    }),
    cause(43, "no words", |rng, words| change(rng, words, Part::Size, &[BOTH])),
    cause(43, "as many words as there may be", |rng, words| change(rng, words, Part::Size, &[BOTH | HUNK_WORDS])),
    cause(43, "one word too many", |rng, words| change(rng, words, Part::Size, &[BOTH | (HUNK_WORDS + 1)])),
    cause(43, "too many words", |rng, words| too_large_in(rng, words, BOTH)),
    cause(43, "the next size is missing", |rng, words| {
        let index = some_with(rng, words, Part::Size, |index| index < end_sizes(words)[1])?;
        let (bytes, place) = both(rng, words, index)?;
        Some((bytes[..place + 4].to_vec(), place))
    }),
    cause(43, "the next size is too large", |rng, words| {
        let next = rng.pick(&[0, CHIP, FAST]) | too_large(rng);
        both_before(rng, words, next)
    }),
    cause(43, "the next size has both bits too", |rng, words| {
        let next = BOTH | rng.pick(&[0, 1, HUNK_WORDS, !BOTH]);
        both_before(rng, words, next)
    }),
    cause(43, "after chip and fast memory", |rng, words| {
        // one bit in each of the sizes before is not both
        let index = some_with(rng, words, Part::Size, |index| index > 6)?;
        let mut words = words.to_vec();
        words[index - 2].value = words[index - 2].value & !BOTH | CHIP;
        words[index - 1].value = words[index - 1].value & !BOTH | FAST;
        both(rng, &words, index)
    }),
];

/// The file with some length of this part that reaches beyond the file's end.
fn longer_than_the_file(rng: &mut Rng, words: &[Written], part: Part) -> Faulty {
    let index = some(rng, words, part)?;
    let length = rng.pick(&[words.len() as u32, CHIP, FAST, BOTH, 0xFFFF_FFFC, u32::MAX]);
    let (bytes, _) = changed(rng, words, index, length)?;
    let end = bytes.len();
    Some((bytes, end))
}

/// The causes of a number.
pub fn causes(number: u32) -> impl Iterator<Item = &'static Cause> {
    CAUSES.iter().filter(move |cause| cause.number == number)
}

/// A way to do harm to good bases for hunks of these sizes; gives the entry due, or `None` where it cannot be done.
pub struct BaseCause {
    /// The harm in words.
    pub what: &'static str,
    make: fn(&mut Rng, &[u32], &mut Vec<u32>) -> Option<usize>,
}

impl BaseCause {
    /// Bases with this harm and the entry due for it.
    pub fn bases(&self, rng: &mut Rng, sizes: &[u32]) -> Option<(Vec<u32>, usize)> {
        let mut bases = good_bases(rng, sizes);
        let entry = (self.make)(rng, sizes, &mut bases)?;
        Some((bases, entry))
    }
}

/// Some hunk that is not empty.
fn filled(rng: &mut Rng, sizes: &[u32]) -> Option<usize> {
    let all: Vec<usize> = (0..sizes.len()).filter(|&index| sizes[index] > 0).collect();
    (!all.is_empty()).then(|| rng.pick(&all))
}

/// Two hunks that are not empty, in order.
fn two_filled(rng: &mut Rng, sizes: &[u32]) -> Option<(usize, usize)> {
    let (one, other) = (filled(rng, sizes)?, filled(rng, sizes)?);
    (one != other).then_some((one.min(other), one.max(other)))
}

/// Puts the later of two hunks so that it begins so many words after the earlier one, or before it.
fn overlap(sizes: &[u32], bases: &mut [u32], (early, late): (usize, usize), words: i64) -> Option<usize> {
    let base = i64::from(bases[early]) + 4 * words;
    let end = base + 4 * i64::from(sizes[late]);
    if base < 0 || end > 1 << 32 {
        return None;
    }
    bases[late] = base as u32;
    Some(late)
}

/// The causes that lie in a list of bases.
pub const BASE_CAUSES: &[BaseCause] = &[
    BaseCause {
        what: "one too many",
        make: |rng, _, bases| {
            bases.push(rng.pick(&[0, 0x1000, 0xFFFF_FFFC, 1]));
            Some(0)
        },
    },
    BaseCause {
        what: "one too few",
        make: |_, _, bases| {
            bases.pop();
            Some(0)
        },
    },
    BaseCause {
        what: "none",
        make: |_, _, bases| {
            bases.clear();
            Some(0)
        },
    },
    BaseCause {
        what: "many too many",
        make: |rng, _, bases| {
            let more = rng.pick(&[2, bases.len(), 64, 100]);
            (0..more).for_each(|_| bases.push(rng.draw() as u32));
            Some(0)
        },
    },
    BaseCause {
        what: "too few and a bad one",
        make: |_, _, bases| {
            bases.pop();
            *bases.last_mut()? |= 1;
            Some(0)
        },
    },
    BaseCause {
        what: "not a multiple of 4",
        make: |rng, _, bases| {
            let entry = rng.below(bases.len() as u64) as usize;
            bases[entry] |= rng.pick(&[1, 2, 3]);
            Some(entry)
        },
    },
    BaseCause {
        what: "not a multiple of 4 for an empty hunk",
        make: |rng, sizes, bases| {
            let entry = sizes.iter().position(|&size| size == 0)?;
            bases[entry] |= rng.pick(&[1, 2, 3]);
            Some(entry)
        },
    },
    BaseCause {
        what: "one word beyond the last address",
        make: |rng, sizes, bases| {
            let entry = filled(rng, sizes)?;
            bases[entry] = (4 * (sizes[entry] - 1)).wrapping_neg();
            // with one word alone that would be address 0, which is where it may lie
            (sizes[entry] > 1).then_some(entry)
        },
    },
    BaseCause {
        what: "beyond the last address",
        make: |rng, sizes, bases| {
            let entry = filled(rng, sizes)?;
            bases[entry] = rng.pick(&[0xFFFF_FFFC, (4 * (sizes[entry] / 2).max(1)).wrapping_neg()]);
            (sizes[entry] > 1).then_some(entry)
        },
    },
    BaseCause {
        what: "the same base",
        make: |rng, sizes, bases| overlap(sizes, bases, two_filled(rng, sizes)?, 0),
    },
    BaseCause {
        what: "the last word of an earlier one",
        make: |rng, sizes, bases| {
            let two = two_filled(rng, sizes)?;
            overlap(sizes, bases, two, i64::from(sizes[two.0]) - 1)
        },
    },
    BaseCause {
        what: "the first word of an earlier one",
        make: |rng, sizes, bases| {
            let two = two_filled(rng, sizes)?;
            overlap(sizes, bases, two, 1 - i64::from(sizes[two.1]))
        },
    },
    BaseCause {
        what: "some words of an earlier one",
        make: |rng, sizes, bases| {
            let two = two_filled(rng, sizes)?;
            let ways = u64::from(sizes[two.0] + sizes[two.1] - 1);
            let words = rng.below(ways) as i64 - i64::from(sizes[two.1] - 1);
            overlap(sizes, bases, two, words)
        },
    },
    BaseCause {
        what: "two of them",
        make: |rng, _, bases| {
            let one = rng.below(bases.len() as u64) as usize;
            let other = rng.below(bases.len() as u64) as usize;
            bases[one] |= 1;
            bases[other] |= 2;
            Some(one.min(other))
        },
    },
];

/// Bad bases for hunks of these sizes, by any cause that they admit, and the entry due.
pub fn bad_bases(rng: &mut Rng, sizes: &[u32]) -> (Vec<u32>, usize) {
    loop {
        let cause = rng.below(BASE_CAUSES.len() as u64) as usize;
        if let Some(bad) = BASE_CAUSES[cause].bases(rng, sizes) {
            return bad;
        }
    }
}

/// Room in which something is missing, if anything is needed: one of it, some of it or all.
pub fn short_room(rng: &mut Rng, needed: Room) -> Room {
    let mut room = needed.widened(rng);
    let mut less = |whole: usize| match rng.below(4) {
        0 => 0,
        1 => rng.below(whole.max(1) as u64) as usize,
        _ => whole.saturating_sub(1),
    };
    let short = Room { memory: less(needed.memory), records: less(needed.records), work: less(needed.work) };
    // a program without words needs records all the same
    match rng.below(if needed.memory == 0 { 1 } else { 4 }) {
        0 => room.records = short.records,
        1 => room.memory = short.memory,
        2 => room.work = short.work,
        _ => room = short,
    }
    room
}

/// Words that mean something, or nearly so.
const TELLING: [u32; 27] = [
    0,
    1,
    2,
    3,
    4,
    6,
    63,
    64,
    65,
    NAME,
    CODE,
    DATA,
    BSS,
    RELOCATIONS,
    SYMBOLS,
    DEBUG,
    END,
    HEADER,
    0x3F5,
    0x1_0000,
    0x1_0001,
    0x0100_0001,
    CHIP,
    FAST,
    BOTH,
    0xFFFF_FFFE,
    u32::MAX,
];

/// Changes one thing in a file, or a few, without regard to what it means.
pub fn scratch(rng: &mut Rng, bytes: &mut Vec<u8>) {
    for _ in 0..rng.pick(&[1, 1, 1, 2, 4]) {
        let words = bytes.len() / 4;
        if words == 0 {
            return;
        }
        let at = 4 * rng.below(words as u64) as usize;
        match rng.below(9) {
            0 => bytes[at + 3] ^= 1 << rng.below(8),
            8 => bytes[at] ^= rng.pick(&[0x40, 0x80, 0xC0]),
            1 => bytes[at + rng.below(4) as usize] = rng.draw() as u8,
            2 | 3 => bytes[at..at + 4].copy_from_slice(&rng.pick(&TELLING).to_be_bytes()),
            4 => drop(bytes.drain(at..at + 4)),
            5 => {
                let word = rng.pick(&TELLING).to_be_bytes();
                bytes.splice(at..at, word);
            }
            6 => {
                let other = 4 * rng.below(words as u64) as usize;
                (0..4).for_each(|byte| bytes.swap(at + byte, other + byte));
            }
            _ => {
                let old = u32::from_be_bytes([bytes[at], bytes[at + 1], bytes[at + 2], bytes[at + 3]]);
                let new = old.wrapping_add(rng.pick(&[1, 2, 4, u32::MAX, u32::MAX - 1]));
                bytes[at..at + 4].copy_from_slice(&new.to_be_bytes());
            }
        }
    }
}

#[cfg(test)]
mod tests {
    use super::*;
    use crate::loader::{load, relocate, Lent, Loaded, RECORD};
    use crate::program::read;
    use crate::programs::good_program;
    use std::collections::BTreeSet;

    fn load_in(room: Room, file: &[u8], bases: &[u32]) -> Result<Loaded, Refusal> {
        let (mut memory, mut work) = (vec![0x55; room.memory], vec![0xAA; room.work]);
        let mut table = vec![0x5555_5555; RECORD * room.records];
        load(file, bases, Lent { memory: &mut memory, table: &mut table, work: &mut work })
    }

    fn move_in(room: Room, file: &[u8], old: &[u32], new: &[u32]) -> Result<Loaded, Refusal> {
        let (mut memory, mut work) = (vec![0x55; room.memory], vec![0xAA; room.work]);
        let mut table = vec![0x5555_5555; RECORD * room.records];
        relocate(file, old, new, Lent { memory: &mut memory, table: &mut table, work: &mut work })
    }

    #[test]
    fn every_number_has_a_handful_of_causes() {
        for number in (30..40).chain([42, 43]) {
            let different: BTreeSet<_> = causes(number).map(|cause| cause.what).collect();
            assert!(different.len() >= 5, "{number}");
            assert_eq!(different.len(), causes(number).count(), "{number}");
        }
        assert!(CAUSES.iter().all(|cause| (30..44).contains(&cause.number)));
    }

    /// The harm says what is due, the check finds it, neither knowing of the other.
    #[test]
    fn every_cause_brings_its_refusal() {
        let mut rng = Rng::new(34);
        for cause in CAUSES {
            for _ in 0..60 {
                let bad = cause.file(&mut rng);
                let words: Vec<_> = bad.bytes.chunks(4).collect();
                if cause.number == 42 {
                    assert!(read(&bad.bytes).is_ok(), "{}: {words:02X?}", cause.what);
                } else {
                    assert_eq!(read(&bad.bytes), Err(bad.due), "{}: {words:02X?}", cause.what);
                }
                let (bases, room) = (good_bases(&mut rng, &bad.sizes), Room::needed(&bad.sizes));
                assert_eq!(load_in(room, &bad.bytes, &bases), Err(bad.due), "{}: {words:02X?}", cause.what);
                let moved = move_in(room, &bad.bytes, &bases, &bases);
                assert_eq!(moved, Err(bad.due), "{}: {words:02X?}", cause.what);
            }
        }
    }

    #[test]
    fn every_cause_in_the_bases_brings_its_entry() {
        let mut rng = Rng::new(35);
        for cause in BASE_CAUSES {
            let mut made = 0;
            while made < 100 {
                let program = good_program(&mut rng);
                let (bytes, sizes) = (file(&program.written()), program.sizes());
                let Some((bad, entry)) = cause.bases(&mut rng, &sizes) else { continue };
                made += 1;
                let good = good_bases(&mut rng, &sizes);
                let (again, _) = bad_bases(&mut rng, &sizes);
                // bases come before room
                let room = short_room(&mut rng, Room::needed(&sizes));
                let (old, new) = (Err(Refusal::at(40, entry)), Err(Refusal::at(40, sizes.len() + entry)));
                assert_eq!(load_in(room, &bytes, &bad), old, "{}: {sizes:?} {bad:X?}", cause.what);
                assert_eq!(move_in(room, &bytes, &bad, &good), old, "{}: {sizes:?} {bad:X?}", cause.what);
                assert_eq!(move_in(room, &bytes, &good, &bad), new, "{}: {sizes:?} {bad:X?}", cause.what);
                assert_eq!(move_in(room, &bytes, &bad, &again), old, "{}: {sizes:?} {bad:X?}", cause.what);
            }
        }
    }

    #[test]
    fn short_room_is_refused_and_enough_is_not() {
        let mut rng = Rng::new(36);
        let mut single = [0; 3];
        for _ in 0..2_000 {
            let program = good_program(&mut rng);
            let (bytes, sizes) = (file(&program.written()), program.sizes());
            let needed = Room::needed(&sizes);
            let answer = Ok(Loaded { hunks: sizes.len(), bytes: needed.memory });
            let (old, new) = (good_bases(&mut rng, &sizes), good_bases(&mut rng, &sizes));
            let enough = needed.widened(&mut rng);
            assert_eq!(load_in(enough, &bytes, &old), answer);
            assert_eq!(move_in(enough, &bytes, &old, &new), answer);
            let short = short_room(&mut rng, needed);
            assert_eq!(load_in(short, &bytes, &old), Err(Refusal::at(41, 0)), "{short:?} of {needed:?}");
            assert_eq!(move_in(short, &bytes, &old, &new), Err(Refusal::at(41, 0)), "{short:?} of {needed:?}");
            let lacks = [short.memory < needed.memory, short.records < needed.records, short.work < needed.work];
            let by_one = [
                short.memory + 1 == needed.memory,
                short.records + 1 == needed.records,
                short.work + 1 == needed.work,
            ];
            for index in 0..3 {
                let alone = lacks.iter().filter(|&&lack| lack).count() == 1;
                single[index] += u32::from(alone && by_one[index]);
            }
        }
        assert!(single.iter().all(|&times| times > 50), "alone and one short: {single:?}");
    }

    /// Room comes before crowded offsets.
    #[test]
    fn short_room_comes_before_42() {
        let mut rng = Rng::new(37);
        for cause in causes(42) {
            let bad = cause.file(&mut rng);
            let bases = good_bases(&mut rng, &bad.sizes);
            let short = short_room(&mut rng, Room::needed(&bad.sizes));
            assert_eq!(load_in(short, &bad.bytes, &bases), Err(Refusal::at(41, 0)));
        }
    }

    /// Scratches bring every number of a file, and leave some files good.
    #[test]
    fn scratches_lead_everywhere() {
        let mut rng = Rng::new(38);
        let mut met = BTreeSet::new();
        for _ in 0..20_000 {
            let mut bytes = file(&good_program(&mut rng).written());
            scratch(&mut rng, &mut bytes);
            met.insert(read(&bytes).map_or_else(|refusal| refusal.number, |_| 0));
        }
        // whole words come and go, so the length stays a multiple of 4
        let wanted = [0].into_iter().chain(31..40).chain([43]).collect();
        assert_eq!(met, wanted);
    }
}
