//! Good programs and good bases for them, drawn at random (docs/FORMAT.md, "The program file").
//!
//! A [`Program`] is drawn first and written as a file after, so what a reader must find in the file is known without
//! reading it. The written words carry their parts in the file with them: that is where harm is done to them, see
//! [`bad_programs`](crate::bad_programs).

use crate::program::{Hunk as Wanted, Memory, SizeWord, Target};
use crate::program::{Kind, BSS, CODE, DATA, DEBUG, END, HEADER, NAME, RELOCATIONS, SYMBOLS};
use crate::rng::Rng;

/// The linked file that the manual prints in its section 2.4.
pub fn worked_file() -> Vec<u8> {
    let header = [HEADER, 0, 2, 0, 1, 6, 4];
    let first = [CODE, 6, 0x0000_0008, 0x123C_00FF, 0x7001_4E71, 0x4EB9_0000, 0x0006_2239, 0x0000_0008];
    // the target at E lies over two words
    let first_targets = [RELOCATIONS, 1, 0, 0x00, 2, 1, 0x14, 0x0E, 0, END];
    let second = [CODE, 4, 0x2A3C_AAAA, 0xAAAA_4E71, 0x7201_4EF9, 0x0000_000A];
    let second_targets = [RELOCATIONS, 1, 0, 0x0C, 0, END];
    bytes(&[&header[..], &first, &first_targets, &second, &second_targets].concat())
}

/// The bytes of some words, highest first.
pub fn bytes(words: &[u32]) -> Vec<u8> {
    words.iter().flat_map(|word| word.to_be_bytes()).collect()
}

/// A file of so many words: one hunk of one word, the rest debug words.
pub fn long_file(words: usize) -> Vec<u8> {
    let mut file = vec![HEADER, 0, 1, 0, 0, 1, CODE, 1, 77, RELOCATIONS, 1, 0, 0, 0, DEBUG];
    file.push((words - file.len() - 2) as u32);
    file.resize(words - 1, 0xC5C5_C5C5);
    file.push(END);
    bytes(&file)
}

/// A program, as its file will tell it.
#[derive(Clone, Debug)]
pub struct Program {
    /// Its hunks, 1 to 64.
    pub hunks: Vec<Hunk>,
}

/// A hunk of such a program.
#[derive(Clone, Debug)]
pub struct Hunk {
    /// Its words in memory.
    pub size: u32,
    /// The kind of memory that it asks for.
    pub memory: Memory,
    /// Its name, if it has one.
    pub name: Option<Vec<u32>>,
    /// Its body.
    pub body: Body,
    /// The blocks between its body and its end.
    pub blocks: Vec<Block>,
}

/// The body of a hunk.
#[derive(Clone, Debug)]
pub enum Body {
    /// Stored instructions.
    Code(Vec<u32>),
    /// Stored data.
    Data(Vec<u32>),
    /// Nothing stored; a number of words is given all the same.
    Bss(u32),
}

/// A block after the body.
#[derive(Clone, Debug)]
pub enum Block {
    /// Groups of offsets, each with the hunk whose base is added there.
    Relocations(Vec<(u32, Vec<u32>)>),
    /// Symbols: a name, which is not empty, and a value.
    Symbols(Vec<(Vec<u32>, u32)>),
    /// Words for a debugger.
    Debug(Vec<u32>),
}

/// The part that a word has in a file.
#[derive(Clone, Copy, Debug, PartialEq, Eq)]
pub enum Part {
    /// The first word of all.
    Magic,
    /// The end of the list of library names, which is empty.
    Library,
    /// The number of hunks.
    Total,
    /// The first hunk.
    First,
    /// The last hunk.
    Last,
    /// A hunk's size and kind of memory.
    Size,
    /// The word that opens a name.
    Name,
    /// The length of a name.
    NameLength,
    /// A word of a name.
    NameWord,
    /// The word that opens a body.
    Body,
    /// The number of words in a body.
    BodyLength,
    /// A stored word.
    Stored,
    /// The word that opens a block after the body.
    Block,
    /// The number of offsets in a group, not 0.
    GroupLength,
    /// The hunk that a group names.
    GroupHunk,
    /// An offset.
    Offset,
    /// The 0 after the last group.
    GroupsEnd,
    /// The type and length of a symbol, not 0.
    Symbol,
    /// A word of a symbol's name.
    SymbolWord,
    /// The value of a symbol.
    SymbolValue,
    /// The 0 after the last symbol.
    SymbolsEnd,
    /// The length of a debug block.
    DebugLength,
    /// A word of a debug block.
    DebugWord,
    /// The word that ends a hunk.
    End,
}

/// A word of a file, with the part it has there.
#[derive(Clone, Copy, Debug)]
pub struct Written {
    /// The word.
    pub value: u32,
    /// Its part.
    pub part: Part,
    /// The hunk it belongs to; 0 in the header, but for sizes.
    pub hunk: usize,
}

/// The bytes of a file whose words are known by their parts.
pub fn file(words: &[Written]) -> Vec<u8> {
    words.iter().flat_map(|word| word.value.to_be_bytes()).collect()
}

/// Puts words one after the other.
struct Writer {
    words: Vec<Written>,
    hunk: usize,
}

impl Writer {
    fn put(&mut self, part: Part, value: u32) {
        self.words.push(Written { value, part, hunk: self.hunk });
    }

    fn put_all(&mut self, part: Part, values: &[u32]) {
        values.iter().for_each(|&value| self.put(part, value));
    }
}

fn length<T>(list: &[T]) -> u32 {
    u32::try_from(list.len()).expect("a list's length")
}

impl Program {
    /// The words of its file.
    pub fn written(&self) -> Vec<Written> {
        let mut writer = Writer { words: Vec::new(), hunk: 0 };
        writer.put(Part::Magic, HEADER);
        writer.put(Part::Library, 0);
        writer.put(Part::Total, length(&self.hunks));
        writer.put(Part::First, 0);
        writer.put(Part::Last, length(&self.hunks) - 1);
        for (index, hunk) in self.hunks.iter().enumerate() {
            writer.hunk = index;
            writer.put(Part::Size, SizeWord { size: hunk.size, memory: hunk.memory }.word());
        }
        for (index, hunk) in self.hunks.iter().enumerate() {
            writer.hunk = index;
            hunk.write(&mut writer);
        }
        writer.words
    }

    /// The words of each hunk.
    pub fn sizes(&self) -> Vec<u32> {
        self.hunks.iter().map(|hunk| hunk.size).collect()
    }

    /// What a reader has to find in its file.
    pub fn wanted(&self) -> Vec<Wanted> {
        let written = self.written();
        // a group's hunk stands in front of its offsets
        let mut names = 0;
        let mut targets = vec![Vec::new(); self.hunks.len()];
        for (index, word) in written.iter().enumerate() {
            match word.part {
                Part::GroupHunk => names = word.value as usize,
                Part::Offset => {
                    let target = Target { names, offset: word.value as usize, written_at: 4 * index };
                    targets[word.hunk].push(target);
                }
                _ => {}
            }
        }
        let hunks = self.hunks.iter().zip(targets);
        hunks
            .map(|(hunk, targets)| {
                let (kind, stored) = match &hunk.body {
                    Body::Code(stored) => (Kind::Code, stored.clone()),
                    Body::Data(stored) => (Kind::Data, stored.clone()),
                    Body::Bss(_) => (Kind::Bss, Vec::new()),
                };
                Wanted { kind, size: hunk.size as usize, memory: hunk.memory, stored, targets }
            })
            .collect()
    }
}

impl Hunk {
    fn write(&self, writer: &mut Writer) {
        if let Some(name) = &self.name {
            writer.put(Part::Name, NAME);
            writer.put(Part::NameLength, length(name));
            writer.put_all(Part::NameWord, name);
        }
        let (opening, count, stored) = match &self.body {
            Body::Code(stored) => (CODE, length(stored), &stored[..]),
            Body::Data(stored) => (DATA, length(stored), &stored[..]),
            Body::Bss(count) => (BSS, *count, &[][..]),
        };
        writer.put(Part::Body, opening);
        writer.put(Part::BodyLength, count);
        writer.put_all(Part::Stored, stored);
        self.blocks.iter().for_each(|block| block.write(writer));
        writer.put(Part::End, END);
    }
}

impl Block {
    fn write(&self, writer: &mut Writer) {
        match self {
            Block::Relocations(groups) => {
                writer.put(Part::Block, RELOCATIONS);
                for (hunk, offsets) in groups {
                    writer.put(Part::GroupLength, length(offsets));
                    writer.put(Part::GroupHunk, *hunk);
                    writer.put_all(Part::Offset, offsets);
                }
                writer.put(Part::GroupsEnd, 0);
            }
            Block::Symbols(symbols) => {
                writer.put(Part::Block, SYMBOLS);
                for (name, value) in symbols {
                    writer.put(Part::Symbol, length(name));
                    writer.put_all(Part::SymbolWord, name);
                    writer.put(Part::SymbolValue, *value);
                }
                writer.put(Part::SymbolsEnd, 0);
            }
            Block::Debug(words) => {
                writer.put(Part::Block, DEBUG);
                writer.put(Part::DebugLength, length(words));
                writer.put_all(Part::DebugWord, words);
            }
        }
    }
}

/// A word of any value, often one that means something elsewhere in a file.
fn any_word(rng: &mut Rng) -> u32 {
    match rng.below(4) {
        0 => rng.pick(&[0, 1, 2, HEADER, NAME, CODE, RELOCATIONS, SYMBOLS, DEBUG, END, 0x8000_0000, u32::MAX]),
        1 => rng.below(64) as u32,
        _ => rng.draw() as u32,
    }
}

fn any_words(rng: &mut Rng, count: u64) -> Vec<u32> {
    (0..count).map(|_| any_word(rng)).collect()
}

/// A number up to `most`, often one of the ends.
fn up_to(rng: &mut Rng, most: u64) -> u64 {
    match rng.below(4) {
        0 => most,
        1 => 0,
        _ => rng.below(most + 1),
    }
}

/// Even offsets into so many words, in any order and nowhere less than 4 bytes apart.
fn offsets(rng: &mut Rng, stored: u32) -> Vec<u32> {
    let Some(last) = (4 * stored).checked_sub(4) else { return Vec::new() };
    let mut offsets: Vec<u32> = Vec::new();
    for _ in 0..up_to(rng, u64::from(stored).min(24)) {
        let offset = 2 * rng.below(u64::from(last / 2) + 1) as u32;
        if offsets.iter().all(|&other| other.abs_diff(offset) >= 4) {
            offsets.push(offset);
        }
    }
    offsets
}

/// Splits a list into parts that are not empty, most of them short.
fn split<T: Clone>(rng: &mut Rng, list: &[T]) -> Vec<Vec<T>> {
    let mut parts: Vec<Vec<T>> = Vec::new();
    for item in list {
        match parts.last_mut() {
            Some(part) if rng.below(3) > 0 => part.push(item.clone()),
            _ => parts.push(vec![item.clone()]),
        }
    }
    parts
}

/// Blocks for a hunk with so many stored words in a program of `total` hunks.
fn blocks(rng: &mut Rng, stored: u32, total: usize) -> Vec<Block> {
    let offsets = offsets(rng, stored);
    let groups: Vec<_> =
        split(rng, &offsets).into_iter().map(|part| (rng.below(total as u64) as u32, part)).collect();
    let mut blocks: Vec<_> = split(rng, &groups).into_iter().map(Block::Relocations).collect();
    for _ in 0..rng.below(3) {
        let more = match rng.below(5) {
            0 => Block::Relocations(Vec::new()),
            1 | 2 => {
                let count = rng.below(4);
                let name = |rng: &mut Rng| {
                    let length = 1 + rng.below(3);
                    any_words(rng, length)
                };
                Block::Symbols((0..count).map(|_| (name(rng), any_word(rng))).collect())
            }
            _ => {
                let count = rng.below(4);
                Block::Debug(any_words(rng, count))
            }
        };
        let place = rng.below(blocks.len() as u64 + 1) as usize;
        blocks.insert(place, more);
    }
    blocks
}

fn hunk(rng: &mut Rng, total: usize) -> Hunk {
    // programs of many hunks have small ones, so that none grows too long
    let most = if total > 8 { 6 } else { rng.pick(&[0, 1, 2, 8, 8, 20, 40]) };
    let size = up_to(rng, most) as u32;
    let memory = rng.pick(&[Memory::Any, Memory::Any, Memory::Chip, Memory::Fast]);
    let count = up_to(rng, u64::from(size)) as u32;
    let named = rng.below(3) == 0;
    let name_length = rng.below(4);
    let name = named.then(|| any_words(rng, name_length));
    let body = match rng.below(5) {
        0 => Body::Bss(count),
        1 | 2 => Body::Data(any_words(rng, u64::from(count))),
        _ => Body::Code(any_words(rng, u64::from(count))),
    };
    let stored = if let Body::Bss(_) = body { 0 } else { count };
    let blocks = blocks(rng, stored, total);
    Hunk { size, memory, name, body, blocks }
}

/// A program that breaks no rule.
pub fn good_program(rng: &mut Rng) -> Program {
    let total = match rng.below(40) {
        0 => 64,
        1 => 1 + rng.below(64),
        2..=10 => 1,
        _ => 2 + rng.below(5),
    };
    Program { hunks: (0..total).map(|_| hunk(rng, total as usize)).collect() }
}

/// Splits a number into so many parts; some are 0.
fn shares(rng: &mut Rng, whole: u64, parts: usize) -> Vec<u64> {
    let mut left = whole;
    (0..parts)
        .map(|_| {
            let most = left >> rng.pick(&[0, 2, 6, 20]);
            let share = up_to(rng, most);
            left -= share;
            share
        })
        .collect()
}

/// Bases that break no rule for hunks of these sizes, in no order: with gaps or touching, from address 0 on or up to
/// the very last. A hunk of size 0 may lie anywhere, also in another.
pub fn good_bases(rng: &mut Rng, sizes: &[u32]) -> Vec<u32> {
    let taken: u64 = sizes.iter().map(|&size| u64::from(size)).sum();
    let free = (1 << 30) - taken;
    let mut order: Vec<usize> = (0..sizes.len()).collect();
    for index in 1..order.len() {
        order.swap(index, rng.below(index as u64 + 1) as usize);
    }
    let gaps = match rng.below(4) {
        0 => vec![0; sizes.len()],
        1 => {
            let mut gaps = vec![0; sizes.len()];
            gaps[0] = free;
            gaps
        }
        2 => (0..sizes.len()).map(|_| rng.below(100)).collect(),
        _ => shares(rng, free, sizes.len()),
    };
    let mut bases = vec![0; sizes.len()];
    let mut next = 0; // all is counted in words here
    for (&index, gap) in order.iter().zip(gaps) {
        next += gap;
        // one past the last address is none, and can only be meant for a hunk that has no address
        bases[index] = (4 * next.min((1 << 30) - 1)) as u32;
        next += u64::from(sizes[index]);
    }
    for (index, _) in sizes.iter().enumerate().filter(|(_, &size)| size == 0) {
        let other = rng.below(sizes.len() as u64) as usize;
        let inside = bases[other].saturating_add(4 * rng.below(u64::from(sizes[other]) + 1) as u32) & !3;
        bases[index] = rng.pick(&[bases[index], 0, 0xFFFF_FFFC, inside, inside]);
    }
    bases
}

/// The room that a program takes, or that it is lent.
#[derive(Clone, Copy, Debug, PartialEq, Eq)]
pub struct Room {
    /// Bytes of memory.
    pub memory: usize,
    /// Records of the hunk table.
    pub records: usize,
    /// Bytes of work area.
    pub work: usize,
}

impl Room {
    /// The least room for hunks of these sizes.
    pub fn needed(sizes: &[u32]) -> Room {
        let bytes = sizes.iter().map(|&size| 4 * size as usize).sum();
        Room { memory: bytes, records: sizes.len(), work: bytes }
    }

    /// This room, or some more of each.
    pub fn widened(self, rng: &mut Rng) -> Room {
        let mut more = || rng.pick(&[0, 0, 1, 2, 3, 4, 5, 16]);
        Room { memory: self.memory + more(), records: self.records + more(), work: self.work + more() }
    }
}

#[cfg(test)]
mod tests {
    use super::*;
    use crate::program::read;

    #[test]
    fn the_worked_file() {
        let file = worked_file();
        assert_eq!(file.len(), 148);
        assert_eq!(file[..4], [0, 0, 3, 0xF3]);
        let hunks = read(&file).expect("a good file");
        assert_eq!(hunks.len(), 2);
        let offsets: Vec<_> = hunks[0].targets.iter().map(|target| (target.names, target.offset)).collect();
        assert_eq!(offsets, [(0, 0), (1, 0x14), (1, 0x0E)]);
    }

    /// What was drawn is what is read, to the last target.
    #[test]
    fn good_files_are_read_as_they_were_meant() {
        let mut rng = Rng::new(30);
        for _ in 0..3_000 {
            let program = good_program(&mut rng);
            let words = program.written();
            assert_eq!(read(&file(&words)), Ok(program.wanted()), "{program:X?}");
        }
    }

    /// What there is to meet in a hunk's body.
    fn of_body(hunk: &Hunk, wanted: &Wanted) -> Vec<(&'static str, bool)> {
        let is_bss = matches!(hunk.body, Body::Bss(_));
        let (stored, size) = (wanted.stored.len(), wanted.size);
        vec![
            ("size 0", hunk.size == 0),
            ("any memory", hunk.memory == Memory::Any),
            ("chip memory", hunk.memory == Memory::Chip),
            ("fast memory", hunk.memory == Memory::Fast),
            ("size 0 in chip memory", hunk.size == 0 && hunk.memory == Memory::Chip),
            ("size 0 in fast memory", hunk.size == 0 && hunk.memory == Memory::Fast),
            ("code", matches!(hunk.body, Body::Code(_))),
            ("data", matches!(hunk.body, Body::Data(_))),
            ("bss", is_bss),
            ("bss with a number below its size", matches!(hunk.body, Body::Bss(n) if n < hunk.size)),
            ("a tail after stored words", stored > 0 && stored < size),
            ("no tail", stored > 0 && stored == size),
            ("a tail alone", !is_bss && stored == 0 && size > 0),
            ("a name", hunk.name.as_ref().is_some_and(|name| !name.is_empty())),
            ("an empty name", hunk.name.as_ref().is_some_and(|name| name.is_empty())),
        ]
    }

    /// .. and in its other blocks.
    fn of_blocks(hunk: &Hunk, wanted: &Wanted) -> Vec<(&'static str, bool)> {
        let groups: Vec<_> = hunk
            .blocks
            .iter()
            .filter_map(|block| match block {
                Block::Relocations(groups) => Some(groups),
                _ => None,
            })
            .collect();
        let any = |is: fn(&Block) -> bool| hunk.blocks.iter().any(is);
        let targets = &wanted.targets;
        let within = |offset: usize| targets.iter().any(|target| target.offset % 4 == offset);
        vec![
            ("bss with a relocation block", matches!(hunk.body, Body::Bss(_)) && !groups.is_empty()),
            ("two relocation blocks in use", groups.iter().filter(|groups| !groups.is_empty()).count() > 1),
            ("two groups in a block", groups.iter().any(|groups| groups.len() > 1)),
            ("two offsets in a group", groups.iter().copied().flatten().any(|(_, offsets)| offsets.len() > 1)),
            ("an empty relocation block", groups.iter().any(|groups| groups.is_empty())),
            ("symbols", any(|block| matches!(block, Block::Symbols(s) if s.len() > 1))),
            ("no symbols", any(|block| matches!(block, Block::Symbols(s) if s.is_empty()))),
            ("debug words", any(|block| matches!(block, Block::Debug(d) if !d.is_empty()))),
            ("no debug words", any(|block| matches!(block, Block::Debug(d) if d.is_empty()))),
            ("a target over two words", within(2)),
            ("a target in a word", within(0)),
            ("a target in the last stored word", targets.iter().any(|t| t.offset + 4 == 4 * wanted.stored.len())),
            ("offsets that do not rise", targets.windows(2).any(|pair| pair[0].offset > pair[1].offset)),
        ]
    }

    /// Everything that a file may hold is drawn often.
    #[test]
    fn good_files_are_of_all_kinds() {
        let mut rng = Rng::new(31);
        let mut met = std::collections::BTreeMap::new();
        for _ in 0..3_000 {
            let program = good_program(&mut rng);
            let mut here = vec![("one hunk", program.hunks.len() == 1), ("64 hunks", program.hunks.len() == 64)];
            for (hunk, wanted) in program.hunks.iter().zip(program.wanted()) {
                here.extend(of_body(hunk, &wanted));
                here.extend(of_blocks(hunk, &wanted));
            }
            for (what, is_met) in here {
                *met.entry(what).or_insert(0) += u32::from(is_met);
            }
        }
        let rare: Vec<_> = met.iter().filter(|(_, &times)| times < 50).collect();
        assert!(rare.is_empty(), "{rare:?}");
    }

    #[test]
    fn good_bases_reach_both_ends_and_touch() {
        let mut rng = Rng::new(32);
        let (mut from_zero, mut to_the_last, mut touching, mut inside) = (0, 0, 0, 0);
        for _ in 0..3_000 {
            let sizes = good_program(&mut rng).sizes();
            let bases = good_bases(&mut rng, &sizes);
            assert_eq!(bases.len(), sizes.len());
            let filled: Vec<_> =
                bases.iter().zip(&sizes).map(|(&base, &size)| (u64::from(base), 4 * u64::from(size))).collect();
            for (index, &(base, bytes)) in filled.iter().enumerate() {
                assert_eq!(base % 4, 0);
                assert!(base + bytes <= 1 << 32);
                from_zero += u32::from(base == 0 && bytes > 0);
                to_the_last += u32::from(base + bytes == 1 << 32 && bytes > 0);
                for &(other, long) in &filled[..index] {
                    assert!(bytes == 0 || long == 0 || base + bytes <= other || other + long <= base);
                    touching += u32::from(bytes > 0 && long > 0 && base + bytes == other);
                    inside += u32::from(bytes == 0 && other < base && base < other + long);
                    inside += u32::from(long == 0 && base < other && other < base + bytes);
                }
            }
        }
        for (what, times) in [("0", from_zero), ("last", to_the_last), ("touching", touching), ("inside", inside)]
        {
            assert!(times > 100, "{what}: {times}");
        }
    }

    #[test]
    fn room_counts_bytes_and_records() {
        let needed = Room::needed(&[3, 0, 65_536]);
        assert_eq!(needed, Room { memory: 262_156, records: 3, work: 262_156 });
        let mut rng = Rng::new(33);
        let wider: Vec<_> = (0..50).map(|_| needed.widened(&mut rng)).collect();
        assert!(wider.iter().all(|room| room.memory >= needed.memory && room.records >= 3));
        assert!(wider.iter().any(|room| room.memory == needed.memory && room.work > needed.work));
    }
}
