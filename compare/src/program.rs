//! The check of a program file, and what it holds (docs/FORMAT.md, "The program file").
//!
//! The file is taken apart the way docs/FORMAT.md builds it up: a header, then hunks; a hunk is perhaps a name, then a
//! body, then whatever blocks follow, then its end. Every such piece has a function of its own that takes its words
//! from the front of what is left. Since no word is looked at before the one in front of it has passed, the first
//! complaint is the first fault in file order.

/// First word of a program file.
pub const HEADER: u32 = 0x3F3;
/// Opens a hunk's name.
pub const NAME: u32 = 0x3E8;
/// Opens a body of stored code.
pub const CODE: u32 = 0x3E9;
/// Opens a body of stored data.
pub const DATA: u32 = 0x3EA;
/// Opens a body without stored words.
pub const BSS: u32 = 0x3EB;
/// Opens a list of words to which bases are added.
pub const RELOCATIONS: u32 = 0x3EC;
/// Opens a list of symbols.
pub const SYMBOLS: u32 = 0x3F0;
/// Opens words for debuggers.
pub const DEBUG: u32 = 0x3F1;
/// Ends a hunk.
pub const END: u32 = 0x3F2;

/// Bits of a size word: the hunk asks for chip memory, or for fast memory. The others are its size.
pub const CHIP: u32 = 1 << 30;
pub const FAST: u32 = 1 << 31;
pub const BOTH: u32 = CHIP | FAST;

/// The most hunks of a file.
pub const HUNKS: u32 = 64;
/// The most words of a hunk.
pub const HUNK_WORDS: u32 = 65_536;

/// Why something is turned away, and where (docs/FORMAT.md, "Numbers").
#[derive(Clone, Copy, Debug, PartialEq, Eq)]
pub struct Refusal {
    /// The number of the broken rule.
    pub number: u32,
    /// The place that goes with this number.
    pub place: usize,
}

impl Refusal {
    /// Number `number` at `place`.
    pub fn at(number: u32, place: usize) -> Refusal {
        Refusal { number, place }
    }
}

/// What a hunk is for.
#[derive(Clone, Copy, Debug, PartialEq, Eq)]
pub enum Kind {
    /// Instructions.
    Code,
    /// Data with a value.
    Data,
    /// Room that starts out as zeros.
    Bss,
}

impl Kind {
    /// The word that opens a body of this kind, which is also its number in the hunk table.
    pub fn word(self) -> u32 {
        match self {
            Kind::Code => CODE,
            Kind::Data => DATA,
            Kind::Bss => BSS,
        }
    }

    fn of(word: u32) -> Option<Kind> {
        [Kind::Code, Kind::Data, Kind::Bss].into_iter().find(|kind| kind.word() == word)
    }
}

/// The kind of memory that a hunk asks for.
#[derive(Clone, Copy, Debug, PartialEq, Eq)]
pub enum Memory {
    /// Any memory will do.
    Any,
    /// Memory that the chips for picture and sound reach.
    Chip,
    /// Memory that they do not reach.
    Fast,
}

impl Memory {
    /// Its number in the hunk table.
    pub fn number(self) -> u32 {
        match self {
            Memory::Any => 0,
            Memory::Chip => 1,
            Memory::Fast => 2,
        }
    }

    /// The bits by which a size word asks for it.
    pub fn bits(self) -> u32 {
        match self {
            Memory::Any => 0,
            Memory::Chip => CHIP,
            Memory::Fast => FAST,
        }
    }

    fn of(word: u32) -> Option<Memory> {
        [Memory::Any, Memory::Chip, Memory::Fast].into_iter().find(|memory| memory.bits() == word & BOTH)
    }
}

/// What the header says of a hunk, in one word.
#[derive(Clone, Copy, Debug, PartialEq, Eq)]
pub struct SizeWord {
    /// The hunk's words in memory.
    pub size: u32,
    /// The kind of memory that it asks for.
    pub memory: Memory,
}

impl SizeWord {
    /// The word that says this.
    pub fn word(self) -> u32 {
        self.memory.bits() | self.size
    }
}

/// Four bytes of a hunk to which a base is added.
#[derive(Clone, Copy, Debug, PartialEq, Eq)]
pub struct Target {
    /// The hunk whose base is added.
    pub names: usize,
    /// The first of the four bytes, counted from the start of the hunk that contains them.
    pub offset: usize,
    /// Where in the file this offset is written.
    pub written_at: usize,
}

/// A hunk, as far as a loader needs it.
#[derive(Clone, Debug, PartialEq, Eq)]
pub struct Hunk {
    /// What it is for.
    pub kind: Kind,
    /// Its words in memory, by the header.
    pub size: usize,
    /// The kind of memory that it asks for, by the header too.
    pub memory: Memory,
    /// The words that the file gives a value, from the hunk's first on.
    pub stored: Vec<u32>,
    /// Where bases are added, in file order.
    pub targets: Vec<Target>,
}

/// A word and the place of its first byte in the file.
#[derive(Clone, Copy)]
struct Word {
    value: u32,
    at: usize,
}

impl Word {
    /// The word's value, if it is as the rule of this number wants it.
    fn held_to(self, number: u32, rule: impl Fn(u32) -> bool) -> Result<u32, Refusal> {
        if rule(self.value) {
            Ok(self.value)
        } else {
            Err(self.refused(number))
        }
    }

    fn refused(self, number: u32) -> Refusal {
        Refusal::at(number, self.at)
    }
}

/// What is left of a file.
struct Rest<'a> {
    file: &'a [u8],
    taken: usize,
}

impl Rest<'_> {
    fn is_empty(&self) -> bool {
        self.taken == self.file.len()
    }

    /// The next word, which has to be there.
    fn word(&mut self) -> Result<Word, Refusal> {
        let at = self.taken;
        match self.file[at..].first_chunk() {
            Some(&bytes) => {
                self.taken += bytes.len();
                Ok(Word { value: u32::from_be_bytes(bytes), at })
            }
            None => Err(Refusal::at(31, self.file.len())),
        }
    }

    /// The values of the next words, which have to be there; what they are does not matter.
    fn any(&mut self, count: u32) -> Result<Vec<u32>, Refusal> {
        (0..count).map(|_| self.word().map(|word| word.value)).collect()
    }

    /// A number and as many words.
    fn counted(&mut self) -> Result<Vec<u32>, Refusal> {
        let count = self.word()?;
        self.any(count.value)
    }
}

/// Checks a program file; its hunks, or the first fault in file order.
pub fn read(file: &[u8]) -> Result<Vec<Hunk>, Refusal> {
    if file.is_empty() || !file.len().is_multiple_of(4) {
        return Err(Refusal::at(30, 0));
    }
    let rest = &mut Rest { file, taken: 0 };
    let sizes = header(rest)?;
    let hunks: Vec<Hunk> = sizes.iter().map(|&said| hunk(rest, said, sizes.len())).collect::<Result<_, _>>()?;
    if rest.is_empty() {
        Ok(hunks)
    } else {
        Err(rest.word()?.refused(39))
    }
}

/// The header; what it says of each hunk.
fn header(rest: &mut Rest) -> Result<Vec<SizeWord>, Refusal> {
    rest.word()?.held_to(32, |first| first == HEADER)?;
    rest.word()?.held_to(33, |library| library == 0)?;
    let total = rest.word()?.held_to(32, |total| (1..=HUNKS).contains(&total))?;
    rest.word()?.held_to(32, |first| first == 0)?;
    rest.word()?.held_to(32, |last| last == total - 1)?;
    (0..total).map(|_| size_word(rest)).collect()
}

/// A size word. It may not ask for two kinds of memory, whatever its size.
fn size_word(rest: &mut Rest) -> Result<SizeWord, Refusal> {
    let word = rest.word()?;
    let memory = Memory::of(word.value).ok_or(word.refused(43))?;
    let size = word.value & !BOTH;
    if size > HUNK_WORDS {
        return Err(word.refused(34));
    }
    Ok(SizeWord { size, memory })
}

/// One of `total` hunks, of which the header says this.
fn hunk(rest: &mut Rest, SizeWord { size, memory }: SizeWord, total: usize) -> Result<Hunk, Refusal> {
    let mut opening = rest.word()?;
    if opening.value == NAME {
        rest.counted()?;
        opening = rest.word()?;
    }
    let kind = Kind::of(opening.value).ok_or(opening.refused(35))?;
    let count = rest.word()?.held_to(36, |count| count <= size)?;
    let stored = if kind == Kind::Bss { Vec::new() } else { rest.any(count)? };

    let mut targets = Vec::new();
    loop {
        let opening = rest.word()?;
        match opening.value {
            RELOCATIONS => targets.append(&mut relocations(rest, stored.len(), total)?),
            SYMBOLS => symbols(rest)?,
            DEBUG => drop(rest.counted()?),
            END => return Ok(Hunk { kind, size: size as usize, memory, stored, targets }),
            _ => return Err(opening.refused(35)),
        }
    }
}

/// The groups of a relocation block, for a hunk with so many stored words; without any, no offset fits.
fn relocations(rest: &mut Rest, stored: usize, total: usize) -> Result<Vec<Target>, Refusal> {
    let fits = |offset: u32| offset.is_multiple_of(2) && u64::from(offset) + 4 <= 4 * stored as u64;
    let mut targets = Vec::new();
    loop {
        let count = rest.word()?.value;
        if count == 0 {
            return Ok(targets);
        }
        let names = rest.word()?.held_to(38, |names| (names as usize) < total)? as usize;
        for _ in 0..count {
            let word = rest.word()?;
            let offset = word.held_to(38, fits)? as usize;
            targets.push(Target { names, offset, written_at: word.at });
        }
    }
}

/// The units of a symbol block: a word with type and length, the name, the value.
fn symbols(rest: &mut Rest) -> Result<(), Refusal> {
    loop {
        let length = rest.word()?.held_to(37, |unit| unit >> 24 == 0)?;
        if length == 0 {
            return Ok(());
        }
        rest.any(length)?;
        rest.word()?;
    }
}

#[cfg(test)]
mod tests {
    use super::*;

    fn file(words: &[u32]) -> Vec<u8> {
        words.iter().flat_map(|word| word.to_be_bytes()).collect()
    }

    /// The number and place of the refusal, or (0, 0).
    fn fault(words: &[u32]) -> (u32, usize) {
        read(&file(words)).map_or_else(|refusal| (refusal.number, refusal.place), |_| (0, 0))
    }

    /// The header of a file with hunks of these sizes.
    fn sized(sizes: &[u32]) -> Vec<u32> {
        let total = sizes.len() as u32;
        [&[HEADER, 0, total, 0, total.wrapping_sub(1)], sizes].concat()
    }

    /// A file of one hunk of four words, of which three are stored, and then these words.
    fn after_body(words: &[u32]) -> Vec<u32> {
        [&sized(&[4])[..], &[CODE, 3, 7, 8, 9], words].concat()
    }

    /// The place of the first word after the body of such a file.
    const BODY_END: usize = 4 * 11;

    /// One of each: all that a file may hold.
    #[test]
    fn a_file_with_everything() {
        let words = [
            sized(&[4, CHIP, FAST | 5]),
            vec![NAME, 2, 0x4E61, 0x6D65, CODE, 3, 10, 11, 12, RELOCATIONS, 2, 2, 8, 0, 1, 1, 4, 0],
            vec![DEBUG, 1, 0xFFFF_FFFF, SYMBOLS, 1, 0x61, 5, 2, 0x62, 0x63, 6, 0, RELOCATIONS, 0, END],
            vec![NAME, 0, DATA, 0, DEBUG, 0, SYMBOLS, 0, END],
            vec![BSS, 5, RELOCATIONS, 0, RELOCATIONS, 0, END],
        ];
        let target = |names, offset, written_at| Target { names, offset, written_at };
        let targets = vec![target(2, 8, 4 * 20), target(2, 0, 4 * 21), target(1, 4, 4 * 24)];
        let wanted = [
            Hunk { kind: Kind::Code, size: 4, memory: Memory::Any, stored: vec![10, 11, 12], targets },
            Hunk { kind: Kind::Data, size: 0, memory: Memory::Chip, stored: vec![], targets: vec![] },
            Hunk { kind: Kind::Bss, size: 5, memory: Memory::Fast, stored: vec![], targets: vec![] },
        ];
        assert_eq!(read(&file(&words.concat())).as_deref(), Ok(&wanted[..]));
    }

    #[test]
    fn the_limits_are_still_allowed() {
        let most = [sized(&[0; 64]), [BSS, 0, END].repeat(64)].concat();
        assert_eq!(read(&file(&most)).map(|hunks| hunks.len()), Ok(64));
        for memory in [0, CHIP, FAST] {
            let header = sized(&[memory | HUNK_WORDS]);
            let largest = [&header[..], &[CODE, HUNK_WORDS], &[6; 65_536], &[END]].concat();
            assert_eq!(read(&file(&largest)).map(|hunks| hunks[0].stored.len()), Ok(65_536));
        }
    }

    #[test]
    fn refusal_30_is_for_lengths() {
        let good = file(&after_body(&[END]));
        assert!(read(&good).is_ok());
        assert_eq!(read(&[]), Err(Refusal::at(30, 0)));
        for length in 1..good.len() {
            let number = if length % 4 == 0 { 31 } else { 30 };
            assert_eq!(read(&good[..length]).map_err(|refusal| refusal.number), Err(number), "{length}");
        }
        // before any look at the words
        assert_eq!(read(&[0xFF; 7]), Err(Refusal::at(30, 0)));
    }

    #[test]
    fn refusal_31_is_at_the_length() {
        let words = after_body(&[SYMBOLS, 2, 1, 2, 3, 0, DEBUG, 1, 5, RELOCATIONS, 1, 0, 0, 0, END]);
        assert_eq!(fault(&words), (0, 0));
        for length in 1..words.len() {
            assert_eq!(fault(&words[..length]), (31, 4 * length));
        }
        for long in [&[DEBUG, u32::MAX, 1][..], &[SYMBOLS, 0x00FF_FFFF, 1], &[RELOCATIONS, u32::MAX, 0, 0, 4, 8]] {
            assert_eq!(fault(&after_body(long)), (31, BODY_END + 4 * long.len()), "{long:X?}");
        }
        let named = [&sized(&[0])[..], &[NAME, u32::MAX, BSS, 0, END]].concat();
        assert_eq!(fault(&named), (31, 4 * 11));
    }

    #[test]
    fn refusals_32_and_33_are_for_the_header() {
        let good = after_body(&[END]);
        for (index, number, values) in [
            (0, 32, &[0, 0x3E7, 0x3F2, 0x3F5, 0x1_03F3][..]),
            (1, 33, &[1, u32::MAX]),
            (2, 32, &[0, 65, u32::MAX]),
            (3, 32, &[1, u32::MAX]),
            (4, 32, &[1, u32::MAX]),
        ] {
            for &value in values {
                let mut words = good.clone();
                words[index] = value;
                assert_eq!(fault(&words), (number, 4 * index), "{value:X}");
                // before the end of the file is missed
                assert_eq!(fault(&words[..=index]), (number, 4 * index), "{value:X}");
            }
        }
        // another T that is allowed is met by a last hunk that does not fit it
        let mut words = good;
        words[2] = 2;
        assert_eq!(fault(&words), (32, 16));
    }

    /// Sizes just above the limit and far above it: the last is the largest that 30 bits hold.
    const TOO_LARGE: [u32; 4] = [HUNK_WORDS + 1, 0x2_0000, 0x2000_0000, 0x3FFF_FFFF];

    #[test]
    fn refusal_34_is_for_sizes() {
        for size in [0, CHIP, FAST].into_iter().flat_map(|memory| TOO_LARGE.map(|size| memory | size)) {
            assert_eq!(fault(&sized(&[0, size])), (34, 24), "{size:X}");
            assert_eq!(fault(&sized(&[size, size])), (34, 20), "{size:X}");
            // an earlier word comes first, whatever is wrong with a later one
            assert_eq!(fault(&sized(&[size, BOTH])), (34, 20), "{size:X}");
        }
        for size in [0, 1, HUNK_WORDS] {
            for memory in [0, CHIP, FAST] {
                assert_eq!(fault(&sized(&[0, memory | size])), (31, 28), "{memory:X} {size:X}");
            }
        }
    }

    #[test]
    fn refusal_43_is_for_both_kinds_of_memory_at_once() {
        for size in [0, 1, HUNK_WORDS].into_iter().chain(TOO_LARGE) {
            let both = BOTH | size;
            assert_eq!(fault(&sized(&[both])), (43, 20), "{size:X}");
            assert_eq!(fault(&sized(&[CHIP, both, both])), (43, 24), "{size:X}");
            assert_eq!(fault(&sized(&[both, HUNK_WORDS + 1])), (43, 20), "{size:X}");
            // before the next size is missed
            assert_eq!(fault(&sized(&[FAST, both, 0])[..7]), (43, 24), "{size:X}");
        }
        // one bit in each of two words is not both
        assert_eq!(fault(&[&sized(&[CHIP, FAST])[..], &[BSS, 0, END].repeat(2)].concat()), (0, 0));
    }

    /// The two bits mean something in a size word alone: elsewhere they are bits of a number or of a type.
    #[test]
    fn the_bits_for_memory_are_read_in_size_words_alone() {
        let good = after_body(&[SYMBOLS, 1, 0x61, 5, 0, DEBUG, 1, 6, RELOCATIONS, 1, 0, 8, 0, END]);
        assert_eq!(fault(&good), (0, 0));
        let end = 4 * good.len();
        // the word, its number and place with a bit in it; where a count is too large, the words after it are offsets
        let cases = [
            (0, 32, 0),
            (1, 33, 4),
            (2, 32, 8),
            (3, 32, 12),
            (4, 32, 16),
            (6, 35, 24),
            (7, 36, 28),
            (8, 0, 0),
            (11, 35, BODY_END),
            (12, 37, BODY_END + 4),
            (13, 0, 0),
            (14, 0, 0),
            (15, 37, BODY_END + 16),
            (16, 35, BODY_END + 20),
            (17, 31, end),
            (18, 0, 0),
            (19, 35, BODY_END + 32),
            (20, 38, end - 4),
            (21, 38, BODY_END + 40),
            (22, 38, BODY_END + 44),
            (23, 38, end - 4),
            (24, 35, end - 4),
        ];
        for (index, number, place) in cases {
            for bits in [CHIP, FAST, BOTH] {
                let mut words = good.clone();
                words[index] |= bits;
                assert_eq!(fault(&words), (number, place), "word {index}, {bits:X}");
            }
        }
    }

    #[test]
    fn refusal_35_is_for_blocks_out_of_place() {
        let (start, body) = (4 * 6, [BSS, 0]);
        let cases: &[(&[u32], usize)] = &[
            (&[END], 0),
            (&[RELOCATIONS, 0], 0),
            (&[SYMBOLS, 0], 0),
            (&[DEBUG, 0], 0),
            (&[0x3E7], 0),
            (&[0x4000_0000 | BSS], 0),
            (&[NAME, 0, NAME, 0], 2),
            (&[NAME, 1, CODE, END], 3),
            (&[NAME, 0, DEBUG], 2),
            (&[BSS, 0, NAME], 2),
            (&[BSS, 0, BSS], 2),
            (&[BSS, 0, CODE], 2),
            (&[BSS, 0, DEBUG, 0, DATA], 4),
            (&[BSS, 0, 0x3ED], 2),
            (&[BSS, 0, 0x3EF], 2),
            (&[BSS, 0, HEADER], 2),
            (&[BSS, 0, 0], 2),
        ];
        for &(words, index) in cases {
            let words = [&sized(&[0]), words].concat();
            assert_eq!(fault(&words), (35, start + 4 * index), "{words:X?}");
        }
        // the second hunk is held to the same rules
        let second = [&sized(&[0, 0])[..], &body, &[END, END]].concat();
        assert_eq!(fault(&second), (35, 4 * 10));
    }

    #[test]
    fn refusal_36_is_for_more_words_than_the_size() {
        for kind in [CODE, DATA, BSS] {
            for count in [5, 6, u32::MAX] {
                // and comes before the missing words
                assert_eq!(fault(&[&sized(&[4])[..], &[kind, count]].concat()), (36, 4 * 7));
            }
        }
        assert_eq!(fault(&[&sized(&[4])[..], &[CODE, 4]].concat()), (31, 4 * 8));
        assert_eq!(fault(&[&sized(&[4])[..], &[BSS, 4, END]].concat()), (0, 0));
    }

    #[test]
    fn refusal_37_is_for_symbol_types() {
        for unit in [0x0100_0001, 0x8100_0001, 0xFF00_0000, u32::MAX] {
            assert_eq!(fault(&after_body(&[SYMBOLS, unit])), (37, BODY_END + 4));
            assert_eq!(fault(&after_body(&[SYMBOLS, 1, unit, unit, unit])), (37, BODY_END + 16));
        }
        assert_eq!(fault(&after_body(&[SYMBOLS, 1, u32::MAX, u32::MAX, 0, END])), (0, 0));
    }

    #[test]
    fn refusal_38_is_for_hunk_numbers_and_offsets() {
        for names in [1, 64, 0x8000_0000, u32::MAX] {
            assert_eq!(fault(&after_body(&[RELOCATIONS, 1, names])), (38, BODY_END + 8), "{names:X}");
        }
        // three words are stored: the tail, which the size alone allows, is no target
        for offset in [1, 3, 7, 10, 12, 14, 16, 0x8000_0000, 0xFFFF_FFFC, 0xFFFF_FFFE, u32::MAX] {
            let early = after_body(&[RELOCATIONS, 3, 0, offset]);
            assert_eq!(fault(&early), (38, BODY_END + 12), "{offset:X}");
            let later = after_body(&[RELOCATIONS, 3, 0, 2, 8, offset, 0, END]);
            assert_eq!(fault(&later), (38, BODY_END + 20), "{offset:X}");
        }
        for offset in [0, 2, 4, 6, 8] {
            assert_eq!(fault(&after_body(&[RELOCATIONS, 1, 0, offset, 0, END])), (0, 0), "{offset}");
        }
    }

    #[test]
    fn refusal_38_is_for_every_offset_of_a_bss_hunk() {
        let bss = |words: &[u32]| fault(&[&sized(&[4])[..], &[BSS, 4, RELOCATIONS], words].concat());
        assert_eq!(bss(&[0, END]), (0, 0));
        assert_eq!(bss(&[1]), (31, 4 * 10));
        assert_eq!(bss(&[1, 1]), (38, 4 * 10));
        assert_eq!(bss(&[1, 0]), (31, 4 * 11));
        for offset in [0, 2, 4, 12, u32::MAX] {
            assert_eq!(bss(&[1, 0, offset, 0, END]), (38, 4 * 11), "{offset}");
        }
    }

    #[test]
    fn refusal_39_is_for_more_than_the_hunks() {
        let good = after_body(&[END]);
        for more in [0, END, BSS, DEBUG, 0x3F5, u32::MAX] {
            let words = [&good[..], &[more, 0]].concat();
            assert_eq!(fault(&words), (39, BODY_END + 4), "{more:X}");
        }
    }

    #[test]
    fn the_kinds_of_memory_have_the_numbers_of_the_table() {
        for (memory, number) in [(Memory::Any, 0), (Memory::Chip, 1), (Memory::Fast, 2)] {
            assert_eq!(memory.number(), number);
            for size in [0, 1, HUNK_WORDS, 0x3FFF_FFFF] {
                let word = SizeWord { size, memory }.word();
                assert_eq!((word >> 30, word % (1 << 30)), (number, size));
                assert_eq!(Memory::of(word), Some(memory));
            }
        }
        assert_eq!([0xC000_0000, 0xC000_0001, u32::MAX].map(Memory::of), [None; 3]);
    }

    #[test]
    fn the_kinds_have_the_numbers_of_the_table() {
        assert_eq!([Kind::Code, Kind::Data, Kind::Bss].map(Kind::word), [0x3E9, 0x3EA, 0x3EB]);
        assert_eq!(Kind::of(0x3E8), None);
        assert_eq!(Kind::of(0x3EB), Some(Kind::Bss));
    }
}
