//! Loading and moving a program (docs/FORMAT.md, "The program file").
//!
//! Both calls ask everything before they write anything. A load then makes the wanted memory apart and copies it
//! over; a move goes through the targets one by one in the memory it was lent.

use std::collections::BTreeSet;
use std::ops::Range;

use crate::program::{read, Hunk, Refusal};

/// Numbers in a record of the hunk table: kind, place, size, base and kind of memory.
pub const RECORD: usize = 5;

/// What a caller lends for a load or a move.
pub struct Lent<'a> {
    /// Where the program comes to lie.
    pub memory: &'a mut [u8],
    /// The hunk table, [`RECORD`] numbers a record.
    pub table: &'a mut [u32],
    /// Room to work in; it is all 0 afterwards.
    pub work: &'a mut [u8],
}

/// What an accepted load or move answers.
#[derive(Clone, Copy, Debug, PartialEq, Eq)]
pub struct Loaded {
    /// How many hunks the program has.
    pub hunks: usize,
    /// How many bytes of memory they take.
    pub bytes: usize,
}

/// Loads the program with its hunks at these bases.
pub fn load(file: &[u8], bases: &[u32], lent: Lent) -> Result<Loaded, Refusal> {
    lent.work.fill(0);
    let hunks = admit(file, &[bases], &lent)?;
    let image: Vec<u8> = hunks.iter().flat_map(|hunk| contents(hunk, bases)).collect();
    lent.memory[..image.len()].copy_from_slice(&image);
    write_table(&hunks, bases, lent.table);
    Ok(Loaded { hunks: hunks.len(), bytes: image.len() })
}

/// Moves the program, whatever its memory holds, from the old bases to the new ones.
pub fn relocate(file: &[u8], old: &[u32], new: &[u32], lent: Lent) -> Result<Loaded, Refusal> {
    lent.work.fill(0);
    let hunks = admit(file, &[old, new], &lent)?;
    for (hunk, place) in hunks.iter().zip(places(&hunks)) {
        for target in &hunk.targets {
            let way = new[target.names].wrapping_sub(old[target.names]);
            add(&mut lent.memory[place + target.offset..], way);
        }
    }
    write_table(&hunks, new, lent.table);
    Ok(Loaded { hunks: hunks.len(), bytes: loaded_bytes(&hunks) })
}

/// The hunks of a file that may be loaded at these lists of bases into the lent room; else the first refusal.
fn admit(file: &[u8], lists: &[&[u32]], lent: &Lent) -> Result<Vec<Hunk>, Refusal> {
    let hunks = read(file)?;
    for (number, list) in lists.iter().enumerate() {
        if let Some(entry) = bad_base(&hunks, list) {
            return Err(Refusal::at(40, number * hunks.len() + entry));
        }
    }
    let bytes = loaded_bytes(&hunks);
    if lent.memory.len() < bytes || lent.table.len() / RECORD < hunks.len() || lent.work.len() < bytes {
        return Err(Refusal::at(41, 0));
    }
    match hunks.iter().find_map(crowded) {
        Some(place) => Err(Refusal::at(42, place)),
        None => Ok(hunks),
    }
}

/// The addresses that a hunk fills from this base on.
fn addresses(hunk: &Hunk, base: u32) -> Range<u64> {
    let start = u64::from(base);
    start..start + 4 * hunk.size as u64
}

/// Whether two ranges have a number in common; an empty range has none.
fn meet(one: &Range<u64>, other: &Range<u64>) -> bool {
    one.start.max(other.start) < one.end.min(other.end)
}

/// The first entry that does not fit the hunks, or 0 if there are more or fewer entries than hunks.
fn bad_base(hunks: &[Hunk], bases: &[u32]) -> Option<usize> {
    if bases.len() != hunks.len() {
        return Some(0);
    }
    let filled: Vec<_> = hunks.iter().zip(bases).map(|(hunk, &base)| addresses(hunk, base)).collect();
    (0..filled.len()).find(|&entry| {
        let own = &filled[entry];
        own.start % 4 != 0 || own.end > 1 << 32 || filled[..entry].iter().any(|earlier| meet(earlier, own))
    })
}

/// The bytes of memory that the hunks take together.
fn loaded_bytes(hunks: &[Hunk]) -> usize {
    hunks.iter().map(|hunk| 4 * hunk.size).sum()
}

/// Where in memory each hunk begins.
fn places(hunks: &[Hunk]) -> Vec<usize> {
    (0..hunks.len()).map(|index| loaded_bytes(&hunks[..index])).collect()
}

/// Where in the file the hunk's first offset stands that is less than 4 bytes from an earlier one.
fn crowded(hunk: &Hunk) -> Option<usize> {
    let mut earlier = BTreeSet::new();
    let crowded = hunk.targets.iter().find(|target| {
        let near = target.offset.saturating_sub(3)..target.offset + 4;
        let taken = earlier.range(near).next().is_some();
        earlier.insert(target.offset);
        taken
    });
    crowded.map(|target| target.written_at)
}

/// The bytes of a loaded hunk.
fn contents(hunk: &Hunk, bases: &[u32]) -> Vec<u8> {
    let mut bytes: Vec<u8> = hunk.stored.iter().flat_map(|word| word.to_be_bytes()).collect();
    bytes.resize(4 * hunk.size, 0);
    for target in &hunk.targets {
        add(&mut bytes[target.offset..], bases[target.names]);
    }
    bytes
}

/// Adds to the number in the first four bytes; what does not fit is lost.
fn add(bytes: &mut [u8], number: u32) {
    let four = bytes.first_chunk_mut().expect("a target lies in its hunk");
    *four = u32::from_be_bytes(*four).wrapping_add(number).to_be_bytes();
}

/// One record for each hunk; further ones stay.
fn write_table(hunks: &[Hunk], bases: &[u32], table: &mut [u32]) {
    let rows = hunks.iter().zip(places(hunks)).zip(bases);
    for (record, ((hunk, place), &base)) in table.chunks_exact_mut(RECORD).zip(rows) {
        let numbers: [u32; RECORD] =
            [hunk.kind.word(), place as u32, hunk.size as u32, base, hunk.memory.number()];
        record.copy_from_slice(&numbers);
    }
}

#[cfg(test)]
mod tests {
    use super::*;
    use crate::program::{BSS, CHIP, CODE, DATA, END, FAST, HEADER, RELOCATIONS};
    use crate::programs::{bytes, file, good_bases, good_program, worked_file, Room};
    use crate::rng::Rng;

    /// Areas to lend.
    #[derive(Clone, Debug, PartialEq, Eq)]
    struct Areas {
        memory: Vec<u8>,
        table: Vec<u32>,
        work: Vec<u8>,
    }

    impl Areas {
        fn new(room: Room) -> Areas {
            let table = vec![0x5555_5555; RECORD * room.records];
            Areas { memory: vec![0x55; room.memory], table, work: vec![0xAA; room.work] }
        }

        /// The same with bytes of no meaning in memory and table.
        fn any(rng: &mut Rng, room: Room) -> Areas {
            let table = (0..RECORD * room.records).map(|_| rng.draw() as u32).collect();
            Areas { memory: rng.bytes(room.memory), table, work: rng.bytes(room.work) }
        }

        fn lent(&mut self) -> Lent<'_> {
            Lent { memory: &mut self.memory, table: &mut self.table, work: &mut self.work }
        }

        /// These areas after a load that is accepted.
        fn loaded(&self, file: &[u8], bases: &[u32]) -> Areas {
            let mut areas = self.clone();
            load(file, bases, areas.lent()).expect("an accepted load");
            areas
        }

        /// These areas after a move that is accepted.
        fn moved(&self, file: &[u8], old: &[u32], new: &[u32]) -> Areas {
            let mut areas = self.clone();
            relocate(file, old, new, areas.lent()).expect("an accepted move");
            areas
        }

        fn words(&self) -> Vec<u32> {
            let words = self.memory.chunks_exact(4);
            words.map(|word| word.iter().fold(0, |high, &low| high << 8 | u32::from(low))).collect()
        }
    }

    const PLENTY: Room = Room { memory: 64, records: 3, work: 70 };

    /// The words that docs/FORMAT.md prints for the worked file, hunk by hunk.
    const FIRST: [u32; 6] = [0x0000_3008, 0x123C_00FF, 0x7001_4E71, 0x4EB9_0000, 0x7006_2239, 0x0000_7008];
    const SECOND: [u32; 4] = [0x2A3C_AAAA, 0xAAAA_4E71, 0x7201_4EF9, 0x0000_300A];

    #[test]
    fn the_worked_file_loads_as_printed() {
        let mut areas = Areas::new(PLENTY);
        let answer = load(&worked_file(), &[0x3000, 0x7000], areas.lent());
        assert_eq!(answer, Ok(Loaded { hunks: 2, bytes: 40 }));
        assert_eq!(areas.words()[..10], [&FIRST[..], &SECOND].concat());
        assert_eq!(areas.memory[40..], [0x55; 24], "after the last hunk");
        assert_eq!(areas.table[..10], [0x3E9, 0, 6, 0x3000, 0, 0x3E9, 24, 4, 0x7000, 0]);
        assert_eq!(areas.table[10..], [0x5555_5555; 5], "further records");
        assert_eq!(areas.work, [0; 70]);
    }

    #[test]
    fn the_worked_file_moves_as_printed() {
        let (old, new) = ([0x3000, 0x7000], [0x4000, 0x9000]);
        let mut areas = Areas::new(PLENTY).loaded(&worked_file(), &old);
        areas.work.fill(0xAA);
        let answer = relocate(&worked_file(), &old, &new, areas.lent());
        assert_eq!(answer, Ok(Loaded { hunks: 2, bytes: 40 }));
        let target = |place: usize| {
            areas.memory[place..place + 4].iter().fold(0, |high: u32, &low| high << 8 | u32::from(low))
        };
        let targets = [0x00, 0x0E, 0x14, 24 + 0x0C].map(target);
        assert_eq!(targets, [0x0000_4008, 0x0000_9006, 0x0000_9008, 0x0000_400A]);
        assert_eq!(areas, Areas::new(PLENTY).loaded(&worked_file(), &new));
    }

    #[test]
    fn sums_wrap() {
        let words = [HEADER, 0, 1, 0, 0, 1, CODE, 1, u32::MAX, RELOCATIONS, 1, 0, 0, 0, END];
        let areas = Areas::new(PLENTY).loaded(&bytes(&words), &[4]);
        assert_eq!(areas.words()[0], 3);
        assert_eq!(areas.moved(&bytes(&words), &[4], &[0]).words()[0], u32::MAX);
    }

    #[test]
    fn tails_and_bss_are_zeros_and_the_next_hunk_follows() {
        let words = [
            [HEADER, 0, 4, 0, 3].to_vec(),
            vec![3, CHIP | 2, FAST, 1],
            vec![DATA, 1, 0x0102_0304, END],
            vec![BSS, 1, RELOCATIONS, 0, END],
            vec![CODE, 0, END],
            vec![DATA, 1, 0x0506_0708, RELOCATIONS, 1, 2, 0, 0, END],
        ];
        let areas = Areas::new(Room { memory: 26, records: 4, work: 24 })
            .loaded(&bytes(&words.concat()), &[0x100, 0x200, 0x1_0100, 0x10C]);
        let memory = [1, 2, 3, 4, 0, 0, 0, 0, 0, 0, 0, 0, 0, 0, 0, 0, 0, 0, 0, 0, 5, 7, 8, 8, 0x55, 0x55];
        assert_eq!(areas.memory, memory);
        let table = [
            [0x3EA, 0, 3, 0x100, 0],
            [0x3EB, 12, 2, 0x200, 1],
            [0x3E9, 20, 0, 0x1_0100, 2],
            [0x3EA, 20, 1, 0x10C, 0],
        ];
        assert_eq!(areas.table, table.concat());
    }

    /// The kind of memory stands in the record and is nowhere else: not in the memory, not in the bases.
    #[test]
    fn kinds_of_memory_change_the_records_alone() {
        let (old, new) = ([0x3000, 0x7000], [0x4000, 0x9000]);
        let plain = Areas::new(PLENTY).loaded(&worked_file(), &old);
        for (first, second) in [(0, 1), (1, 0), (2, 0), (0, 2), (1, 1), (2, 2), (1, 2), (2, 1)] {
            let mut file = worked_file();
            file[20] |= (first << 6) as u8;
            file[24] |= (second << 6) as u8;
            let mut due = plain.clone();
            (due.table[4], due.table[9]) = (first, second);
            let loaded = Areas::new(PLENTY).loaded(&file, &old);
            assert_eq!(loaded, due, "{first} and {second}");
            // a move writes them whatever the table held
            let mut moved = plain.moved(&file, &old, &new);
            assert_eq!(moved, Areas::new(PLENTY).loaded(&file, &new));
            moved.table.fill(7);
            assert_eq!(moved.moved(&file, &new, &old).table[..10], due.table[..10]);
        }
    }

    /// A refused call leaves memory and table alone and clears its work area.
    fn refused(file: &[u8], old: &[u32], new: Option<&[u32]>, room: Room) -> (u32, usize) {
        let mut areas = Areas::any(&mut Rng::new(39), room);
        let before = areas.clone();
        let answer = match new {
            None => load(file, old, areas.lent()),
            Some(new) => relocate(file, old, new, areas.lent()),
        };
        let Refusal { number, place } = answer.expect_err("a refused call");
        assert_eq!((areas.memory, areas.table), (before.memory, before.table));
        assert_eq!(areas.work, vec![0; room.work]);
        (number, place)
    }

    #[test]
    fn file_faults_come_first() {
        let room = Room { memory: 0, records: 0, work: 5 };
        let worked = worked_file();
        assert_eq!(refused(&worked[..3], &[1], None, room), (30, 0));
        assert_eq!(refused(&worked[..144], &[1], None, room), (31, 144));
        assert_eq!(refused(&worked[..144], &[1], Some(&[]), room), (31, 144));
        assert_eq!(refused(&[&worked[..], &[0; 4]].concat(), &[1], None, room), (39, 148));
        let mut both = worked;
        both[24] |= 0xC0;
        assert_eq!(refused(&both, &[1], None, room), (43, 24));
        assert_eq!(refused(&both, &[1], Some(&[]), room), (43, 24));
    }

    #[test]
    fn refusal_40_counts_entries() {
        let worked = worked_file();
        let none = Room { memory: 0, records: 0, work: 0 };
        let good = &[0x3000, 0x7000][..];
        let bad: &[(&[u32], usize)] = &[
            (&[], 0),
            (&[0x3000], 0),
            (&[0x3000, 0x7001, 0], 0),
            (&[0x3001, 0x7001], 0),
            (&[0x3000, 0x7001], 1),
            (&[0x3000, 0x7002], 1),
            (&[0xFFFF_FFEC, 0x7000], 0),
            (&[0x3000, 0xFFFF_FFF4], 1),
            (&[0x3000, 0xFFFF_FFFC], 1),
            (&[0x3000, 0x3000], 1),
            (&[0x3000, 0x3014], 1),
            (&[0x3000, 0x2FF4], 1),
        ];
        for &(list, entry) in bad {
            assert_eq!(refused(&worked, list, None, none), (40, entry), "{list:X?}");
            assert_eq!(refused(&worked, list, Some(good), none), (40, entry), "{list:X?}");
            assert_eq!(refused(&worked, list, Some(&[]), none), (40, entry), "{list:X?}");
            assert_eq!(refused(&worked, good, Some(list), none), (40, 2 + entry), "{list:X?}");
        }
        for list in [[0, 24], [16, 0], [0xFFFF_FFE8, 0], [0, 0xFFFF_FFF0], [0xFFFF_FFD8, 0xFFFF_FFF0]] {
            assert_eq!(refused(&worked, &list, None, none), (41, 0), "{list:X?}");
            assert_eq!(refused(&worked, &list, Some(good), none), (41, 0), "{list:X?}");
            assert_eq!(refused(&worked, good, Some(&list), none), (41, 0), "{list:X?}");
        }
    }

    /// Hunks of size 0 between two others: they have no address, wherever they are put.
    #[test]
    fn an_empty_hunk_shares_no_address() {
        let words = [[HEADER, 0, 4, 0, 3].to_vec(), vec![2, 0, 0, 2], [CODE, 0, END].repeat(4)];
        let file = bytes(&words.concat());
        let room = Room { memory: 16, records: 4, work: 16 };
        for empty in [0, 0x1000, 0x1004, 0x1008, 0x2004, 0xFFFF_FFFC] {
            Areas::new(room).loaded(&file, &[0x1000, empty, empty, 0x2000]);
        }
        assert_eq!(refused(&file, &[0x1000, 0x1002, 0x1004, 0x1004], None, room), (40, 1));
        assert_eq!(refused(&file, &[0x1000, 0x1004, 0x1004, 0x1004], None, room), (40, 3));
    }

    #[test]
    fn refusal_41_is_for_each_of_the_three() {
        let worked = worked_file();
        let (old, new) = (&[0x3000, 0x7000][..], Some(&[0, 0x9000][..]));
        let enough = Room { memory: 40, records: 2, work: 40 };
        for short in [
            Room { memory: 39, ..enough },
            Room { records: 1, ..enough },
            Room { work: 39, ..enough },
            Room { memory: 0, records: 0, work: 0 },
        ] {
            assert_eq!(refused(&worked, old, None, short), (41, 0), "{short:?}");
            assert_eq!(refused(&worked, old, new, short), (41, 0), "{short:?}");
        }
        Areas::new(enough).loaded(&worked, old);
        // nine numbers are one record and a part of another
        let mut areas = Areas::new(enough);
        areas.table.truncate(9);
        assert_eq!(load(&worked, old, areas.lent()), Err(Refusal::at(41, 0)));
        // and what is left over after whole records stays
        let mut areas = Areas::new(enough);
        areas.table.extend([1, 2, 3, 4]);
        assert!(load(&worked, old, areas.lent()).is_ok());
        assert_eq!(areas.table[10..], [1, 2, 3, 4]);
    }

    /// A file of two hunks of four stored words each; these words follow the bodies.
    fn crowding(first: &[u32], second: &[u32]) -> Vec<u8> {
        let (head, body) = ([HEADER, 0, 2, 0, 1, 4, 4], [CODE, 4, 0, 0, 0, 0]);
        bytes(&[&head[..], &body, first, &[END], &body, second, &[END]].concat())
    }

    #[test]
    fn refusal_42_is_at_the_later_offset() {
        const R: u32 = RELOCATIONS;
        // the words after the first body begin at byte 52, those after the second at 52 + 4 + 24 and the first's
        let bad: &[(&[u32], &[u32], usize)] = &[
            (&[R, 2, 0, 4, 4, 0], &[], 52 + 16),
            (&[R, 2, 0, 4, 6, 0], &[], 52 + 16),
            (&[R, 2, 0, 4, 2, 0], &[], 52 + 16),
            (&[R, 2, 0, 0, 2, 0], &[], 52 + 16),
            (&[R, 4, 0, 12, 0, 8, 2, 0], &[], 52 + 24),
            (&[R, 1, 0, 4, 1, 1, 4, 0], &[], 52 + 24),
            (&[R, 1, 0, 4, 1, 1, 6, 0], &[], 52 + 24),
            (&[R, 1, 0, 4, 0, R, 1, 0, 4, 0], &[], 52 + 32),
            (&[R, 1, 0, 4, 0, R, 1, 1, 2, 0], &[], 52 + 32),
            (&[R, 1, 0, 4, 0], &[R, 2, 0, 0, 0, 0], 52 + 28 + 20 + 16),
            (&[R, 2, 0, 4, 6, 0], &[R, 2, 0, 4, 6, 0], 52 + 16),
        ];
        let room = Room { memory: 32, records: 2, work: 32 };
        for &(first, second, place) in bad {
            let file = crowding(first, second);
            assert_eq!(refused(&file, &[0, 16], None, room), (42, place), "{first:?} {second:?}");
            assert_eq!(refused(&file, &[0, 16], Some(&[16, 0]), room), (42, place), "{first:?} {second:?}");
            assert_eq!(refused(&file, &[0, 16], None, Room { work: 31, ..room }), (41, 0));
        }
        for (first, second) in [
            (&[R, 4, 0, 12, 0, 8, 4, 0][..], &[][..]),
            (&[R, 3, 0, 10, 2, 6, 0], &[]),
            (&[R, 1, 0, 4, 0], &[R, 1, 0, 4, 0]),
            (&[R, 1, 0, 12, 0], &[R, 1, 0, 0, 0]),
            (&[R, 1, 0, 4, 1, 1, 8, 0, R, 1, 0, 0, 0], &[R, 1, 1, 2, 0]),
        ] {
            Areas::new(room).loaded(&crowding(first, second), &[0, 16]);
        }
    }

    /// The laws of moving (docs/FORMAT.md, "Bases and room"), and those of moves alone, which hold
    /// whatever memory and table held before.
    #[test]
    fn moves_keep_their_laws() {
        let mut rng = Rng::new(40);
        let mut changing = 0;
        for _ in 0..1_500 {
            let program = good_program(&mut rng);
            let (file, sizes) = (file(&program.written()), program.sizes());
            let [a, b, c] = [(); 3].map(|()| good_bases(&mut rng, &sizes));
            let room = Room::needed(&sizes).widened(&mut rng);
            let areas = Areas::any(&mut rng, room);

            let at_a = areas.loaded(&file, &a);
            let at_b = areas.loaded(&file, &b);
            assert_eq!(at_a.moved(&file, &a, &b), at_b, "load at A and move to B is load at B");
            changing += u32::from(at_a.memory != at_b.memory);

            let moved = areas.moved(&file, &a, &b);
            assert_eq!(moved.moved(&file, &b, &c), areas.moved(&file, &a, &c), "A to B to C is A to C");
            assert_eq!(moved.moved(&file, &b, &a).memory, areas.memory, "A to B to A restores");
            assert_eq!(at_a.moved(&file, &a, &b).moved(&file, &b, &a), at_a, "and the table with it");
            assert_eq!(areas.moved(&file, &a, &a).memory, areas.memory, "A to A changes nothing");
            assert_eq!(at_a.moved(&file, &a, &a), at_a, "nor does it in the table");

            let needed = Room::needed(&sizes);
            for after in [&at_a, &moved] {
                assert_eq!(
                    after.memory[needed.memory..],
                    areas.memory[needed.memory..],
                    "bytes after the last hunk"
                );
                let used = RECORD * needed.records;
                assert_eq!(after.table[used..], areas.table[used..], "further records");
                assert!(after.work.iter().all(|&byte| byte == 0), "work area");
            }
        }
        assert!(changing > 500, "programs that a move changes: {changing}");
    }

    /// What a load must leave, stated byte by byte from what was drawn and not from what was read.
    #[test]
    fn loads_are_as_the_programs_say() {
        let mut rng = Rng::new(41);
        for _ in 0..1_000 {
            let program = good_program(&mut rng);
            let sizes = program.sizes();
            let bases = good_bases(&mut rng, &sizes);
            let areas = Areas::new(Room::needed(&sizes)).loaded(&file(&program.written()), &bases);
            let mut place = 0;
            for (index, hunk) in program.wanted().iter().enumerate() {
                let memory = hunk.memory.number();
                let record = [hunk.kind.word(), place as u32, sizes[index], bases[index], memory];
                assert_eq!(areas.table[RECORD * index..][..RECORD], record);
                let mut words = hunk.stored.clone();
                words.resize(hunk.size, 0);
                let stored = bytes(&words);
                for (offset, &byte) in areas.memory[place..place + 4 * hunk.size].iter().enumerate() {
                    // a byte is changed by at most one target, and never by one of another hunk
                    let target =
                        hunk.targets.iter().find(|target| (target.offset..target.offset + 4).contains(&offset));
                    let wanted = target.map_or(stored[offset], |target| {
                        let four = &stored[target.offset..target.offset + 4];
                        let old = four.iter().fold(0, |high: u64, &low| high << 8 | u64::from(low));
                        let new = (old + u64::from(bases[target.names])) % (1 << 32);
                        (new >> (8 * (3 - (offset - target.offset)))) as u8
                    });
                    assert_eq!(byte, wanted);
                }
                place += 4 * hunk.size;
            }
            assert_eq!(place, areas.memory.len());
        }
    }
}
