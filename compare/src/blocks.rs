//! The tests of one block, by the kind that its reference asks for.
//!
//! Each answers 0 if the block passes, else the number of the first rule it breaks, in the order that docs/FORMAT.md
//! gives in section "Order of the walk". What needs more than the block and the place where it was met (key range,
//! claims, double names) belongs to the walks.

use crate::disk::Disk;
use crate::names::{name, slot};
use crate::sizes::{data_blocks, header_keys, held, keys_here, keys_left};
use crate::words::{sum, word, TABLE};

/// First word of the root and of entries.
const HEADER: u32 = 2;
/// First word of a list block.
const LIST: u32 = 16;
/// First word of a data block.
const DATA: u32 = 8;

/// Last word of the root.
const ROOT: u32 = 1;
/// Last word of a directory.
pub const DIRECTORY: u32 = 2;
/// Last word of a file header, and of its list blocks.
pub const FILE: u32 = 0xFFFF_FFFD;
/// Last words of the links, which are recognised to be turned away.
const LINKS: [u32; 3] = [3, 4, 0xFFFF_FFFC];

/// What the root's w78 holds while its bitmap can be trusted.
const BITMAP_VALID: u32 = 0xFFFF_FFFF;

/// The number of the first rule that does not hold, or 0.
fn first_broken<const N: usize>(rules: [(bool, u32); N]) -> u32 {
    rules.into_iter().find(|&(holds, _)| !holds).map_or(0, |(_, number)| number)
}

/// The root block up to its name.
pub fn root(block: &[u8]) -> u32 {
    let w = |index| word(block, index);
    let types = w(0) == HEADER && w(127) == ROOT;
    let fixed = w(3) == TABLE && [1, 2, 4, 124, 125, 126].iter().all(|&index| w(index) == 0);
    first_broken([(sum(block) == 0, 7), (types, 8), (fixed, 4), (name(block).is_some(), 11)])
}

/// The words of the root block about bitmaps, but for the bitmap block's key, which the walk follows.
pub fn root_bitmap_words(block: &[u8]) -> u32 {
    let valid = word(block, 78) == BITMAP_VALID;
    let no_more = (80..=104).all(|index| word(block, index) == 0);
    first_broken([(valid && no_more, 16)])
}

/// Where an entry was met.
#[derive(Clone, Copy, Debug, PartialEq, Eq)]
pub struct EntryAt {
    /// The key that led to it.
    pub key: u32,
    /// The key of the directory whose chain it hangs in.
    pub directory: u32,
    /// The slot at which that chain begins.
    pub slot: u32,
}

/// A directory or file header, as far as both are alike; a file's sizes come after, see [`file()`].
pub fn entry(disk: &Disk, block: &[u8], at: EntryAt) -> u32 {
    let w = |index| word(block, index);
    let (is_directory, is_file) = (w(127) == DIRECTORY, w(127) == FILE);
    let keys = w(1) == at.key && w(125) == at.directory;
    first_broken([
        (sum(block) == 0, 7),
        (w(0) == HEADER, 8),
        (!LINKS.contains(&w(127)), 9),
        (is_directory || is_file, 8),
        (keys && (w(126) == 0 || !is_directory), 10),
        (name(block).is_some(), 11),
        (name(block).map(|name| slot(disk, name)) == Some(at.slot), 12),
    ])
}

/// The size a file header states.
pub fn size(block: &[u8]) -> u32 {
    word(block, 81)
}

/// What a file header says about its size and its blocks. Where data blocks have no words, w4 may be anything.
pub fn file(disk: &Disk, block: &[u8]) -> u32 {
    let size = size(block);
    let keys = data_blocks(disk, size);
    let fits = size <= disk.file_limit();
    let listed = word(block, 2) == header_keys(disk, size);
    let goes_on = (word(block, 126) != 0) == (keys_left(keys) > 0);
    let starts = keys > 0 || word(block, 4) == 0 || !disk.has_data_words();
    first_broken([(fits && listed && goes_on && starts, 14)])
}

/// Where a list block was met.
#[derive(Clone, Copy, Debug, PartialEq, Eq)]
pub struct ListAt {
    /// The key that led to it.
    pub key: u32,
    /// The key of the file header it belongs to.
    pub header: u32,
    /// The data keys that header and earlier list blocks left over, its own included; not 0.
    pub to_come: u32,
}

/// A list block.
pub fn list(block: &[u8], at: ListAt) -> u32 {
    let w = |index| word(block, index);
    let listed = w(2) == keys_here(at.to_come);
    let goes_on = (w(126) != 0) == (keys_left(at.to_come) > 0);
    first_broken([
        (sum(block) == 0, 7),
        (w(0) == LIST && w(127) == FILE, 8),
        (w(1) == at.key && w(125) == at.header, 10),
        (listed && goes_on, 14),
    ])
}

/// Where a data block was met.
#[derive(Clone, Copy, Debug, PartialEq, Eq)]
pub struct DataAt {
    /// The key that led to it.
    pub key: u32,
    /// The key of the file header it belongs to.
    pub header: u32,
    /// Its number in the file, counted from 1.
    pub number: u32,
    /// The size of the file.
    pub size: u32,
    /// What the block before it says in w4; the first has its header before it.
    pub named: u32,
}

/// A data block. One without words of its own has nothing to be tested.
pub fn data(disk: &Disk, block: &[u8], at: DataAt) -> u32 {
    if !disk.has_data_words() {
        return 0;
    }
    let w = |index| word(block, index);
    let is_last = at.number == data_blocks(disk, at.size);
    let words = w(1) == at.header && w(2) == at.number && w(3) == held(disk, at.size, at.number);
    let in_line = at.key == at.named && (w(4) == 0 || !is_last);
    first_broken([(sum(block) == 0, 7), (w(0) == DATA, 8), (words && in_line, 15)])
}

/// A bitmap block.
pub fn bitmap(block: &[u8]) -> u32 {
    first_broken([(sum(block) == 0, 7)])
}

#[cfg(test)]
mod tests {
    use super::*;
    use crate::names::put_name;
    use crate::rng::Rng;
    use crate::words::{mend, put, BLOCK_BYTES, BLOCK_WORDS};

    const DISK: Disk = Disk::OLD;

    /// The word in which all blocks but the bitmap block keep their sum right. No test reads it otherwise.
    const SUM: usize = 5;

    const ENTRY_AT: EntryAt = EntryAt { key: 900, directory: DISK.root(), slot: 65 };
    const LIST_AT: ListAt = ListAt { key: 1000, header: 900, to_come: 72 };
    const LAST_AT: DataAt = DataAt { key: 1001, header: 900, number: 3, size: 1_000, named: 1001 };
    const MIDDLE_AT: DataAt = DataAt { number: 2, ..LAST_AT };

    /// A block with these words, the rest 0, whose sum is right.
    fn block(words: &[(usize, u32)]) -> Vec<u8> {
        let mut block = vec![0; BLOCK_BYTES];
        for &(index, value) in words {
            put(&mut block, index, value);
        }
        mend(&mut block, SUM);
        block
    }

    fn named(mut block: Vec<u8>, name: &[u8]) -> Vec<u8> {
        put_name(&mut block, name);
        mend(&mut block, SUM);
        block
    }

    fn good_root() -> Vec<u8> {
        let words = [(0, 2), (3, 72), (78, 0xFFFF_FFFF), (79, 881), (127, 1)];
        named(block(&words), b"Empty")
    }

    fn good_directory() -> Vec<u8> {
        let words = [(0, 2), (1, 900), (125, DISK.root()), (127, 2)];
        named(block(&words), b"Mary")
    }

    /// A file header of this size, with w2 and w126 as given; good if they fit the size.
    fn good_file(size: u32, w2: u32, extension: u32) -> Vec<u8> {
        let words = [
            (0, 2),
            (1, 900),
            (2, w2),
            (4, if size == 0 { 0 } else { 901 }),
            (81, size),
            (125, DISK.root()),
            (126, extension),
            (127, 0xFFFF_FFFD),
        ];
        named(block(&words), b"MARY")
    }

    fn good_list(w2: u32, extension: u32) -> Vec<u8> {
        let words = [(0, 16), (1, 1000), (2, w2), (125, 900), (126, extension), (127, 0xFFFF_FFFD)];
        block(&words)
    }

    /// Block 3 of a file of 1,000 bytes, the last.
    fn good_last() -> Vec<u8> {
        block(&[(0, 8), (1, 900), (2, 3), (3, 24), (6, 0x5465_7874)])
    }

    /// Block 2 of the same file.
    fn good_middle() -> Vec<u8> {
        block(&[(0, 8), (1, 900), (2, 2), (3, 488), (4, 1002)])
    }

    /// A way to break one rule, by changing the block or the place where it is met, and the number due for it.
    struct Harm<At> {
        number: u32,
        what: &'static str,
        apply: fn(&mut [u8], &mut At),
    }

    fn harm<At>(number: u32, what: &'static str, apply: fn(&mut [u8], &mut At)) -> Harm<At> {
        Harm { number, what, apply }
    }

    /// Holds a test to a good block and to harms that are listed in the order of the rules they break: each harm
    /// alone brings its number, of two the earlier one's, and a wrong sum 7 whatever else is wrong. Harms that
    /// overwrite one another cannot be had together; there are `exclusive` such pairs.
    fn hold<At: Copy + PartialEq>(
        good: &[u8],
        at: At,
        test: fn(&[u8], At) -> u32,
        harms: &[Harm<At>],
        exclusive: usize,
    ) {
        let harmed = |list: &[&Harm<At>]| {
            let (mut block, mut at) = (good.to_vec(), at);
            list.iter().for_each(|harm| (harm.apply)(&mut block, &mut at));
            mend(&mut block, SUM);
            (block, at)
        };
        let unsummed = |block: &[u8]| {
            let mut block = block.to_vec();
            let right = word(&block, SUM);
            put(&mut block, SUM, right.wrapping_add(1));
            block
        };
        assert_eq!(test(good, at), 0, "the good block");
        assert_eq!(test(&unsummed(good), at), 7, "the sum alone");

        let mut excluded = 0;
        for (index, early) in harms.iter().enumerate() {
            let (block, place) = harmed(&[early]);
            assert_eq!(test(&block, place), early.number, "{}", early.what);
            assert_eq!(test(&unsummed(&block), place), 7, "sum, {}", early.what);
            for late in &harms[index + 1..] {
                let both = harmed(&[early, late]);
                if both != harmed(&[late, early]) {
                    excluded += 1;
                    continue;
                }
                let what = (early.what, late.what);
                assert_eq!(test(&both.0, both.1), early.number, "{what:?}");
            }
        }
        assert_eq!(excluded, exclusive, "pairs that exclude one another");
    }

    /// Changes each word of a good block in turn, its highest bit, and expects the number that `due` says. So
    /// the words that a test must not look at are left alone.
    fn hold_words(good: &[u8], test: impl Fn(&[u8]) -> u32, due: fn(usize) -> u32) {
        for index in (0..BLOCK_WORDS).filter(|&index| index != SUM) {
            let mut block = good.to_vec();
            put(&mut block, index, word(good, index) ^ 0x8000_0000);
            mend(&mut block, SUM);
            assert_eq!(test(&block), due(index), "w{index}");
        }
    }

    #[test]
    fn of_broken_rules_the_first_counts() {
        assert_eq!(first_broken([]), 0);
        assert_eq!(first_broken([(true, 7), (true, 8)]), 0);
        assert_eq!(first_broken([(true, 7), (false, 8), (false, 4)]), 8);
    }

    #[test]
    fn root_rules_in_order() {
        let harms = [
            harm(8, "w0", |block, ()| put(block, 0, 16)),
            harm(8, "w127 of a directory", |block, ()| put(block, 127, 2)),
            harm(8, "w127 of a link", |block, ()| put(block, 127, 3)),
            harm(4, "w1", |block, ()| put(block, 1, DISK.root())),
            harm(4, "w2", |block, ()| put(block, 2, 1)),
            harm(4, "w3", |block, ()| put(block, 3, 71)),
            harm(4, "w4", |block, ()| put(block, 4, 1)),
            harm(4, "w124", |block, ()| put(block, 124, 1)),
            harm(4, "w125", |block, ()| put(block, 125, DISK.root())),
            harm(4, "w126", |block, ()| put(block, 126, 1)),
            harm(11, "no name", |block, ()| block[432] = 0),
            harm(11, "name too long", |block, ()| block[432] = 31),
            harm(11, "slash", |block, ()| block[433] = b'/'),
            harm(11, "colon", |block, ()| block[437] = b':'),
        ];
        hold(&good_root(), (), |block, ()| root(block), &harms, 2);
    }

    #[test]
    fn root_words_beyond_its_rules_are_free() {
        hold_words(&good_root(), root, |index| match index {
            0 | 127 => 8,
            1..=4 | 124..=126 => 4,
            108 => 11,
            _ => 0,
        });
    }

    #[test]
    fn bitmap_words_are_w78_and_w80_to_w104() {
        assert_eq!(root_bitmap_words(&good_root()), 0);
        hold_words(&good_root(), root_bitmap_words, |index| match index {
            78 | 80..=104 => 16,
            _ => 0,
        });
        let mut pulled = good_root();
        put(&mut pulled, 78, 0);
        assert_eq!(root_bitmap_words(&pulled), 16, "and the sum is not asked");
    }

    fn entry_here(block: &[u8], at: EntryAt) -> u32 {
        entry(&DISK, block, at)
    }

    /// The harms that directories and file headers share.
    fn entry_harms() -> Vec<Harm<EntryAt>> {
        vec![
            harm(8, "w0", |block, _| put(block, 0, 16)),
            harm(9, "w127 is 3", |block, _| put(block, 127, 3)),
            harm(9, "w127 is 4", |block, _| put(block, 127, 4)),
            harm(9, "w127 is -4", |block, _| put(block, 127, 0xFFFF_FFFC)),
            harm(8, "w127 of a root", |block, _| put(block, 127, 1)),
            harm(8, "w127 is 0", |block, _| put(block, 127, 0)),
            harm(8, "w127 is -2", |block, _| put(block, 127, 0xFFFF_FFFE)),
            harm(10, "w1", |block, _| put(block, 1, 901)),
            harm(10, "w125", |block, _| put(block, 125, 0)),
            harm(11, "no name", |block, _| block[432] = 0),
            harm(11, "name too long", |block, _| block[432] = 31),
            harm(11, "slash", |block, _| block[433] = b'/'),
            harm(11, "colon", |block, _| block[436] = b':'),
            harm(12, "slot", |_, at| at.slot = 64),
        ]
    }

    #[test]
    fn directory_rules_in_order() {
        let mut harms = entry_harms();
        let after_keys = harms.iter().position(|harm| harm.number == 11).unwrap();
        let extended = harm(10, "w126", |block: &mut [u8], _: &mut _| put(block, 126, 1));
        harms.insert(after_keys, extended);
        // six values of w127, two lengths of the name
        hold(&good_directory(), ENTRY_AT, entry_here, &harms, 15 + 1);
    }

    #[test]
    fn file_header_rules_in_order() {
        for good in [good_file(1_000, 3, 0), good_file(0, 0, 0)] {
            hold(&good, ENTRY_AT, entry_here, &entry_harms(), 15 + 1);
        }
        // w126, and all else that its size decides, is left to the file's own test
        assert_eq!(entry_here(&good_file(u32::MAX, 99, 1), ENTRY_AT), 0);
    }

    #[test]
    fn entry_words_beyond_its_rules_are_free() {
        let test = |block: &[u8]| entry_here(block, ENTRY_AT);
        hold_words(&good_directory(), test, |index| match index {
            0 | 127 => 8,
            1 | 125 | 126 => 10,
            108 => 11,
            109 => 12, // the last letter of the name
            _ => 0,
        });
        hold_words(&good_file(1_000, 3, 0), test, |index| match index {
            0 | 127 => 8,
            1 | 125 => 10,
            108 => 11,
            109 => 12,
            _ => 0,
        });
    }

    #[test]
    fn an_entry_is_held_to_the_place_it_was_met_at() {
        let good = good_directory();
        for (at, number) in [
            (EntryAt { key: 899, ..ENTRY_AT }, 10),
            (EntryAt { directory: 900, ..ENTRY_AT }, 10),
            (EntryAt { slot: 0, ..ENTRY_AT }, 12),
        ] {
            assert_eq!(entry_here(&good, at), number, "{at:?}");
        }
        let renamed = named(good, b"c");
        assert_eq!(entry_here(&renamed, ENTRY_AT), 12);
        assert_eq!(entry_here(&renamed, EntryAt { slot: 8, ..ENTRY_AT }), 0);
    }

    /// Slots worked out by hand: a small letter with an accent hangs elsewhere on each kind; a capital and a sign do
    /// not.
    #[test]
    fn an_entry_hangs_where_its_kind_of_disk_has_it() {
        for (name, plain, international) in [(b"\xE0", 21, 61), (b"\xC0", 61, 61), (b"\xF7", 44, 44)] {
            let block = named(good_directory(), name);
            for slot in 0..TABLE {
                let at = EntryAt { slot, ..ENTRY_AT };
                let due = |right: u32| if slot == right { 0 } else { 12 };
                let found = Disk::FLOPPIES.map(|disk| entry(&disk, &block, at));
                let wanted = [plain, plain, international, international].map(due);
                assert_eq!(found, wanted, "{name:?} in {slot}");
            }
        }
    }

    /// Sizes on both sides of each place where something changes, in either file system.
    #[test]
    fn file_sizes_decide_w2_and_w126() {
        for (disk, full, table, limit) in [
            (Disk::OLD, 488, 35_136, 856_440),
            (Disk::FAST, 512, 36_864, 898_560),
            (Disk::OLD_INTERNATIONAL, 488, 35_136, 856_440),
            (Disk::FAST_INTERNATIONAL, 512, 36_864, 898_560),
            (Disk::OLD.with_blocks(3_520), 488, 35_136, 1_715_320),
            (Disk::FAST.with_blocks(3_520), 512, 36_864, 1_799_680),
            (Disk::OLD_INTERNATIONAL.with_blocks(3_520), 488, 35_136, 1_715_320),
            (Disk::FAST_INTERNATIONAL.with_blocks(3_520), 512, 36_864, 1_799_680),
        ] {
            for (size, w2, more) in [
                (0, 0, false),
                (1, 1, false),
                (full, 1, false),
                (full + 1, 2, false),
                (table - full, 71, false),
                (table - full + 1, 72, false),
                (table, 72, false),
                (table + 1, 72, true),
                (limit, 72, true),
            ] {
                let (right, wrong) = if more { (1, 0) } else { (0, 1) };
                assert_eq!(file(&disk, &good_file(size, w2, right)), 0, "{size}");
                assert_eq!(file(&disk, &good_file(size, w2, wrong)), 14, "{size}");
                assert_eq!(file(&disk, &good_file(size, w2 + 1, right)), 14, "{size}");
                let fewer = good_file(size, w2.wrapping_sub(1), right);
                assert_eq!(file(&disk, &fewer), 14, "{size}");
            }
            assert_eq!(file(&disk, &good_file(limit + 1, 72, 1)), 14);
            assert_eq!(file(&disk, &good_file(u32::MAX, 72, 1)), 14);
        }
        // the count of the one file system is none of the other
        for (size, old, fast) in [(512, 2, 1), (489, 2, 1), (1_024, 3, 2), (35_136, 72, 69)] {
            for (disk, right, wrong) in [(Disk::OLD, old, fast), (Disk::FAST, fast, old)] {
                let [right, wrong] = [right, wrong].map(|w2| file(&disk, &good_file(size, w2, 0)));
                assert_eq!([right, wrong], [0, 14], "{size}");
            }
        }
        assert_eq!(Disk::FLOPPIES.map(|disk| file(&disk, &good_file(856_441, 72, 1))), [14, 0, 14, 0]);
        assert_eq!(Disk::ALL.map(|disk| file(&disk, &good_file(898_561, 72, 1))), [14, 14, 14, 14, 0, 0, 0, 0]);
        assert_eq!(
            Disk::ALL.map(|disk| file(&disk, &good_file(1_715_321, 72, 1))),
            [14, 14, 14, 14, 14, 0, 14, 0]
        );
        assert_eq!(Disk::FLOPPIES.map(|disk| file(&disk, &good_file(36_864, 72, 0))), [14, 0, 14, 0]);
        assert_eq!(Disk::FLOPPIES.map(|disk| file(&disk, &good_file(36_864, 72, 1))), [0, 14, 0, 14]);
    }

    /// The Fast File System asks for w4 in no header.
    #[test]
    fn no_fast_file_is_asked_for_w4() {
        for disk in [Disk::FAST, Disk::FAST_INTERNATIONAL] {
            for (size, w2) in [(0, 0), (1_000, 2)] {
                hold_words(
                    &good_file(size, w2, 0),
                    |block| file(&disk, block),
                    |index| match index {
                        2 | 81 | 126 => 14,
                        _ => 0,
                    },
                );
            }
            // not even that of an empty file
            for w4 in [0, 1, 900, 1_760, u32::MAX] {
                let mut empty = good_file(0, 0, 0);
                put(&mut empty, 4, w4);
                assert_eq!(file(&disk, &empty), 0, "{w4}");
                assert_eq!(file(&DISK, &empty), if w4 == 0 { 0 } else { 14 }, "{w4}");
            }
        }
    }

    #[test]
    fn only_an_empty_file_is_asked_for_w4() {
        let test = |block: &[u8]| file(&DISK, block);
        hold_words(&good_file(0, 0, 0), test, |index| match index {
            2 | 4 | 81 | 126 => 14,
            _ => 0,
        });
        hold_words(&good_file(1_000, 3, 0), test, |index| match index {
            2 | 81 | 126 => 14,
            _ => 0,
        });
        let mut nowhere = good_file(1, 1, 0);
        put(&mut nowhere, 4, 0);
        assert_eq!(file(&DISK, &nowhere), 0, "15 at its first block is due");
    }

    #[test]
    fn list_rules_in_order() {
        let harms = [
            harm(8, "w0", |block, _: &mut ListAt| put(block, 0, 2)),
            harm(8, "w127", |block, _| put(block, 127, 2)),
            harm(8, "w127 of a link", |block, _| put(block, 127, 3)),
            harm(10, "w1", |block, _| put(block, 1, 900)),
            harm(10, "w125", |block, _| put(block, 125, 0)),
            harm(14, "w2", |block, _| put(block, 2, 71)),
            harm(14, "w126", |block, _| put(block, 126, 1002)),
        ];
        hold(&good_list(72, 0), LIST_AT, list, &harms, 1);
    }

    #[test]
    fn list_words_beyond_its_rules_are_free() {
        let test = |block: &[u8]| list(block, LIST_AT);
        hold_words(&good_list(72, 0), test, |index| match index {
            0 | 127 => 8,
            1 | 125 => 10,
            2 | 126 => 14,
            _ => 0,
        });
    }

    #[test]
    fn keys_to_come_decide_w2_and_w126() {
        for (to_come, w2, more) in
            [(1, 1, false), (71, 71, false), (72, 72, false), (73, 72, true), (144, 72, true), (145, 72, true)]
        {
            let at = ListAt { to_come, ..LIST_AT };
            let (right, wrong) = if more { (1, 0) } else { (0, 1) };
            assert_eq!(list(&good_list(w2, right), at), 0, "{to_come}");
            assert_eq!(list(&good_list(w2, wrong), at), 14, "{to_come}");
            assert_eq!(list(&good_list(w2 + 1, right), at), 14, "{to_come}");
            assert_eq!(list(&good_list(w2 - 1, right), at), 14, "{to_come}");
        }
    }

    fn data_here(block: &[u8], at: DataAt) -> u32 {
        data(&DISK, block, at)
    }

    #[test]
    fn data_rules_in_order() {
        let harms = || {
            vec![
                harm(8, "w0", |block, _: &mut DataAt| put(block, 0, 16)),
                harm(15, "w1", |block, _| put(block, 1, 901)),
                harm(15, "w2", |block, _| put(block, 2, 1)),
                harm(15, "w3", |block, _| put(block, 3, 25)),
                harm(15, "named otherwise", |_, at| at.named = 1000),
                harm(15, "named by no one", |_, at| at.named = 0),
            ]
        };
        hold(&good_middle(), MIDDLE_AT, data_here, &harms(), 1);
        let mut last = harms();
        last.push(harm(15, "w4", |block, _| put(block, 4, 1002)));
        hold(&good_last(), LAST_AT, data_here, &last, 1);
    }

    #[test]
    fn data_words_beyond_its_rules_are_free() {
        let middle = |block: &[u8]| data(&DISK, block, MIDDLE_AT);
        hold_words(&good_middle(), middle, |index| match index {
            0 => 8,
            1..=3 => 15,
            _ => 0,
        });
        let last = |block: &[u8]| data(&DISK, block, LAST_AT);
        hold_words(&good_last(), last, |index| match index {
            0 => 8,
            1..=4 => 15,
            _ => 0,
        });
    }

    /// A block of the Fast File System passes with any words and any sum, wherever it stands in its file.
    #[test]
    fn fast_data_blocks_have_no_rules() {
        let mut rng = Rng::new(20);
        for disk in [Disk::FAST, Disk::FAST_INTERNATIONAL] {
            for good in [good_last(), good_middle(), good_root(), good_list(72, 0), good_file(0, 0, 0)] {
                for at in
                    [LAST_AT, MIDDLE_AT, DataAt { named: 0, ..LAST_AT }, DataAt { number: 1, size: 1, ..LAST_AT }]
                {
                    assert_eq!(data(&disk, &good, at), 0, "{at:?}");
                    for index in 0..BLOCK_WORDS {
                        let mut block = good.clone();
                        put(&mut block, index, rng.draw() as u32);
                        assert_eq!(data(&disk, &block, at), 0, "{at:?}, w{index}");
                    }
                }
            }
            assert_eq!([0, 0xF6, 0xFF].map(|fill| data(&disk, &[fill; BLOCK_BYTES], LAST_AT)), [0; 3]);
        }
    }

    #[test]
    fn the_last_data_block_holds_what_remains() {
        for (size, number, bytes) in
            [(1, 1, 1), (487, 1, 487), (488, 1, 488), (489, 1, 488), (489, 2, 1), (976, 2, 488)]
        {
            let at = DataAt { number, size, ..LAST_AT };
            for w3 in [0, 1, 487, 488, 489] {
                let block = block(&[(0, 8), (1, 900), (2, number), (3, w3)]);
                let due = if w3 == bytes { 0 } else { 15 };
                assert_eq!(data(&DISK, &block, at), due, "{at:?}, w3 {w3}");
            }
        }
    }

    #[test]
    fn a_bitmap_block_needs_its_sum_alone() {
        for fill in [0, 0xFF, 0x5A] {
            let mut block = vec![fill; BLOCK_BYTES];
            mend(&mut block, 0);
            assert_eq!(bitmap(&block), 0);
            for index in 0..BLOCK_WORDS {
                let mut wrong = block.clone();
                put(&mut wrong, index, !word(&block, index));
                assert_eq!(bitmap(&wrong), 7, "w{index}");
            }
        }
    }
}
