//! The audit of a volume: every block that it reaches is met once, claimed and tested (docs/FORMAT.md,
//! "Order of the walk").
//!
//! The walk of docs/FORMAT.md goes down into every directory it meets. Here nothing calls itself: entries that are
//! known of and not yet visited wait on one pile, the next one on top. What a visit turns up is put above what was
//! waiting before.

use std::collections::BTreeSet;

use crate::bitmap::is_free;
use crate::blocks::{self, DataAt, EntryAt, ListAt, DIRECTORY};
use crate::disk::{claim_length, settled, Disk};
use crate::names::{folded, name};
use crate::program::Refusal;
use crate::sizes::{data_blocks, keys_here, keys_left};
use crate::words::{key_word, slot_word, word, BLOCK_BYTES, TABLE};

/// What an accepted audit counts.
#[derive(Clone, Copy, Debug, Default, PartialEq, Eq)]
pub struct Report {
    /// Directories below the root.
    pub directories: u32,
    /// File headers.
    pub files: u32,
    /// List blocks.
    pub list_blocks: u32,
    /// Data blocks.
    pub data_blocks: u32,
    /// Blocks reached, among them the root and the bitmap block.
    pub used: u32,
    /// Blocks that the bitmap calls free.
    pub free: u32,
}

/// Audits an image, of which the call names the number of blocks or none, and which says itself of what kind it is. The
/// claim area is written whole: 1 for each block reached if the image is accepted, else 0.
pub fn audit(named: u32, image: &[u8], claim: &mut [u8]) -> Result<Report, Refusal> {
    claim.fill(0);
    let blocks = settled(named, image.len()).ok_or(Refusal::at(1, 0))?;
    audit_of(blocks, image, claim)
}

/// Audits an image that has so many blocks, be it a number that disks have or not.
pub(crate) fn audit_of(blocks: u32, image: &[u8], claim: &mut [u8]) -> Result<Report, Refusal> {
    claim.fill(0);
    passed(if claim.len() >= claim_length(blocks) { 0 } else { 2 }, 0)?;
    let disk = Disk::of(blocks, image).ok_or(Refusal::at(3, 0))?;
    let mut walk = Walk::new(&disk, image);
    let bitmap = walk.root()?;
    while let Some(at) = walk.waiting.pop() {
        walk.visit(at)?;
    }
    let report = walk.conclude(bitmap)?;
    walk.reached.iter().for_each(|&key| claim[key as usize] = 1);
    Ok(report)
}

/// Number `number` at `place`, unless it is 0.
pub(crate) fn passed(number: u32, place: u32) -> Result<(), Refusal> {
    match number {
        0 => Ok(()),
        _ => Err(Refusal::at(number, place as usize)),
    }
}

/// A walk through an image of a length that fits its disk.
struct Walk<'a> {
    disk: &'a Disk,
    image: &'a [u8],
    /// The blocks claimed so far.
    reached: BTreeSet<u32>,
    /// Folded names met so far, each with its directory.
    names: BTreeSet<(u32, Vec<u8>)>,
    /// Entries to visit, the next one last.
    waiting: Vec<EntryAt>,
    counted: Report,
}

impl<'a> Walk<'a> {
    fn new(disk: &'a Disk, image: &'a [u8]) -> Walk<'a> {
        let (reached, names, counted) = (BTreeSet::new(), BTreeSet::new(), Report::default());
        Walk { disk, image, reached, names, waiting: Vec::new(), counted }
    }

    fn block(&self, key: u32) -> &'a [u8] {
        &self.image[key as usize * BLOCK_BYTES..][..BLOCK_BYTES]
    }

    /// The block that a reference leads to, which nothing else led to before.
    fn claim(&mut self, key: u32) -> Result<&'a [u8], Refusal> {
        if !self.disk.keys().contains(&key) {
            return Err(Refusal::at(5, key as usize));
        }
        passed(if self.reached.insert(key) { 0 } else { 6 }, key)?;
        Ok(self.block(key))
    }

    /// The root and the bitmap block, whose key is answered.
    fn root(&mut self) -> Result<u32, Refusal> {
        let root = self.disk.root();
        let block = self.claim(root)?;
        passed(blocks::root(block), root)?;
        passed(blocks::root_bitmap_words(block), root)?;
        let bitmap = word(block, 79);
        passed(blocks::bitmap(self.claim(bitmap)?), bitmap)?;
        self.put_slots(root);
        Ok(bitmap)
    }

    /// Lets the heads of a directory's chains wait, that of the lowest slot on top.
    fn put_slots(&mut self, directory: u32) {
        let block = self.block(directory);
        let heads = (0..TABLE).rev().map(|slot| EntryAt { key: word(block, slot_word(slot)), directory, slot });
        self.waiting.extend(heads.filter(|at| at.key != 0));
    }

    /// An entry and all that a file has; of a directory, the contents wait.
    fn visit(&mut self, at: EntryAt) -> Result<(), Refusal> {
        let block = self.claim(at.key)?;
        passed(blocks::entry(self.disk, block, at), at.key)?;
        let folded = name(block).map(|name| folded(self.disk, name)).unwrap_or_default();
        passed(if self.names.insert((at.directory, folded)) { 0 } else { 13 }, at.key)?;

        let next = word(block, 124);
        if next != 0 {
            self.waiting.push(EntryAt { key: next, ..at });
        }
        if word(block, 127) == DIRECTORY {
            self.counted.directories += 1;
            self.put_slots(at.key);
            Ok(())
        } else {
            self.counted.files += 1;
            passed(blocks::file(self.disk, block), at.key)?;
            self.file(at.key)
        }
    }

    /// The blocks of a file whose header has passed: those that a table lists, then the next table.
    fn file(&mut self, header: u32) -> Result<(), Refusal> {
        let mut table = self.block(header);
        let size = blocks::size(table);
        let mut to_come = data_blocks(self.disk, size);
        let (mut number, mut named) = (0, word(table, 4));
        loop {
            for index in 0..keys_here(to_come) {
                number += 1;
                let key = word(table, key_word(index));
                let block = self.claim(key)?;
                let at = DataAt { key, header, number, size, named };
                passed(blocks::data(self.disk, block, at), key)?;
                self.counted.data_blocks += 1;
                named = word(block, 4);
            }
            to_come = keys_left(to_come);
            if to_come == 0 {
                return Ok(());
            }
            let key = word(table, 126);
            table = self.claim(key)?;
            passed(blocks::list(table, ListAt { key, header, to_come }), key)?;
            self.counted.list_blocks += 1;
        }
    }

    /// The bitmap's bits, and the counts if they are right.
    fn conclude(&self, bitmap: u32) -> Result<Report, Refusal> {
        let free = |key: &u32| is_free(self.block(bitmap), *key);
        if let Some(key) = self.disk.keys().find(|key| free(key) == self.reached.contains(key)) {
            return Err(Refusal::at(17, key as usize));
        }
        let free = self.disk.keys().filter(free).count() as u32;
        Ok(Report { used: self.reached.len() as u32, free, ..self.counted })
    }
}

#[cfg(test)]
mod tests {
    use super::*;
    use crate::words::{mend, put};

    /// A size of disk, with the numbers that follow from it written out.
    #[derive(Clone, Copy)]
    struct Size {
        blocks: u32,
        bytes: usize,
        root: u32,
        /// The last word of the bitmap block that has bits which are read.
        last_word: usize,
    }

    const FLOPPY: Size = Size { blocks: 1_760, bytes: 901_120, root: 880, last_word: 55 };
    const HIGH: Size = Size { blocks: 3_520, bytes: 1_802_240, root: 1_760, last_word: 110 };

    /// A block of an image that may be changed.
    fn at(image: &mut [u8], key: u32) -> &mut [u8] {
        &mut image[key as usize * BLOCK_BYTES..][..BLOCK_BYTES]
    }

    /// A volume without entries, word by word.
    fn empty(size: Size, bitmap: u32) -> Vec<u8> {
        let mut image = vec![0; size.bytes];
        image[..4].copy_from_slice(&[0x44, 0x4F, 0x53, 0x00]);
        let root = at(&mut image, size.root);
        for (index, value) in [(0, 2), (3, 72), (78, 0xFFFF_FFFF), (79, bitmap), (127, 1)] {
            put(root, index, value);
        }
        root[432..435].copy_from_slice(b"\x02Ab");
        mend(root, 5);
        let block = at(&mut image, bitmap);
        (1..=size.last_word).for_each(|index| put(block, index, 0xFFFF_FFFF));
        for key in [size.root, bitmap] {
            let index = 1 + (key as usize - 2) / 32;
            put(block, index, word(block, index) & !(1 << ((key - 2) % 32)));
        }
        mend(block, 0);
        image
    }

    /// The image with another last byte in its tag.
    fn of_kind(image: &[u8], kind: u8) -> Vec<u8> {
        let mut image = image.to_vec();
        image[3] = kind;
        image
    }

    /// What an audit answers that names this number of blocks, and the claim area after it.
    fn audited_as(named: u32, image: &[u8], claim: usize) -> (Result<Report, Refusal>, Vec<u8>) {
        let mut claim = vec![0xAA; claim];
        (audit(named, image, &mut claim), claim)
    }

    /// What an audit answers whether it names the number of blocks or none, and the claim area after it.
    fn audited(size: Size, image: &[u8], claim: usize) -> (Result<Report, Refusal>, Vec<u8>) {
        let answer = audited_as(size.blocks, image, claim);
        // the other length of the two fits too if none is named
        if settled(0, image.len()).is_none_or(|blocks| blocks == size.blocks) {
            assert_eq!(audited_as(0, image, claim), answer);
        }
        answer
    }

    #[test]
    fn the_empty_volume() {
        for (size, keys, free) in
            [(FLOPPY, [2, 3, 879, 881, 1_759], 1_756), (HIGH, [2, 880, 1_759, 1_761, 3_519], 3_516)]
        {
            let enough = size.blocks as usize;
            for (bitmap, kind) in keys.into_iter().flat_map(|key| (0..4).map(move |kind| (key, kind))) {
                let (answer, claim) = audited(size, &of_kind(&empty(size, bitmap), kind), enough);
                assert_eq!(answer, Ok(Report { used: 2, free, ..Report::default() }), "bitmap {bitmap}");
                let claimed: Vec<usize> = (0..enough).filter(|&key| claim[key] != 0).collect();
                let mut wanted = [size.root as usize, bitmap as usize];
                wanted.sort();
                assert_eq!(claimed, wanted);
                assert!(claimed.iter().all(|&key| claim[key] == 1));
            }
        }
    }

    #[test]
    fn lengths_and_tag_are_asked_in_order_and_first() {
        for size in [FLOPPY, HIGH] {
            let (good, enough) = (empty(size, 881), size.blocks as usize);
            let mut untagged = good.clone();
            untagged[3] = 4;
            at(&mut untagged, size.root)[0] = 1;
            let longer = [&untagged[..], &[0]].concat();
            let long = [&good[..], &[0]].concat();
            for (image, claim, number) in [
                (&longer[..], enough - 1, 1),
                (&untagged[1..], enough - 1, 1),
                (&[], 0, 1),
                (&long, enough, 1),
                (&good[1..], enough, 1),
                (&untagged, enough - 1, 2),
                (&good, enough - 1, 2),
                (&good, 0, 2),
                (&untagged, enough, 3),
                (&of_kind(&untagged, 5), enough, 3),
                (&of_kind(&untagged, 0x80), enough, 3),
                (&of_kind(&untagged, 0xFF), enough, 3),
                // these are kinds, and the root is next
                (&of_kind(&untagged, 0), enough - 1, 2),
                (&of_kind(&untagged, 1), enough - 1, 2),
                (&of_kind(&untagged, 2), enough - 1, 2),
                (&of_kind(&untagged, 3), enough - 1, 2),
            ] {
                let (answer, claim) = audited(size, image, claim);
                assert_eq!(answer, Err(Refusal::at(number, 0)), "{} bytes", image.len());
                assert!(claim.iter().all(|&byte| byte == 0), "{} bytes", image.len());
            }
            for kind in 0..4 {
                let due = Err(Refusal::at(7, size.root as usize));
                assert_eq!(audited(size, &of_kind(&untagged, kind), enough).0, due, "{kind}");
            }
        }
    }

    /// A number that is not the image's is refused before all else, and so is one that no disk has.
    #[test]
    fn the_named_number_is_asked_first() {
        for (size, other) in [(FLOPPY, HIGH), (HIGH, FLOPPY)] {
            let good = empty(size, 881);
            let numbers = [other.blocks, 1, 880, size.blocks - 1, size.blocks + 1, 901_120, u32::MAX];
            for (image, claim) in
                [(&good, 4_096), (&good, 0), (&of_kind(&good, 9), 4_096), (&of_kind(&good, 9), 1)]
            {
                for named in numbers {
                    let (answer, claim) = audited_as(named, image, claim);
                    assert_eq!(answer, Err(Refusal::at(1, 0)), "{named}");
                    assert!(claim.iter().all(|&byte| byte == 0), "{named}");
                }
            }
        }
    }

    /// The same bytes are one volume or another: cut to a floppy's length they have the root of that, else the other.
    #[test]
    fn one_image_of_either_size() {
        let mut image = empty(HIGH, 3_000);
        image[..FLOPPY.bytes].copy_from_slice(&empty(FLOPPY, 881));
        let [small, large] = [1_756, 3_516].map(|free| Ok(Report { used: 2, free, ..Report::default() }));
        let refused = Err(Refusal::at(1, 0));
        let named = [0, 1_760, 3_520];
        assert_eq!(named.map(|named| audited_as(named, &image, 4_096).0), [large, refused, large]);
        let cut = &image[..FLOPPY.bytes];
        assert_eq!(named.map(|named| audited_as(named, cut, 4_096).0), [small, small, refused]);
        // a claim area for the one is short for the other
        let short = Err(Refusal::at(2, 0));
        assert_eq!([1_760, 3_519, 3_520].map(|claim| audited_as(0, &image, claim).0), [short, short, large]);
        assert_eq!([1_759, 1_760, 3_520].map(|claim| audited_as(0, cut, claim).0), [short, small, small]);
        // a root in the other's place is none
        assert_eq!(
            audited_as(0, &[&empty(FLOPPY, 881)[..], &[0; 901_120]].concat(), 4_096).0,
            Err(Refusal::at(8, 1_760))
        );
        assert_eq!(audited_as(0, &empty(HIGH, 3_000)[..FLOPPY.bytes], 4_096).0, Err(Refusal::at(8, 880)));
    }

    #[test]
    fn a_longer_claim_area_is_cleared_to_its_end() {
        for (size, first) in [(FLOPPY, 1_730), (HIGH, 3_490)] {
            let (answer, claim) = audited(size, &empty(size, 2), 4_096);
            assert!(answer.is_ok());
            let root = size.root as usize;
            assert_eq!((claim[2], claim[root], claim.iter().map(|&byte| u32::from(byte)).sum()), (1, 1, 2));
            let mut bad = empty(size, 2);
            put(at(&mut bad, 2), size.last_word, 0);
            mend(at(&mut bad, 2), 0);
            // the last word with bits is that of the last 30 blocks
            let (answer, claim) = audited(size, &bad, 4_096);
            assert_eq!(answer, Err(Refusal::at(17, first)));
            assert!(claim.iter().all(|&byte| byte == 0));
        }
    }

    /// Each bit of the last word and of the words around it, turned alone: 30 of the last are read, and all before.
    #[test]
    fn bits_up_to_the_last_block() {
        for size in [FLOPPY, HIGH] {
            let good = empty(size, 3);
            for (index, bit) in
                (size.last_word - 1..size.last_word + 3).flat_map(|at| (0..32).map(move |bit| (at, bit)))
            {
                let mut image = good.clone();
                let bits = word(at(&mut image, 3), index);
                put(at(&mut image, 3), index, bits ^ 1 << bit);
                mend(at(&mut image, 3), 0);
                let key = 32 * (index - 1) + bit + 2;
                let answer = audited(size, &image, 4_096).0;
                let due = if key < size.blocks as usize {
                    Err(Refusal::at(17, key))
                } else {
                    audited(size, &good, 4_096).0
                };
                assert_eq!(answer, due, "w{index}, bit {bit}");
            }
        }
    }

    /// Each entry in its turn: the contents of a directory, and the data of a file, before the next on the chain.
    #[test]
    fn the_order_of_the_walk() {
        for size in [FLOPPY, HIGH] {
            order_of_the_walk(size);
        }
    }

    fn order_of_the_walk(disk: Size) {
        // directory 4 in slot 6 holds file 5 with data block 6; directory 7 in slot 8 comes after them
        let (mut image, root, enough) = (empty(disk, 3), disk.root, disk.blocks as usize);
        let header = |name: u8, words: &[(usize, u32)]| {
            let mut block = vec![0; BLOCK_BYTES];
            put(&mut block, 0, 2);
            words.iter().for_each(|&(index, value)| put(&mut block, index, value));
            block[432..434].copy_from_slice(&[1, name]);
            block
        };
        let file = [(2, 1), (4, 6), (77, 6), (81, 9), (125, 4), (127, 0xFFFF_FFFD)];
        let mut data = vec![0; BLOCK_BYTES];
        [(0, 8), (1, 5), (2, 1), (3, 9)].into_iter().for_each(|(index, value)| put(&mut data, index, value));
        let blocks = [
            (4, header(b'a', &[(1, 4), (14, 5), (125, root), (127, 2)])),
            (5, header(b'c', &[&file[..], &[(1, 5)]].concat())),
            (6, data),
            (7, header(b'c', &[(1, 7), (125, root), (127, 2)])),
        ];
        for (key, block) in &blocks {
            at(&mut image, *key).copy_from_slice(block);
        }
        put(at(&mut image, root), 12, 4);
        put(at(&mut image, root), 14, 7);
        let bits = word(at(&mut image, 3), 1);
        put(at(&mut image, 3), 1, bits & !0b11_1100);
        // sums are mended one after the other, so the next unmended block of the walk is the one refused
        for key in [root, 3, 4, 5, 6, 7] {
            assert_eq!(audited(disk, &image, enough).0, Err(Refusal::at(7, key as usize)));
            mend(at(&mut image, key), if key == 3 { 0 } else { 5 });
        }
        let report =
            Report { directories: 2, files: 1, list_blocks: 0, data_blocks: 1, used: 6, free: disk.blocks - 8 };
        assert_eq!(
            (0..4).map(|kind| audited(disk, &of_kind(&image, kind), enough).0).collect::<Vec<_>>(),
            [Ok(report); 4]
        );

        // of the data block and of w4 the Fast File System asks nothing, wherever they are wrong
        at(&mut image, 6).fill(0xF6);
        put(at(&mut image, 5), 4, 0xFFFF_FFFF);
        mend(at(&mut image, 5), 5);
        for (kind, due) in
            [(0, Err(Refusal::at(7, 6))), (1, Ok(report)), (2, Err(Refusal::at(7, 6))), (3, Ok(report))]
        {
            assert_eq!(audited(disk, &of_kind(&image, kind), enough).0, due, "{kind}");
        }
        // its key is asked for all the same; what is good in it is claimed, and its bit is wrong
        let inside = |key: u32| if key < disk.blocks { (17, 6) } else { (5, key) };
        for (key, (number, place)) in [0, 1, 3_520, 3_521, 4, 5, root, 3]
            .map(|key| (key, if key < 2 || key > 3_519 { (5, key) } else { (6, key) }))
            .into_iter()
            .chain([1_759, 1_761, 3_519].map(|key| (key, inside(key))))
            .chain(if disk.root == 880 { [(1_760, (5, 1_760))] } else { [(880, (17, 6))] })
        {
            put(at(&mut image, 5), 77, key);
            mend(at(&mut image, 5), 5);
            for kind in [1, 3] {
                let due = Err(Refusal::at(number, place as usize));
                assert_eq!(audited(disk, &of_kind(&image, kind), enough).0, due, "{key}");
            }
        }
    }

    /// A volume with an empty file of this name in this slot of the root.
    fn with_file(disk: Size, kind: u8, name: &[u8], slot: usize) -> Vec<u8> {
        let mut image = of_kind(&empty(disk, 3), kind);
        let block = at(&mut image, 4);
        [(0, 2), (1, 4), (125, disk.root), (127, 0xFFFF_FFFD)]
            .into_iter()
            .for_each(|(w, value)| put(block, w, value));
        block[432] = name.len() as u8;
        block[433..][..name.len()].copy_from_slice(name);
        mend(block, 5);
        put(at(&mut image, disk.root), 6 + slot, 4);
        mend(at(&mut image, disk.root), 5);
        let bits = word(at(&mut image, 3), 1);
        put(at(&mut image, 3), 1, bits & !0b100);
        mend(at(&mut image, 3), 0);
        image
    }

    /// Slots worked out by hand, and a file of that name in every slot of the root.
    #[test]
    fn the_kind_decides_the_slot() {
        for (disk, free) in [(FLOPPY, 1_755), (HIGH, 3_515)] {
            let report = Report { files: 1, used: 3, free, ..Report::default() };
            for (name, plain, international) in
                [(&b"\xE0"[..], 21, 61), (b"M\xE9t\xE9o", 3, 67), (b"\xFF", 52, 52)]
            {
                for slot in 0..72 {
                    for (kind, right) in (0..).zip([plain, plain, international, international]) {
                        let due = if slot == right { Ok(report) } else { Err(Refusal::at(12, 4)) };
                        let image = with_file(disk, kind, name, slot);
                        assert_eq!(audited_as(disk.blocks, &image, 4_096).0, due, "{name:?} in {slot}");
                    }
                }
            }
        }
    }
}
