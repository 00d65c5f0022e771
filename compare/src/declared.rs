//! The question of the audit without its walk: is this image a volume, what does it reach, and what does it count?
//!
//! References are collected until no new one turns up; that is the set of blocks reached. Then every rule of the
//! docs/FORMAT.md, "Blocks of a volume", is asked of whatever it speaks of: a block, a whole directory, a whole
//! file, the whole bitmap. Nothing stops at the first fault and nothing depends on an order, and the words are read
//! here anew instead of by [`blocks`](crate::blocks). Each broken rule is noted with its number and place, so an
//! audit's refusal has to be among the notes.

use std::collections::{BTreeMap, BTreeSet};

use crate::audit::{audit, Report};
use crate::bitmap::is_free;
use crate::disk::{settled, Disk};
use crate::names::{folded, name, slot};
use crate::program::Refusal;
use crate::words::{key_word, slot_word, sum, word, BLOCK_BYTES, TABLE};

/// What was found out about an image.
pub struct Finding {
    /// Every broken rule, with the place of the break; one may be noted twice.
    pub faults: Vec<Refusal>,
    /// The blocks reached.
    pub reached: BTreeSet<u32>,
    /// The counts that an audit reports if it accepts the image.
    pub report: Report,
}

impl Finding {
    /// Whether no rule is broken.
    pub fn is_volume(&self) -> bool {
        self.faults.is_empty()
    }
}

/// What an audit answers that names this number of blocks, or none, which has to go with what an examination finds:
/// panics where the two differ.
pub fn agreed(named: u32, image: &[u8], claim: &mut [u8]) -> Result<Report, Refusal> {
    let answer = audit(named, image, claim);
    examine(named, image).hold(answer, claim);
    answer
}

/// The same for an image that has so many blocks, be it a number that disks have or not.
#[cfg(test)]
pub(crate) fn agreed_of(blocks: u32, image: &[u8], claim: &mut [u8]) -> Result<Report, Refusal> {
    let answer = crate::audit::audit_of(blocks, image, claim);
    examine_of(blocks, image).hold(answer, claim);
    answer
}

impl Finding {
    /// Holds an audit's answer and its claim area to the finding.
    fn hold(&self, answer: Result<Report, Refusal>, claim: &[u8]) {
        let keys_with = |value: u8| (0..).zip(claim).filter(move |(_, &byte)| byte == value).map(|(key, _)| key);
        let claimed: BTreeSet<u32> = keys_with(1).collect();
        assert_eq!(claimed.len() + keys_with(0).count(), claim.len(), "a claim area of zeros and ones");
        match answer {
            Ok(report) => {
                assert_eq!(self.faults, [], "an accepted volume");
                assert_eq!(report, self.report, "the counts");
                assert_eq!(claimed, self.reached, "the claimed blocks");
            }
            Err(refusal) => {
                // a claim area is nothing that an image knows of
                let is_broken = refusal.number == 2 || self.faults.contains(&refusal);
                assert!(is_broken, "{refusal:?} is not among the faults {:?}", self.faults);
                assert_eq!(claimed, BTreeSet::new(), "the claim area of a refused volume");
            }
        }
    }
}

/// The finding on an image that has this fault, and of which nothing else is asked.
fn only(number: u32) -> Finding {
    let faults = vec![Refusal::at(number, 0)];
    Finding { faults, reached: BTreeSet::new(), report: Report::default() }
}

/// Examines an image of which this number of blocks is named, or none. What is of no size or kind has no other faults.
pub fn examine(named: u32, image: &[u8]) -> Finding {
    settled(named, image.len()).map_or_else(|| only(1), |blocks| examine_of(blocks, image))
}

/// Examines an image that has so many blocks.
fn examine_of(blocks: u32, image: &[u8]) -> Finding {
    let Some(disk) = Disk::of(blocks, image) else { return only(3) };
    let view = View { disk: &disk, image };
    let references = view.references();
    let mut check = Check { view, references: &references, faults: Vec::new() };
    let reached = check.ownership();
    check.sums();
    check.root();
    references.iter().filter(|one| view.is_key(one.key)).for_each(|one| check.kind(one.key, one.asked));
    check.names();
    check.files().into_iter().for_each(|header| check.file(header));
    check.bits(&reached);
    let report = check.report(&reached);
    Finding { faults: check.faults, reached, report }
}

/// What a reference takes the block for that it leads to.
#[derive(Clone, Copy, Debug, PartialEq, Eq, PartialOrd, Ord)]
enum Asked {
    Bitmap,
    /// An entry in the chain that begins at this slot of this directory.
    Entry {
        directory: u32,
        slot: u32,
    },
    /// A list block of the file with this header.
    List {
        header: u32,
    },
    /// A data block of the file with this header.
    Data {
        header: u32,
    },
}

/// A key that stands in some word of some block.
#[derive(Clone, Copy, Debug, PartialEq, Eq, PartialOrd, Ord)]
struct Reference {
    holder: u32,
    word: usize,
    key: u32,
    asked: Asked,
}

/// An image of a length that fits its disk.
#[derive(Clone, Copy)]
struct View<'a> {
    disk: &'a Disk,
    image: &'a [u8],
}

impl<'a> View<'a> {
    fn is_key(&self, key: u32) -> bool {
        self.disk.keys().contains(&key)
    }

    fn block(&self, key: u32) -> &'a [u8] {
        &self.image[key as usize * BLOCK_BYTES..][..BLOCK_BYTES]
    }

    fn word(&self, key: u32, index: usize) -> u32 {
        word(self.block(key), index)
    }

    fn is_directory(&self, key: u32) -> bool {
        self.word(key, 127) == 2
    }

    fn is_file(&self, key: u32) -> bool {
        self.word(key, 127) == 0xFFFF_FFFD
    }

    /// The keys that a header or list block says it lists.
    fn listed(&self, table: u32) -> Vec<u32> {
        let count = self.word(table, 2).min(TABLE);
        (0..count).map(|index| self.word(table, key_word(index))).collect()
    }

    /// The reference in a word where 0 is none.
    fn link(&self, holder: u32, word: usize, asked: Asked) -> Option<Reference> {
        let key = self.word(holder, word);
        (key != 0).then_some(Reference { holder, word, key, asked })
    }

    fn slots(&self, directory: u32) -> Vec<Reference> {
        let slot = |slot| self.link(directory, slot_word(slot), Asked::Entry { directory, slot });
        (0..TABLE).filter_map(slot).collect()
    }

    fn table(&self, holder: u32, header: u32) -> Vec<Reference> {
        let keys = self.listed(holder).into_iter().zip(0..);
        let data = |(key, index)| Reference { holder, word: key_word(index), key, asked: Asked::Data { header } };
        keys.map(data).chain(self.link(holder, 126, Asked::List { header })).collect()
    }

    /// What a block refers to, taken for this.
    fn refers(&self, key: u32, asked: Asked) -> Vec<Reference> {
        match asked {
            Asked::Bitmap | Asked::Data { .. } => Vec::new(),
            Asked::List { header } => self.table(key, header),
            Asked::Entry { .. } => {
                let mut found = if self.is_directory(key) {
                    self.slots(key)
                } else if self.is_file(key) {
                    self.table(key, key)
                } else {
                    Vec::new()
                };
                found.extend(self.link(key, 124, asked));
                found
            }
        }
    }

    /// The least set of references that has the root's, and those of every block that one of the set leads to.
    fn references(&self) -> BTreeSet<Reference> {
        let root = self.disk.root();
        let mut fresh = self.slots(root);
        fresh.push(Reference { holder: root, word: 79, key: self.word(root, 79), asked: Asked::Bitmap });
        let mut all: BTreeSet<Reference> = fresh.iter().copied().collect();
        while !fresh.is_empty() {
            let leading = fresh.iter().filter(|one| self.is_key(one.key));
            let further = leading.flat_map(|one| self.refers(one.key, one.asked));
            fresh = further.filter(|&one| all.insert(one)).collect();
        }
        all
    }

    /// A file's header and list blocks, as their links go; they end where a link leads back or nowhere.
    fn tables(&self, header: u32) -> Vec<u32> {
        let mut tables = vec![header];
        let mut last = header;
        loop {
            last = self.word(last, 126);
            if !self.is_key(last) || tables.contains(&last) {
                return tables;
            }
            tables.push(last);
        }
    }
}

/// The rules, and which of them are broken.
struct Check<'a> {
    view: View<'a>,
    references: &'a BTreeSet<Reference>,
    faults: Vec<Refusal>,
}

impl Check<'_> {
    fn note(&mut self, holds: bool, number: u32, place: u32) {
        if !holds {
            self.faults.push(Refusal::at(number, place as usize));
        }
    }

    /// One reference for each block reached, none for the root; the blocks reached are answered.
    fn ownership(&mut self) -> BTreeSet<u32> {
        let root = self.view.disk.root();
        let mut holders: BTreeMap<u32, BTreeSet<(u32, usize)>> = BTreeMap::new();
        for one in self.references {
            self.note(self.view.is_key(one.key), 5, one.key);
            holders.entry(one.key).or_default().insert((one.holder, one.word));
        }
        for (&key, places) in &holders {
            self.note(places.len() == 1 && key != root, 6, key);
        }
        holders.into_keys().filter(|&key| self.view.is_key(key)).chain([root]).collect()
    }

    /// The sum of the root and of every block that a reference takes for one with words; where data blocks have none,
    /// that is all but these.
    fn sums(&mut self) {
        let view = self.view;
        let is_worded = |one: &&Reference| !matches!(one.asked, Asked::Data { .. }) || view.disk.has_data_words();
        let worded = self.references.iter().filter(is_worded).map(|one| one.key).filter(|&key| view.is_key(key));
        let keys: BTreeSet<u32> = worded.chain([view.disk.root()]).collect();
        keys.into_iter().for_each(|key| self.note(sum(view.block(key)) == 0, 7, key));
    }

    fn root(&mut self) {
        let view = self.view;
        let root = view.disk.root();
        let all_zero = |words: &[usize]| words.iter().all(|&index| view.word(root, index) == 0);
        self.note(view.word(root, 0) == 2 && view.word(root, 127) == 1, 8, root);
        self.note(view.word(root, 3) == 72 && all_zero(&[1, 2, 4, 124, 125, 126]), 4, root);
        self.note(name(view.block(root)).is_some(), 11, root);
        let others: Vec<usize> = (80..105).collect();
        self.note(view.word(root, 78) == 0xFFFF_FFFF && all_zero(&others), 16, root);
    }

    /// The rules for a block that is taken for this, as far as they concern it alone.
    fn kind(&mut self, key: u32, asked: Asked) {
        let view = self.view;
        let own = |word, value| view.word(key, word) == value;
        match asked {
            Asked::Bitmap => {}
            Asked::Data { .. } => self.note(own(0, 8) || !view.disk.has_data_words(), 8, key),
            Asked::List { header } => {
                self.note(own(0, 16) && view.is_file(key), 8, key);
                self.note(own(1, key) && own(125, header), 10, key);
            }
            Asked::Entry { directory, slot: met } => {
                let is_link = own(127, 3) || own(127, 4) || own(127, 0xFFFF_FFFC);
                self.note(!is_link, 9, key);
                let has_type = view.is_directory(key) || view.is_file(key) || is_link;
                self.note(own(0, 2) && has_type, 8, key);
                self.note(own(1, key) && own(125, directory), 10, key);
                self.note(!view.is_directory(key) || own(126, 0), 10, key);
                let name = name(view.block(key));
                self.note(name.is_some(), 11, key);
                self.note(name.is_none_or(|name| slot(view.disk, name) == met), 12, key);
            }
        }
    }

    /// No two entries of a directory are called the same. Which of them is the later one is not asked here.
    fn names(&mut self) {
        let mut bearers: BTreeMap<(u32, Vec<u8>), BTreeSet<u32>> = BTreeMap::new();
        for one in self.references.iter().filter(|one| self.view.is_key(one.key)) {
            let Asked::Entry { directory, .. } = one.asked else { continue };
            let Some(name) = name(self.view.block(one.key)) else { continue };
            let folded = folded(self.view.disk, name);
            bearers.entry((directory, folded)).or_default().insert(one.key);
        }
        for same in bearers.values().filter(|same| same.len() > 1) {
            same.iter().for_each(|&key| self.note(false, 13, key));
        }
    }

    /// The blocks that some reference takes for this and of which this holds.
    fn taken_for(&self, kind: fn(&Asked) -> bool, holds: impl Fn(u32) -> bool) -> BTreeSet<u32> {
        let asked = self.references.iter().filter(|one| kind(&one.asked) && self.view.is_key(one.key));
        asked.map(|one| one.key).filter(|&key| holds(key)).collect()
    }

    /// The file headers.
    fn files(&self) -> BTreeSet<u32> {
        self.taken_for(|asked| matches!(asked, Asked::Entry { .. }), |key| self.view.is_file(key))
    }

    /// A file as a whole: its tables together list as many keys as its size asks for. Where data blocks have words, the
    /// way from w4 to w4 goes through the same keys to a 0.
    fn file(&mut self, header: u32) {
        let view = self.view;
        let (table, full) = (TABLE as usize, view.disk.data_bytes() as usize);
        let size = view.word(header, 81) as usize;
        let count = size.div_ceil(full);
        self.note(size <= view.disk.file_limit() as usize, 14, header);

        let tables = view.tables(header);
        for (index, &key) in tables.iter().enumerate() {
            let to_come = count.saturating_sub(table * index);
            let listed = view.word(key, 2) as usize == to_come.min(table);
            self.note(listed && (view.word(key, 126) != 0) == (to_come > table), 14, key);
        }

        if !view.disk.has_data_words() {
            return;
        }
        self.note(count > 0 || view.word(header, 4) == 0, 14, header);
        let keys: Vec<u32> = tables.iter().flat_map(|&key| view.listed(key)).collect();
        let next = |&key: &u32| if view.is_key(key) { view.word(key, 4) } else { 0 };
        let way: Vec<u32> = [view.word(header, 4)].into_iter().chain(keys.iter().map(next)).collect();
        for (index, &key) in keys.iter().enumerate().filter(|(_, &key)| view.is_key(key)) {
            let bytes = full.min(size.saturating_sub(full * index));
            let words = [header, index as u32 + 1, bytes as u32];
            let right = (1..4).zip(words).all(|(index, value)| view.word(key, index) == value);
            let ends = index + 1 != count || way[index + 1] == 0;
            self.note(right && way[index] == key && ends, 15, key);
        }
    }

    fn bits(&mut self, reached: &BTreeSet<u32>) {
        let bitmap = self.view.word(self.view.disk.root(), 79);
        if self.view.is_key(bitmap) {
            for key in self.view.disk.keys() {
                let free = is_free(self.view.block(bitmap), key);
                self.note(free != reached.contains(&key), 17, key);
            }
        }
    }

    fn report(&self, reached: &BTreeSet<u32>) -> Report {
        let is_entry = |asked: &Asked| matches!(asked, Asked::Entry { .. });
        let used = reached.len() as u32;
        Report {
            directories: self.taken_for(is_entry, |key| self.view.is_directory(key)).len() as u32,
            files: self.files().len() as u32,
            list_blocks: self.taken_for(|asked| matches!(asked, Asked::List { .. }), |_| true).len() as u32,
            data_blocks: self.taken_for(|asked| matches!(asked, Asked::Data { .. }), |_| true).len() as u32,
            used,
            // what is not used is free: each block of the volume has a bit
            free: self.view.disk.bitmap_span() - used,
        }
    }
}

#[cfg(test)]
mod tests {
    use super::*;
    use crate::disk::{claim_length, HIGH_DENSITY};
    use crate::rng::Rng;
    use crate::volumes::{any_style, mixed, Kind, Part, Plan, Volume};
    use crate::words::{mend, put};
    use std::panic::{catch_unwind, AssertUnwindSafe};

    /// A file of 200 data blocks in a directory, and one more file, on a disk of any kind.
    fn volume(rng: &mut Rng) -> Volume {
        let disk = rng.pick(&Disk::ALL);
        volume_on(rng, &disk)
    }

    fn volume_on(rng: &mut Rng, disk: &Disk) -> Volume {
        let mut plan = Plan::new(disk);
        let within = Some(plan.add(rng, None, Some(3), Kind::Directory));
        plan.add(rng, within, None, Kind::File(200 * disk.data_bytes()));
        plan.add(rng, None, Some(3), Kind::File(1));
        let style = any_style(rng);
        Volume::new(rng, &plan, style)
    }

    fn faults(image: &[u8]) -> Vec<(u32, usize)> {
        examine(0, image).faults.iter().map(|fault| (fault.number, fault.place)).collect()
    }

    /// The image with other words in one of its blocks, and its sum mended.
    fn changed(volume: &Volume, key: u32, words: &[(usize, u32)]) -> Vec<u8> {
        let mut image = volume.image.clone();
        let block = &mut image[key as usize * BLOCK_BYTES..][..BLOCK_BYTES];
        words.iter().for_each(|&(index, value)| put(block, index, value));
        mend(block, if key == volume.bitmap { 0 } else { 5 });
        image
    }

    #[test]
    fn a_volume_is_what_it_was_planned_to_be() {
        let mut rng = Rng::new(100);
        for disk in [&[Disk::FLOPPIES; 8].concat()[..], &Disk::of_blocks(HIGH_DENSITY)].concat() {
            let plan = mixed(&mut rng, &disk, 150);
            let style = any_style(&mut rng);
            let volume = Volume::new(&mut rng, &plan, style);
            let finding = examine(disk.blocks, &volume.image);
            assert_eq!(finding.faults, []);
            assert!(finding.is_volume());
            assert_eq!(finding.report, volume.report());
            assert_eq!(finding.reached, volume.order.iter().map(|met| met.key).collect());
        }
    }

    #[test]
    fn every_fault_is_noted_and_no_other() {
        let mut rng = Rng::new(101);
        for disk in Disk::ALL {
            hold_faults(&volume_on(&mut rng, &disk));
        }
    }

    fn hold_faults(volume: &Volume) {
        let (root, bitmap) = (volume.disk.root(), volume.bitmap);
        let find = |wanted: fn(Part) -> bool| volume.order.iter().find(|met| wanted(met.part)).unwrap().key;
        let directory = find(|part| matches!(part, Part::Directory(_)));
        let header = find(|part| matches!(part, Part::File(1)));
        let last = find(|part| matches!(part, Part::Data(1, 199)));
        let list = find(|part| matches!(part, Part::List(1, 1)));
        // these are asked of data blocks with words alone
        let of_data = [8, 15].map(|number| if volume.disk.has_data_words() { Some(number) } else { None });
        let of_data = |number: u32, place: u32| (of_data.contains(&Some(number))).then_some((number, place));
        let first = find(|part| matches!(part, Part::Data(1, 0)));
        let data_faults = [
            (header, vec![(4, 1)], vec![of_data(15, first)]),
            (last, vec![(3, 487)], vec![of_data(15, last)]),
            (last, vec![(4, last)], vec![of_data(15, last)]),
            (last, vec![(0, 0), (2, 0)], vec![of_data(8, last), of_data(15, last)]),
        ];
        for (key, words, wanted) in data_faults {
            let found = faults(&changed(volume, key, &words));
            let wanted = wanted.into_iter().flatten().map(|(number, place)| (number, place as usize));
            assert_eq!(found, wanted.collect::<Vec<_>>(), "block {key}, {words:?}");
        }
        for (key, words, wanted) in [
            (root, &[(3, 71)][..], &[(4, root)][..]),
            (root, &[(80, 1), (1, 1)], &[(4, root), (16, root)]),
            (directory, &[(0, 3)], &[(8, directory)]),
            (directory, &[(127, 1), (0, 1)], &[(8, directory)]),
            (directory, &[(125, 2), (126, 1)], &[(10, directory), (10, directory)]),
            (list, &[(1, 0)], &[(10, list)]),
            (list, &[(0, 2), (125, 2)], &[(8, list), (10, list)]),
            (bitmap, &[], &[]),
        ] {
            let mut found = faults(&changed(volume, key, words));
            // what hangs on a directory of no type is lost with it
            found.retain(|&(number, _)| number != 17 || key != directory);
            let wanted: Vec<_> = wanted.iter().map(|&(number, place)| (number, place as usize)).collect();
            assert_eq!(found, wanted, "block {key}, {words:?}");
        }
        assert_eq!(faults(&volume.image[1..]), [(1, 0)]);
        let other = volume.disk.other_sizes().next().expect("another size").blocks;
        for named in [other, 1, volume.disk.blocks + 1, u32::MAX] {
            assert_eq!(examine(named, &volume.image).faults, [Refusal::at(1, 0)], "{named}");
        }
        for (place, byte) in [(0, 0), (3, 4), (3, 5), (3, 0x80), (3, 0xFF)] {
            let mut untagged = volume.image.clone();
            untagged[place] = byte;
            assert_eq!(faults(&untagged), [(3, 0)]);
        }
        let mut unsummed = volume.image.clone();
        unsummed[last as usize * BLOCK_BYTES + 20] ^= 1;
        assert_eq!(faults(&unsummed).contains(&(7, last as usize)), volume.disk.has_data_words());
        assert_eq!(faults(&unsummed).len(), usize::from(volume.disk.has_data_words()));
        // a block that is data, and something else besides, has the sum of that
        let taken = changed(volume, header, &[(77, list), (76, last)]);
        let both =
            |image: &[u8]| faults(image).into_iter().filter(|&(_, place)| [list, last].contains(&(place as u32)));
        assert!(
            both(&taken).any(|fault| fault == (6, list as usize))
                && both(&taken).any(|fault| fault == (6, last as usize))
        );
        let mut unsummed = taken.clone();
        unsummed[list as usize * BLOCK_BYTES + 20] ^= 1;
        assert!(both(&unsummed).any(|fault| fault == (7, list as usize)));
    }

    /// A loop of links is a finite set of references like any other.
    #[test]
    fn loops_end() {
        let mut rng = Rng::new(102);
        let volume = volume(&mut rng);
        for met in &volume.order {
            let word = match met.part {
                Part::Directory(_) => 124,
                Part::List(..) | Part::File(1) => 126,
                _ => continue,
            };
            let image = changed(&volume, met.key, &[(word, met.key)]);
            assert!(faults(&image).contains(&(6, met.key as usize)), "{met:?}");
        }
    }

    #[test]
    fn names_are_asked_of_the_whole_directory() {
        let mut rng = Rng::new(103);
        let volume = volume(&mut rng);
        // the two entries of the root are the first and the last
        let [one, two] = [&volume.entries[0], &volume.entries[2]];
        let mut image = volume.image.clone();
        let block = &mut image[two.key as usize * BLOCK_BYTES..][..BLOCK_BYTES];
        crate::names::put_name(block, &one.name);
        mend(block, 5);
        let mut wanted = [(13, one.key as usize), (13, two.key as usize)];
        wanted.sort();
        assert_eq!(faults(&image), wanted);
    }

    #[test]
    fn differences_are_not_agreed_to() {
        let mut rng = Rng::new(104);
        let volume = volume(&mut rng);
        let (blocks, root) = (volume.disk.blocks, volume.disk.root() as usize);
        let mut claim = vec![0xAA; claim_length(blocks)];
        let answer = agreed(blocks, &volume.image, &mut claim);
        let complaint = |image: &[u8], answer, claim: &[u8]| {
            let finding = examine(blocks, image);
            let held = catch_unwind(AssertUnwindSafe(|| finding.hold(answer, claim)));
            held.err().and_then(|panic| panic.downcast_ref::<String>().cloned()).unwrap_or_default()
        };
        assert_eq!(complaint(&volume.image, answer, &claim), "");
        let report = answer.map(|report| Report { files: report.files + 1, ..report });
        let bad = changed(&volume, volume.disk.root(), &[(3, 71)]);
        let (cleared, mut more) = (vec![0; claim.len()], claim.clone());
        more[0] = 1;
        let refused = |number, place| Err(Refusal::at(number, place));
        for (image, answer, claim, said) in [
            (&volume.image, report, &claim, "the counts"),
            (&volume.image, answer, &more, "the claimed blocks"),
            (&volume.image, answer, &cleared, "the claimed blocks"),
            (&volume.image, answer, &vec![0xAA; claim.len()], "zeros and ones"),
            (&volume.image, refused(4, root), &cleared, "not among the faults"),
            (&bad, answer, &claim, "an accepted volume"),
            (&bad, refused(4, root - 1), &cleared, "not among the faults"),
            (&bad, refused(8, root), &cleared, "not among the faults"),
            (&bad, refused(4, root), &claim, "a refused volume"),
        ] {
            let complaint = complaint(image, answer, claim);
            assert!(complaint.contains(said), "{complaint:?}, not {said:?}");
        }
        assert_eq!(complaint(&bad, refused(4, root), &cleared), "");
    }
}
