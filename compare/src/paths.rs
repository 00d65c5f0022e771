//! Paths to look for on a good volume, each with the answer due, and where to read in a file.
//!
//! The volume knows its entries and the chains they hang in, so what a lookup finds, and how many blocks it compares
//! on the way, is known without one. So are a file's bytes.

use std::collections::{BTreeMap, BTreeSet};

use crate::blocks::{DIRECTORY, FILE};
use crate::disk::Disk;
use crate::kinds::first_misfit_of_file;
use crate::lookup::{Found, LONGEST_PATH};
use crate::names::{fold, hash, same, slot, LONGEST};
use crate::program::Refusal;
use crate::rng::Rng;
use crate::sizes::held;
use crate::volumes::{any_name, lookalike, recased, Entry, Kind, Volume};
use crate::words::TABLE;

/// A path, and what is to be said of it.
#[derive(Clone, Debug)]
pub struct Question {
    /// Why it is asked.
    pub what: &'static str,
    /// The path.
    pub path: Vec<u8>,
    /// The answer due on the volume as it is.
    pub due: Result<Found, Refusal>,
}

impl Question {
    /// The path of these components, due for an answer if it is not too long.
    fn new(what: &'static str, components: &[Vec<u8>], due: Result<Found, Refusal>) -> Question {
        let path = components.join(&b'/');
        let due = if path.len() > LONGEST_PATH { Err(Refusal::at(18, 0)) } else { due };
        Question { what, path, due }
    }
}

/// Another name for the same slot, which a reader that folds too much takes for this one: bytes that have no other case
/// on the disk are changed as a letter is by folding.
pub fn unfolded(rng: &mut Rng, disk: &Disk, name: &[u8]) -> Option<Vec<u8>> {
    let changes = |byte: u8| fold(disk, byte) != fold(disk, byte ^ 0x20) && !b"/:".contains(&(byte ^ 0x20));
    (0..500).find_map(|_| {
        let mut other = name.to_vec();
        other.iter_mut().filter(|byte| changes(**byte)).for_each(|byte| *byte ^= rng.pick(&[0, 0x20]));
        (other != name && slot(disk, &other) == slot(disk, name)).then_some(other)
    })
}

/// Names for the same slot that begin like this one, or that this one begins with.
fn akin(disk: &Disk, name: &[u8]) -> Vec<Vec<u8>> {
    let longer = (0..=255).filter(|byte| !b"/:".contains(byte)).map(|byte| [name, &[byte]].concat());
    let shorter = (1..name.len()).map(|length| name[..length].to_vec());
    let fits = |other: &Vec<u8>| other.len() <= LONGEST && slot(disk, other) == slot(disk, name);
    longer.take_while(|other| other.len() <= LONGEST).chain(shorter).filter(fits).collect()
}

/// The entries of a volume by their paths. A directory is given by its number, the root by none.
pub struct Paths<'a> {
    /// The volume.
    pub volume: &'a Volume,
    numbers: BTreeMap<u32, usize>,
}

impl<'a> Paths<'a> {
    /// The paths of this volume.
    pub fn new(volume: &'a Volume) -> Paths<'a> {
        let numbers = volume.entries.iter().enumerate().map(|(number, entry)| (entry.key, number));
        Paths { volume, numbers: numbers.collect() }
    }

    /// The entries on the way from the root to this one, which is the last of them.
    fn way(&self, number: usize) -> Vec<&'a Entry> {
        let mut last = &self.volume.entries[number];
        let mut way = vec![last];
        while let Some(&above) = self.numbers.get(&last.directory) {
            last = &self.volume.entries[above];
            way.push(last);
        }
        way.reverse();
        way
    }

    /// The names on the way to an entry, its own included.
    pub fn components(&self, number: Option<usize>) -> Vec<Vec<u8>> {
        let way = number.map_or_else(Vec::new, |number| self.way(number));
        way.iter().map(|entry| entry.name.clone()).collect()
    }

    /// The path of an entry, too long or not.
    pub fn path(&self, number: usize) -> Vec<u8> {
        self.components(Some(number)).join(&b'/')
    }

    /// Whether its path is short enough for it to be found.
    pub fn is_within_reach(&self, number: usize) -> bool {
        self.path(number).len() <= LONGEST_PATH
    }

    /// What is found under its path.
    pub fn found(&self, number: usize) -> Found {
        let entry = &self.volume.entries[number];
        let kind = if entry.kind == Kind::Directory { DIRECTORY } else { FILE };
        let compared = self.way(number).iter().map(|entry| entry.place() + 1).sum();
        Found { kind, key: entry.key, size: entry.size(), compared }
    }

    /// The bytes of a file.
    pub fn contents(&self, number: usize) -> Vec<u8> {
        self.contents_on(&self.volume.disk, number).expect("a good file")
    }

    /// The bytes that a file has if the tag is that of another disk, or what a read of it is due for.
    pub fn contents_on(&self, disk: &Disk, number: usize) -> Result<Vec<u8>, Refusal> {
        let entry = &self.volume.entries[number];
        let part = |(&key, number)| {
            let bytes = held(disk, entry.size(), number) as usize;
            self.volume.block(key)[disk.data_start()..][..bytes].iter().copied()
        };
        match first_misfit_of_file(self.volume, disk, number) {
            Some(refusal) => Err(refusal),
            None => Ok(entry.data.iter().zip(1..).flat_map(part).collect()),
        }
    }

    /// The entries in a directory.
    fn inside(&self, within: Option<usize>) -> Vec<&'a Entry> {
        let key = within.map_or(self.volume.disk.root(), |number| self.volume.entries[number].key);
        self.volume.entries.iter().filter(|entry| entry.directory == key).collect()
    }

    /// A name of which this holds and which no entry of the directory bears.
    pub fn new_name(&self, rng: &mut Rng, within: Option<usize>, holds: impl Fn(&[u8]) -> bool) -> Vec<u8> {
        loop {
            let name = any_name(rng);
            if holds(&name) && !self.has(within, &name) {
                return name;
            }
        }
    }

    /// Whether an entry of the directory bears this name.
    fn has(&self, within: Option<usize>, name: &[u8]) -> bool {
        self.inside(within).iter().any(|entry| same(&self.volume.disk, &entry.name, name))
    }

    /// The root.
    pub fn root(&self) -> Question {
        let root = Found { kind: DIRECTORY, key: self.volume.disk.root(), size: 0, compared: 0 };
        Question::new("the empty path", &[], Ok(root))
    }

    /// An entry by its path, in any case.
    pub fn existing(&self, rng: &mut Rng, number: usize) -> Question {
        let disk = &self.volume.disk;
        let components: Vec<_> =
            self.components(Some(number)).iter().map(|name| recased(rng, disk, name)).collect();
        Question::new("an entry", &components, Ok(self.found(number)))
    }

    /// What a path of these components leads to if the tag is that of another disk. The chains stay as they are, and in
    /// them each entry has to hang rightly for that disk.
    pub fn on(&self, disk: &Disk, components: &[Vec<u8>]) -> Result<Found, Refusal> {
        let (mut last, mut compared) = (None, 0);
        for (place, name) in components.iter().enumerate() {
            if last.is_some_and(|number: usize| self.volume.entries[number].kind != Kind::Directory) {
                return Err(Refusal::at(20, place - 1));
            }
            let mut chain: Vec<&Entry> = self.inside(last);
            chain.retain(|entry| entry.slot == slot(disk, name));
            chain.sort_by_key(|entry| entry.place());
            let met = chain.iter().position(|entry| same(disk, &entry.name, name));
            let passed = &chain[..met.map_or(chain.len(), |met| met + 1)];
            if let Some(entry) = passed.iter().find(|entry| slot(disk, &entry.name) != entry.slot) {
                return Err(Refusal::at(12, entry.key as usize));
            }
            let met = met.ok_or(Refusal::at(19, place))?;
            compared += met as u32 + 1;
            last = Some(self.numbers[&chain[met].key]);
        }
        let found = last.map_or(self.root().due, |number| Ok(self.found(number)))?;
        Ok(Found { compared, ..found })
    }

    /// A name that a directory lacks, at times with more after it.
    fn lacking(&self, rng: &mut Rng, what: &'static str, within: Option<usize>, name: &[u8]) -> Question {
        let mut components = self.components(within);
        let place = components.len();
        components.push(name.to_vec());
        components.extend((0..rng.pick(&[0, 0, 1, 3])).map(|_| any_name(rng)));
        Question::new(what, &components, Err(Refusal::at(19, place)))
    }

    /// Names that a directory lacks: near to those that it has, and far from them.
    pub fn missing(&self, rng: &mut Rng, within: Option<usize>) -> Vec<Question> {
        let (disk, inside) = (&self.volume.disk, self.inside(within));
        let mut names = vec![("any name", self.new_name(rng, within, |_| true))];
        names.push(("a longest name", self.new_name(rng, within, |name| name.len() == LONGEST)));
        let used: BTreeSet<u32> = inside.iter().map(|entry| entry.slot).collect();
        if used.len() < TABLE as usize {
            names.push(("an empty slot", self.new_name(rng, within, |name| !used.contains(&slot(disk, name)))));
        }
        if !inside.is_empty() {
            let near = &rng.pick(&inside).name;
            let [in_use, hashed] = [slot(disk, near), hash(disk, near)];
            names.push(("a slot in use", self.new_name(rng, within, |name| slot(disk, name) == in_use)));
            names.push(("an entry's hash", self.new_name(rng, within, |name| hash(disk, name) == hashed)));
            names.extend(unfolded(rng, disk, near).map(|name| ("not to be folded", name)));
            names.push(("other accents", lookalike(rng, near)));
            let akin = akin(disk, near);
            let picks = (0..akin.len().min(2)).map(|_| akin[rng.below(akin.len() as u64) as usize].clone());
            names.extend(picks.map(|name| ("longer or shorter", name)));
        }
        let elsewhere = self.volume.entries.iter().map(|entry| entry.name.clone()).take(3);
        names.extend(elsewhere.map(|name| ("a name from elsewhere", name)));
        names.retain(|(_, name)| !self.has(within, name));
        names.iter().map(|(what, name)| self.lacking(rng, what, within, name)).collect()
    }

    /// A file taken for a directory.
    pub fn past_file(&self, rng: &mut Rng, number: usize) -> Question {
        let mut components = self.components(Some(number));
        let place = components.len() - 1;
        components.extend((0..rng.pick(&[1, 1, 2])).map(|_| any_name(rng)));
        Question::new("past a file", &components, Err(Refusal::at(20, place)))
    }

    /// A path of exactly this length that leads out of a directory to where nothing is.
    pub fn of_length(&self, rng: &mut Rng, within: Option<usize>, length: usize) -> Question {
        let mut components = self.components(within);
        let place = components.len();
        let before = if place == 0 { 0 } else { components.join(&b'/').len() + 1 };
        // one byte cannot be left over, for a slash and a name come to two
        let fits = |name: &[u8]| name.len() < 9 && before + name.len() + 1 != length;
        components.push(self.new_name(rng, within, fits));
        loop {
            let left = length.saturating_sub(components.join(&b'/').len());
            let bytes = match left {
                0 => break,
                LONGEST_AND_TWO => LONGEST - 1,
                _ => LONGEST.min(left - 1),
            };
            components.push(vec![b'n'; bytes]);
        }
        Question::new("of some length", &components, Err(Refusal::at(19, place)))
    }
}

/// A slash and a longest name leave one byte of these.
const LONGEST_AND_TWO: usize = LONGEST + 2;

/// Components that no path may have, but for the empty one.
fn bad_components(rng: &mut Rng) -> Vec<Vec<u8>> {
    let length = LONGEST + 2 + rng.below(60) as usize;
    let mut colon = any_name(rng);
    let place = rng.below(colon.len() as u64) as usize;
    colon[place] = b':';
    vec![vec![b'l'; LONGEST + 1], vec![b'l'; length], colon, b":".to_vec(), b"df0:".to_vec(), b":c".to_vec()]
}

/// Paths of bad form, made from the components of a good one.
pub fn bad_forms(rng: &mut Rng, components: &[Vec<u8>]) -> Vec<Question> {
    let bad = |what, components: &[Vec<u8>], place| Question::new(what, components, Err(Refusal::at(18, place)));
    let mut questions =
        vec![bad("a slash", &[vec![], vec![]], 0), bad("two slashes", &[vec![], vec![], vec![]], 0)];
    let count = components.len();
    let any = rng.below(count as u64 + 1) as usize;
    // an empty component alone is no component
    for place in [0, any, count].into_iter().filter(|_| count > 0) {
        let mut path = components.to_vec();
        path.insert(place, Vec::new());
        questions.push(bad("an empty component", &path, place));
    }
    for component in bad_components(rng) {
        let place = rng.below(count as u64 + 1) as usize;
        let mut path = components.to_vec();
        path.insert(place, component);
        questions.push(bad("a bad component", &path, place));
        let second = place + 1 + rng.below((count - place) as u64 + 1) as usize;
        path.insert(second, rng.pick(&[&b":"[..], b"", &[b'l'; LONGEST + 1]]).to_vec());
        questions.push(bad("two bad components", &path, place));
    }
    questions
}

/// Offsets in a file of this size at which something changes, and far past it.
pub fn telling_offsets(disk: &Disk, size: u32) -> Vec<u32> {
    let full = disk.data_bytes();
    let last = size.saturating_sub(1) / full * full;
    let around = [1, full, TABLE * full, 2 * TABLE * full, last, size].into_iter();
    let around = around.flat_map(|place| [place.wrapping_sub(1), place, place + 1]);
    let offsets: BTreeSet<u32> = around.chain([0, 1 << 31, u32::MAX - 1, u32::MAX]).collect();
    offsets.into_iter().collect()
}

/// Offsets that four bytes do not hold: such that cut to four bytes they would lie in the file or at its end, such
/// that a sum with some length would wrap, and the largest.
pub fn far_offsets(disk: &Disk, size: u32) -> Vec<usize> {
    let (full, size, far) = (disk.data_bytes() as usize, size as usize, 1_usize << 32);
    let around =
        [far + size, far + full, 2 * far, far << 15, usize::MAX / 2, usize::MAX - size, usize::MAX - full];
    let around = around.into_iter().flat_map(|place| [place - 1, place, place.saturating_add(1)]);
    let offsets: BTreeSet<usize> = around.chain([far, far + 1, usize::MAX - 1, usize::MAX]).collect();
    offsets.into_iter().filter(|&offset| offset >= far).collect()
}

/// Lengths of an output for which so many bytes are left in a file.
pub fn telling_rooms(disk: &Disk, left: usize) -> Vec<usize> {
    let full = disk.data_bytes() as usize;
    let rooms = [0, 1, 2, full - 1, full, full + 1, left.saturating_sub(1), left, left + 1, left + 300];
    rooms.into_iter().collect::<BTreeSet<usize>>().into_iter().collect()
}

#[cfg(test)]
mod tests {
    use super::*;
    use crate::disk::{ANY, FLOPPY, HIGH_DENSITY};
    use crate::lookup::find;
    use crate::names::valid;
    use crate::reading::read;
    use crate::sizes::largest_file;
    use crate::volumes::{any_style, mixed};

    const DISK: Disk = Disk::OLD;

    fn volume(rng: &mut Rng, disk: &Disk) -> Volume {
        let plan = mixed(rng, disk, 120);
        let style = any_style(rng);
        Volume::new(rng, &plan, style)
    }

    #[test]
    fn names_that_are_the_same_and_names_that_only_look_so() {
        let mut rng = Rng::new(110);
        for disk in Disk::FLOPPIES {
            let slot = |name: &[u8]| slot(&disk, name);
            let (mut changed, mut accents, mut high) = (0, 0, 0);
            let differ = |one: &[u8], other: &[u8]| one.iter().zip(other).any(|(&a, &b)| a != b && a >= 0xC0);
            for _ in 0..500 {
                let name = any_name(&mut rng);
                let other = recased(&mut rng, &disk, &name);
                assert!(same(&disk, &name, &other), "{name:?} {other:?}");
                changed += usize::from(name != other);
                accents += usize::from(differ(&name, &other));
                let Some(other) = unfolded(&mut rng, &disk, &name) else { continue };
                assert!(valid(&other) && slot(&name) == slot(&other), "{name:?} {other:?}");
                assert!(!same(&disk, &name, &other), "{name:?} {other:?}");
                high += usize::from(differ(&name, &other));
            }
            assert!(changed > 200 && high > 50, "{changed} changed, {high} unfolded above BF");
            let wanted = if disk.is_international() { 101..=500 } else { 0..=0 };
            assert!(wanted.contains(&accents), "{accents} accents changed");
            assert!(akin(&disk, b"abc").iter().all(|other| slot(other) == slot(b"abc") && other != b"abc"));
            assert!(akin(&disk, b"abc").iter().any(|other| other.len() == 4));
            assert!(akin(&disk, &[b'x'; LONGEST]).iter().all(|other| other.len() < LONGEST));
        }
    }

    /// What is due is known from the volume, and a lookup says the same.
    #[test]
    fn every_question_is_answered_as_is_due() {
        let mut rng = Rng::new(111);
        let mut met = BTreeMap::new();
        for disk in [&[Disk::FLOPPIES; 5].concat()[..], &Disk::of_blocks(HIGH_DENSITY)].concat() {
            let volume = volume(&mut rng, &disk);
            let paths = Paths::new(&volume);
            let mut questions = vec![paths.root()];
            for number in 0..volume.entries.len() {
                questions.push(paths.existing(&mut rng, number));
                let is_directory = volume.entries[number].kind == Kind::Directory;
                match is_directory {
                    true => questions.extend(paths.missing(&mut rng, Some(number))),
                    false => questions.push(paths.past_file(&mut rng, number)),
                }
                questions.extend(bad_forms(&mut rng, &paths.components(Some(number))));
            }
            questions.extend(paths.missing(&mut rng, None));
            for Question { what, path, due } in &questions {
                let named = rng.pick(&[ANY, disk.blocks]);
                assert_eq!(find(named, &volume.image, path), *due, "{what}: {path:?}");
                *met.entry((disk.kind, *what)).or_insert(0) += 1;
            }
        }
        let rare: Vec<_> = met.iter().filter(|(_, &times)| times < 6).collect();
        assert!(rare.is_empty() && met.len() == 4 * 17, "{rare:?} of {met:?}");
    }

    /// The same bytes under the tags of all other kinds. Where these fold otherwise, some paths still lead somewhere,
    /// on some there is an entry that hangs wrongly, and some lead nowhere; else all lead where they did.
    #[test]
    fn paths_on_a_disk_of_another_kind() {
        let mut rng = Rng::new(114);
        let mut met = BTreeMap::new();
        for disk in [&[Disk::FLOPPIES; 7].concat()[..], &Disk::of_blocks(HIGH_DENSITY)].concat() {
            let volume = volume(&mut rng, &disk);
            let paths = Paths::new(&volume);
            for kind in disk.others().chain([disk]) {
                let mut image = volume.image.clone();
                image[..4].copy_from_slice(&kind.boot_tag());
                for number in (0..volume.entries.len()).filter(|&number| paths.is_within_reach(number)) {
                    let components = paths.components(Some(number));
                    let again: Vec<_> = components.iter().map(|name| recased(&mut rng, &kind, name)).collect();
                    for components in [&components, &again] {
                        let due = paths.on(&kind, components);
                        assert_eq!(find(disk.blocks, &image, &components.join(&b'/')), due, "{components:?}");
                        let number = due.map_or_else(|refusal| refusal.number, |_| 0);
                        *met.entry((disk.is_international(), kind.is_international(), number)).or_insert(0) += 1;
                    }
                }
            }
        }
        let changed = [0, 12, 19].map(|number| [(false, true, number), (true, false, number)]).concat();
        let often = |answer| met.get(&answer).is_some_and(|&times| times > 20);
        assert!([(false, false, 0), (true, true, 0)].into_iter().chain(changed).all(often), "{met:?}");
        assert!(met.keys().all(|(from, to, number)| from != to || *number == 0), "{met:?}");
    }

    /// Files read under every tag: what is due is known from the volume, and a read says the same. In another file
    /// system some have the same number of blocks and other bytes, and some are refused.
    #[test]
    fn files_on_a_disk_of_another_kind() {
        let mut rng = Rng::new(115);
        let mut met: BTreeMap<(bool, bool), BTreeMap<u32, u32>> = BTreeMap::new();
        for disk in [&[Disk::FLOPPIES; 18].concat()[..], &Disk::of_blocks(HIGH_DENSITY)].concat() {
            let volume = volume(&mut rng, &disk);
            let paths = Paths::new(&volume);
            for kind in disk.others().chain([disk]) {
                let mut image = volume.image.clone();
                image[..4].copy_from_slice(&kind.boot_tag());
                let is_file = |&number: &usize| matches!(volume.entries[number].kind, Kind::File(_));
                for number in (0..volume.entries.len()).filter(is_file) {
                    let components = paths.components(Some(number));
                    let Ok(found) = paths.on(&kind, &components) else { continue };
                    let path = components.join(&b'/');
                    if path.len() > LONGEST_PATH || found.key != volume.entries[number].key {
                        continue;
                    }
                    let due = paths.contents_on(&kind, number);
                    let mut output = vec![0xAA; found.size as usize + 5];
                    let count = read(ANY, &image, &path, 0, &mut output);
                    assert_eq!(count, due.as_ref().map(Vec::len).map_err(|refusal| *refusal), "{path:?}");
                    let bytes = due.as_deref().unwrap_or(&[]);
                    assert!(
                        output[..bytes.len()] == *bytes && output[bytes.len()..].iter().all(|&byte| byte == 0xAA)
                    );
                    let number = due.map_or_else(|refusal| refusal.number, |_| 0);
                    let rules = (disk.has_data_words(), kind.has_data_words());
                    *met.entry(rules).or_default().entry(number).or_default() += 1;
                }
            }
        }
        let numbers = [
            ((false, false), vec![0]),
            ((false, true), vec![0, 7, 8, 14, 15]),
            ((true, false), vec![0, 14]),
            ((true, true), vec![0]),
        ];
        assert!(met.iter().map(|(rules, met)| (*rules, met.keys().copied().collect())).eq(numbers), "{met:?}");
        assert!(met.values().flat_map(|met| met.values()).all(|&times| times >= 10), "{met:?}");
    }

    #[test]
    fn paths_of_every_length() {
        let mut rng = Rng::new(112);
        let volume = volume(&mut rng, &DISK);
        let paths = Paths::new(&volume);
        for length in 40..300 {
            let Question { path, due, .. } = paths.of_length(&mut rng, None, length);
            assert_eq!(path.len(), length);
            assert_eq!(due, Err(if length > 255 { Refusal::at(18, 0) } else { Refusal::at(19, 0) }));
            assert_eq!(find(FLOPPY, &volume.image, &path), due, "{path:?}");
        }
    }

    #[test]
    fn bad_forms_are_bad_in_every_way() {
        let mut rng = Rng::new(113);
        let components = [b"one".to_vec(), b"two".to_vec()];
        let all: BTreeSet<(Vec<u8>, usize)> = (0..50)
            .flat_map(|_| bad_forms(&mut rng, &components))
            .map(|Question { path, due, .. }| (path, due.expect_err("a bad form").place))
            .collect();
        for (path, place) in [
            ("/", 0),
            ("//", 0),
            ("/one/two", 0),
            ("one//two", 1),
            ("one/two/", 2),
            (":/one/two", 0),
            ("one/two/:", 2),
        ] {
            assert!(all.contains(&(path.as_bytes().to_vec(), place)), "{path} at {place}");
        }
        // with nothing to insert into, an empty component would be the empty path
        assert!(bad_forms(&mut rng, &[]).iter().all(|question| !question.path.is_empty()));
    }

    #[test]
    fn offsets_and_rooms_at_both_sides_of_every_end() {
        for (disk, full, table) in [(DISK, 488, 35_136), (Disk::FAST, 512, 36_864)] {
            let offsets = telling_offsets(&disk, table + 1);
            for end in [full, table, table + 1] {
                assert!([end - 1, end, end + 1].iter().all(|offset| offsets.contains(offset)), "{end}");
            }
            assert!([0, 1, 2 * table - 1, u32::MAX].iter().all(|offset| offsets.contains(offset)));
            assert!(telling_offsets(&disk, 0).contains(&1));
            for size in [0, 1, full - 1, full, table + 1, largest_file(&disk)] {
                let (far, size) = (far_offsets(&disk, size), size as usize);
                assert!(far.iter().all(|&offset| offset > u32::MAX as usize));
                assert!(far.contains(&(1 << 32)) && far.contains(&usize::MAX), "{size}");
                assert!(size == 0 || far.iter().any(|&offset| (offset as u32 as usize) < size), "{size}");
                assert!(far.iter().any(|&offset| offset.wrapping_add(size + 1) < offset), "{size}");
            }
        }
        assert_eq!(telling_rooms(&DISK, 1_000), [0, 1, 2, 487, 488, 489, 999, 1_000, 1_001, 1_300]);
        assert_eq!(telling_rooms(&DISK, 0), [0, 1, 2, 300, 487, 488, 489]);
        assert_eq!(telling_rooms(&Disk::FAST, 0), [0, 1, 2, 300, 511, 512, 513]);
    }
}
