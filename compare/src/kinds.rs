//! The bytes of a volume under the tag of a disk of another kind.
//!
//! Names may hang elsewhere there or be the same, sizes may ask for another number of blocks, and data blocks may be
//! asked for words. All of it is known from the volume, so what an audit or a read is due for is known without one. Up
//! to the first block that does not fit, the walk is the one that the volume knows.

use std::collections::BTreeSet;

use crate::audit::Report;
use crate::bad_volumes::Patch;
use crate::disk::Disk;
use crate::names::{folded, slot};
use crate::program::Refusal;
use crate::sizes::{data_blocks, held, keys_here, keys_left};
use crate::volumes::{Entry, Met, Part, Volume};
use crate::words::{sum, word, TABLE};

/// What a table of a file with so many data keys has to say: how many of them it lists, and whether another table
/// comes. Table 0 is the header, the others are list blocks.
pub fn shape(keys: u32, table: usize) -> (u32, bool) {
    let to_come = keys.saturating_sub(table as u32 * TABLE);
    (keys_here(to_come), keys_left(to_come) > 0)
}

/// What is wrong with an entry's name on this disk, or 0: there it has another slot, or is one of the names before it.
fn name_fault(disk: &Disk, entry: &Entry, before: &mut BTreeSet<(u32, Vec<u8>)>) -> u32 {
    let is_new = before.insert((entry.directory, folded(disk, &entry.name)));
    match slot(disk, &entry.name) == entry.slot {
        false => 12,
        true if !is_new => 13,
        true => 0,
    }
}

/// What is wrong with a table of a file on this disk, or 0: there the size is too large, or asks for other keys.
fn table_fault(volume: &Volume, disk: &Disk, entry: &Entry, table: usize) -> u32 {
    let size = entry.size();
    let fits = shape(data_blocks(disk, size), table) == shape(entry.data.len() as u32, table);
    // an empty file may name a data block where no one looks
    let is_asked = disk.has_data_words() && entry.data.is_empty();
    let starts = !is_asked || word(volume.block(entry.key), 4) == 0;
    if size <= disk.file_limit() && fits && starts {
        0
    } else {
        14
    }
}

/// What is wrong with a data block of a file on this disk, or 0.
fn data_fault(volume: &Volume, disk: &Disk, entry: &Entry, index: usize) -> u32 {
    let key = entry.data[index];
    let block = volume.block(key);
    let before = if index == 0 { entry.key } else { entry.data[index - 1] };
    let number = index as u32 + 1;
    let words = [entry.key, number, held(disk, entry.size(), number)];
    let is_right = (1..4).zip(words).all(|(index, value)| word(block, index) == value);
    let is_next = word(volume.block(before), 4) == key;
    let goes_on = index + 1 < entry.data.len() || word(block, 4) == 0;
    match disk.has_data_words() {
        false => 0,
        true if sum(block) != 0 => 7,
        true if word(block, 0) != 8 => 8,
        true if !(is_right && is_next && goes_on) => 15,
        true => 0,
    }
}

/// What is wrong with a block on this disk, or 0; names are left out.
fn fault(volume: &Volume, disk: &Disk, part: Part) -> u32 {
    match part {
        Part::Root | Part::Bitmap | Part::Directory(_) => 0,
        Part::File(number) => table_fault(volume, disk, &volume.entries[number], 0),
        Part::List(number, index) => table_fault(volume, disk, &volume.entries[number], index + 1),
        Part::Data(number, index) => data_fault(volume, disk, &volume.entries[number], index),
    }
}

fn refusal(number: u32, key: u32) -> Option<Refusal> {
    (number != 0).then_some(Refusal::at(number, key as usize))
}

/// What an audit is due for if the volume lies on this disk: for the first block, in the order of the walk, that is not
/// in order there.
pub fn first_misfit(volume: &Volume, disk: &Disk) -> Option<Refusal> {
    let mut names = BTreeSet::new();
    volume.order.iter().find_map(|&Met { key, part }| {
        let named = match part {
            Part::Directory(number) | Part::File(number) => name_fault(disk, &volume.entries[number], &mut names),
            _ => 0,
        };
        refusal(named, key).or_else(|| refusal(fault(volume, disk, part), key))
    })
}

/// What a read of a file is due for if the volume lies on this disk and the file is found there.
pub fn first_misfit_of_file(volume: &Volume, disk: &Disk, number: usize) -> Option<Refusal> {
    let entry = &volume.entries[number];
    let start = volume.position(entry.key).expect("a file of the volume");
    let own = &volume.order[start..][..1 + entry.lists.len() + entry.data.len()];
    own.iter().find_map(|&Met { key, part }| refusal(fault(volume, disk, part), key))
}

/// The patch that gives a volume the tag of a disk of another kind, and the answer that an audit is due for then.
pub fn retagged(volume: &Volume, disk: &Disk) -> (Patch, Result<Report, Refusal>) {
    let due = first_misfit(volume, disk).map_or(Ok(volume.report()), Err);
    ((0, disk.boot_tag().to_vec()), due)
}

#[cfg(test)]
mod tests {
    use super::*;
    use crate::bad_volumes::apply;
    use crate::declared::agreed;
    use crate::disk::{claim_length, SIZES};
    use crate::rng::Rng;
    use crate::volumes::{alike, any_style, chain, empty, files, mixed, Filling, Kind, Order, Plan, Style};
    use crate::words::{mend, put, BLOCK_BYTES};
    use std::collections::BTreeMap;

    /// The answer of both opinions on the volume with these patches.
    fn judged(volume: &Volume, patches: &[Patch]) -> Result<Report, Refusal> {
        let mut image = volume.image.clone();
        apply(patches, &mut image);
        let blocks = volume.disk.blocks;
        agreed(blocks, &image, &mut vec![0xAA; claim_length(blocks)])
    }

    fn laid_out(rng: &mut Rng, plan: &Plan) -> Volume {
        let style = any_style(rng);
        Volume::new(rng, plan, style)
    }

    /// Every number that can be due from each kind to each other one, and no other.
    fn numbers(from: &Disk, to: &Disk) -> Vec<u32> {
        // an international disk has no pairs of names that a plain one would have for one
        let of_names: &[u32] = match (from.is_international(), to.is_international()) {
            (false, true) => &[12, 13],
            (true, false) => &[12],
            _ => &[],
        };
        let of_data: &[u32] = match (from.has_data_words(), to.has_data_words()) {
            (true, false) => &[14],
            (false, true) => &[7, 8, 14, 15],
            _ => &[],
        };
        let mut all = [&[0], of_names, of_data].concat();
        all.sort();
        all
    }

    /// The same bytes under all other tags: what is due is known from the volume, and an audit says the same.
    #[test]
    fn the_same_bytes_on_a_disk_of_another_kind() {
        let mut rng = Rng::new(89);
        let mut met: BTreeMap<(u8, u8), BTreeMap<u32, u32>> = BTreeMap::new();
        for round in 0..120 {
            // one round in four on larger disks
            let blocks = SIZES[usize::from(round / 6 % 4 == 3)];
            for disk in &Disk::of_blocks(blocks) {
                let pairs = if disk.is_international() { 0 } else { round / 6 % 3 };
                let small = 1 + rng.below(900) as u32;
                let plan = match round % 6 {
                    0 => alike(&mut rng, disk, 12, pairs),
                    1 => mixed(&mut rng, disk, 40),
                    2 => chain(&mut rng, disk, 3),
                    3 => files(&mut rng, disk, &[small]),
                    4 => {
                        // more blocks in the one file system; with the last size both have a list block
                        let mut plan = empty(disk);
                        let size = rng.pick(&[489, 500, 512, 35_200, 36_900]);
                        plan.add_named(None, b"file", Kind::File(size));
                        plan
                    }
                    _ => alike(&mut rng, disk, 2, 0),
                };
                let volume = laid_out(&mut rng, &plan);
                for other in disk.others() {
                    let (patch, due) = retagged(&volume, &other);
                    assert_eq!(judged(&volume, &[patch]), due, "from {} to {}", disk.kind, other.kind);
                    let number = due.map_or_else(|refusal| refusal.number, |_| 0);
                    *met.entry((disk.kind, other.kind)).or_default().entry(number).or_default() += 1;
                }
            }
        }
        for disk in &Disk::FLOPPIES {
            for other in disk.others() {
                let found = &met[&(disk.kind, other.kind)];
                assert!(
                    found.keys().copied().eq(numbers(disk, &other)),
                    "{} {}: {found:?}",
                    disk.kind,
                    other.kind
                );
                assert!(found.values().all(|&times| times >= 2), "{} {}: {found:?}", disk.kind, other.kind);
            }
        }
    }

    /// A file of 488 bytes is as good on a disk of the other file system if that finds its words there, or asks for
    /// none; one of 489 to 512 bytes has two blocks in the one and one in the other.
    #[test]
    fn one_file_in_either_file_system() {
        let mut rng = Rng::new(66);
        for (old, fast) in SIZES.map(|blocks| (Disk::OLD.with_blocks(blocks), Disk::FAST.with_blocks(blocks))) {
            for (size, counts_agree) in
                [(0, true), (1, true), (488, true), (489, false), (512, false), (513, true)]
            {
                for (from, to) in [(old, fast), (fast, old)] {
                    let plan = files(&mut rng, &from, &[size]);
                    let style = Style { filling: Filling::Old, order: Order::Shuffled };
                    let volume = Volume::new(&mut rng, &plan, style);
                    let key = volume.entries[0].key;
                    let due = if counts_agree { Ok(volume.report()) } else { Err(Refusal::at(14, key as usize)) };
                    let (patch, known) = retagged(&volume, &to);
                    assert_eq!(known, due, "{size} bytes");
                    assert_eq!(judged(&volume, &[patch]), due, "{size} bytes");
                }
            }
        }
    }

    /// What the old file system asks of a file's words and the other does not, one by one.
    #[test]
    fn words_that_one_file_system_asks_for() {
        let mut rng = Rng::new(65);
        let plan = files(&mut rng, &Disk::FAST, &[600]);
        let mut volume = Volume::new(&mut rng, &plan, Style { filling: Filling::Old, order: Order::Rising });
        let entry = volume.entries[0].clone();
        let [header, first, last] = [entry.key, entry.data[0], entry.data[1]];
        let [old, fast] = [Disk::OLD, Disk::FAST].map(|disk| disk.boot_tag());
        for (key, index, number, place) in [
            (header, 4, 15, first),
            (first, 0, 8, first),
            (first, 1, 15, first),
            (first, 2, 15, first),
            (first, 3, 15, first),
            (first, 4, 15, last),
            (first, 5, 7, first),
            (first, 127, 7, first),
            (last, 3, 15, last),
            (last, 4, 15, last),
            (last, 100, 7, last),
        ] {
            let good = volume.image.clone();
            let block = &mut volume.image[key as usize * BLOCK_BYTES..][..BLOCK_BYTES];
            put(block, index, word(block, index) ^ 0x101);
            // where 7 is due the sum stays wrong
            if number != 7 {
                mend(block, 5);
            }
            assert_eq!(judged(&volume, &[(0, fast.to_vec())]), Ok(volume.report()), "{key} w{index}");
            let due = Err(Refusal::at(number, place as usize));
            assert_eq!(judged(&volume, &[(0, old.to_vec())]), due, "{key} w{index}");
            assert_eq!(retagged(&volume, &Disk::OLD).1, due, "{key} w{index}");
            volume.image = good;
        }
        // an empty file's w4
        let plan = files(&mut rng, &Disk::FAST, &[0]);
        let mut volume = Volume::new(&mut rng, &plan, Style { filling: Filling::Old, order: Order::Rising });
        let key = volume.entries[0].key;
        assert_eq!(judged(&volume, &[(0, old.to_vec())]), Ok(volume.report()));
        let block = &mut volume.image[key as usize * BLOCK_BYTES..][..BLOCK_BYTES];
        put(block, 4, 7);
        mend(block, 5);
        assert_eq!(judged(&volume, &[(0, fast.to_vec())]), Ok(volume.report()));
        assert_eq!(judged(&volume, &[(0, old.to_vec())]), Err(Refusal::at(14, key as usize)));
    }

    /// On a plain disk two names that differ in the case of an accent are two names, and mostly hang apart. On an
    /// international one the second is in the wrong slot where the plain disk had it.
    #[test]
    fn two_names_or_one() {
        let mut rng = Rng::new(67);
        for (small, capital) in [(0xE9, 0xC9), (0xE0, 0xC0), (0xFE, 0xDE), (0xF6, 0xD6)] {
            for (plain, international) in
                [(Disk::OLD, Disk::OLD_INTERNATIONAL), (Disk::FAST, Disk::FAST_INTERNATIONAL)]
            {
                let mut plan = empty(&plain);
                plan.add_named(None, &[capital], Kind::File(0));
                plan.add_named(None, &[small], Kind::Directory);
                let volume = laid_out(&mut rng, &plan);
                let find = |name: u8| volume.entries.iter().find(|entry| entry.name == [name]).unwrap();
                let [one, other] = [find(capital), find(small)];
                assert_ne!(one.slot, other.slot);
                assert_eq!(judged(&volume, &[]), Ok(volume.report()));
                let (patch, _) = retagged(&volume, &international);
                assert_eq!(judged(&volume, &[patch]), Err(Refusal::at(12, other.key as usize)));
            }
        }
        // signs and letters without another case are two names on either
        for (disk, other) in
            [(0, 2), (1, 3), (2, 0), (3, 1)].map(|(one, two)| (Disk::FLOPPIES[one], Disk::FLOPPIES[two]))
        {
            let mut plan = empty(&disk);
            for byte in [0xF7, 0xD7, 0xFF, 0xDF] {
                plan.add_named(None, &[byte], Kind::File(0));
            }
            let volume = laid_out(&mut rng, &plan);
            assert_eq!(judged(&volume, &[]), Ok(volume.report()));
            assert_eq!(retagged(&volume, &other).1, Ok(volume.report()));
        }
    }
}
