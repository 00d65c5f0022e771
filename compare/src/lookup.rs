//! Finding a path on any image, whatever an audit says of it (docs/FORMAT.md, "Paths and reads").
//!
//! A path is first cut into the list of its components, and the list is gone through in a loop. A chain is taken for
//! the sequence of keys that its links give, which may have no end; the search numbers them and knows where to stop.

use std::iter::successors;

use crate::audit::passed;
use crate::blocks::{self, EntryAt, DIRECTORY};
use crate::disk::{settled, Disk};
use crate::names::{name, same, slot, valid};
use crate::program::Refusal;
use crate::words::{slot_word, word, BLOCK_BYTES};

/// The longest path in bytes.
pub const LONGEST_PATH: usize = 255;

/// What a path leads to.
#[derive(Clone, Copy, Debug, PartialEq, Eq)]
pub struct Found {
    /// The last word of a directory, which the root counts as too, or of a file.
    pub kind: u32,
    /// Its key.
    pub key: u32,
    /// The size that a file's header states, right or wrong; 0 for a directory.
    pub size: u32,
    /// How many entry blocks were compared on the way.
    pub compared: u32,
}

/// Finds a path on an image, as [`find`] does, and says what disk it is.
pub(crate) fn find_on(named: u32, image: &[u8], path: &[u8]) -> Result<(Disk, Found), Refusal> {
    let blocks = settled(named, image.len()).ok_or(Refusal::at(1, 0))?;
    let components = components(path)?;
    let disk = Disk::of(blocks, image).ok_or(Refusal::at(3, 0))?;
    let root = disk.root();
    passed(blocks::root(block(image, root)), root)?;

    let mut found = Found { kind: DIRECTORY, key: root, size: 0, compared: 0 };
    for (place, name) in components.into_iter().enumerate() {
        if found.kind != DIRECTORY {
            return Err(Refusal::at(20, place - 1));
        }
        let (key, compared) = search(&disk, image, found.key, name)?.ok_or(Refusal::at(19, place))?;
        found = described(image, key, found.compared + compared);
    }
    Ok((disk, found))
}

/// Finds a path on an image, of which the call names the number of blocks or none, and which says itself of what kind
/// it is.
pub fn find(named: u32, image: &[u8], path: &[u8]) -> Result<Found, Refusal> {
    find_on(named, image, path).map(|(_, found)| found)
}

/// The components of a path of good form; the empty path has none.
fn components(path: &[u8]) -> Result<Vec<&[u8]>, Refusal> {
    if path.len() > LONGEST_PATH {
        return Err(Refusal::at(18, 0));
    }
    let pieces = path.split(|&byte| byte == b'/');
    let components: Vec<&[u8]> = if path.is_empty() { Vec::new() } else { pieces.collect() };
    match components.iter().position(|component| !valid(component)) {
        Some(place) => Err(Refusal::at(18, place)),
        None => Ok(components),
    }
}

/// The entry of a directory that bears this name, and its place on its chain counted from 1; `None` if the chain
/// ends without one.
fn search(disk: &Disk, image: &[u8], directory: u32, wanted: &[u8]) -> Result<Option<(u32, u32)>, Refusal> {
    let slot = slot(disk, wanted);
    for (key, place) in chain(disk, image, directory, slot).zip(1..) {
        let block = led_to(disk, image, key)?;
        passed(if place <= disk.chain_limit() { 0 } else { 6 }, key)?;
        passed(blocks::entry(disk, block, EntryAt { key, directory, slot }), key)?;
        if name(block).is_some_and(|name| same(disk, name, wanted)) {
            return Ok(Some((key, place)));
        }
    }
    Ok(None)
}

/// The keys on a chain, from its slot on and from link to link, as far as they lead to blocks.
fn chain<'a>(disk: &'a Disk, image: &'a [u8], directory: u32, slot: u32) -> impl Iterator<Item = u32> + 'a {
    let link = |key: u32, index: usize| Some(word(block(image, key), index)).filter(|&next| next != 0);
    successors(link(directory, slot_word(slot)), move |&key| {
        disk.keys().contains(&key).then(|| link(key, 124)).flatten()
    })
}

/// What is to be said of an entry.
fn described(image: &[u8], key: u32, compared: u32) -> Found {
    let kind = word(block(image, key), 127);
    let size = if kind == DIRECTORY { 0 } else { blocks::size(block(image, key)) };
    Found { kind, key, size, compared }
}

/// A block of an image that has it.
pub(crate) fn block(image: &[u8], key: u32) -> &[u8] {
    &image[key as usize * BLOCK_BYTES..][..BLOCK_BYTES]
}

/// The block that a reference leads to, if its key is one.
pub(crate) fn led_to<'a>(disk: &Disk, image: &'a [u8], key: u32) -> Result<&'a [u8], Refusal> {
    passed(if disk.keys().contains(&key) { 0 } else { 5 }, key)?;
    Ok(block(image, key))
}

#[cfg(test)]
mod tests {
    use super::*;
    use crate::blocks::FILE;
    use crate::disk::{ANY, FLOPPY, HIGH_DENSITY, SIZES};
    use crate::names::put_name;
    use crate::rng::Rng;
    use crate::volumes::{any_style, chain as one_chain, Kind, Plan, Volume};
    use crate::words::{mend, put};

    fn laid_out(rng: &mut Rng, plan: &Plan) -> Volume {
        let style = any_style(rng);
        Volume::new(rng, plan, style)
    }

    /// A directory with a file in it; two more files on the directory's chain, of which one is after it.
    fn small_on(disk: &Disk) -> Volume {
        let mut rng = Rng::new(120);
        let mut plan = Plan::new(disk);
        plan.add_named(None, b"cp", Kind::File(488));
        let within = Some(plan.add_named(None, b"Mary", Kind::Directory));
        plan.add_named(None, b"dc", Kind::File(3));
        plan.add_named(within, b"Box\xE4", Kind::File(1_000));
        let volume = laid_out(&mut rng, &plan);
        assert_eq!(volume.entries.iter().filter(|entry| entry.slot == 65).count(), 3, "names of Mary's slot");
        volume
    }

    /// The same on an old disk of each size.
    fn smalls() -> [Volume; 2] {
        SIZES.map(|blocks| small_on(&Disk::OLD.with_blocks(blocks)))
    }

    /// What a lookup answers on an image of the volume's disk, whether it names the number of blocks or none.
    fn seek(volume: &Volume, image: &[u8], path: &[u8]) -> Result<Found, Refusal> {
        let answer = find(volume.disk.blocks, image, path);
        assert_eq!(find(ANY, image, path), answer, "{path:?}, no number named");
        answer
    }

    fn key(volume: &Volume, name: &[u8]) -> u32 {
        volume.entries.iter().find(|entry| entry.name == name).expect("an entry").key
    }

    fn in_image(image: &mut [u8], key: u32) -> &mut [u8] {
        &mut image[key as usize * BLOCK_BYTES..][..BLOCK_BYTES]
    }

    /// Puts words into a block and mends its sum.
    fn change(image: &mut [u8], key: u32, words: &[(usize, u32)]) {
        let block = in_image(image, key);
        words.iter().for_each(|&(index, value)| put(block, index, value));
        mend(block, 5);
    }

    fn changed(volume: &Volume, key: u32, words: &[(usize, u32)]) -> Vec<u8> {
        let mut image = volume.image.clone();
        change(&mut image, key, words);
        image
    }

    fn refused(number: u32, place: u32) -> Result<Found, Refusal> {
        Err(Refusal::at(number, place as usize))
    }

    #[test]
    fn entries_are_found_and_blocks_counted() {
        for volume in &smalls() {
            let keys = [&b"cp"[..], b"Mary", b"dc", b"Box\xE4"].map(|name| key(volume, name));
            for (path, kind, key, size, compared) in [
                (&b""[..], DIRECTORY, volume.disk.blocks / 2, 0, 0),
                (b"cp", FILE, keys[0], 488, 1),
                (b"Mary", DIRECTORY, keys[1], 0, 2),
                (b"mARY", DIRECTORY, keys[1], 0, 2),
                (b"DC", FILE, keys[2], 3, 3),
                (b"mary/bOX\xE4", FILE, keys[3], 1_000, 3),
            ] {
                let found = Found { kind, key, size, compared };
                assert_eq!(seek(volume, &volume.image, path), Ok(found), "{path:?}");
            }
        }
    }

    #[test]
    fn what_is_not_there_and_what_is_no_directory() {
        for volume in &smalls() {
            for (path, number, place) in [
                (&b"Mar"[..], 19, 0),
                (b"Mary/", 18, 1),
                (b"Mary/Box\xC4", 19, 1),
                (b"Mary/Box", 19, 1),
                (b"Mary/Mary", 19, 1),
                (b"nobody/Box\xE4/x", 19, 0),
                (b"cp/x", 20, 0),
                (b"dc/cp/x", 20, 0),
                (b"Mary/box\xE4/x", 20, 1),
                (b"Mary/box\xE4/Mary/x", 20, 1),
                (b"Mary/box\xE4/:", 18, 2),
            ] {
                assert_eq!(seek(volume, &volume.image, path), refused(number, place), "{path:?}");
            }
        }
    }

    #[test]
    fn forms_of_paths() {
        let longest = [b'x'; 30];
        let full = [&[&longest[..]; 8].join(&b'/')[..], b"1234567"].join(&b'/');
        let many = [&b"x"[..]; 128].join(&b'/');
        assert_eq!([full.len(), many.len()], [255; 2]);
        let good = [(&b""[..], 0), (b"a", 1), (b"a/b", 2), (&longest, 1), (&full, 9), (&many, 128)];
        for (path, count) in good {
            assert_eq!(components(path).map(|list| list.len()), Ok(count), "{path:?}");
        }
        let over = [&many[..], b"x"].concat();
        let over_and_bad = [b"a//", &many[..]].concat();
        let bad_at_the_end = [&many[..254], b":"].concat();
        let too_long = [&b"a/b/"[..], &[b'x'; 31]].concat();
        for (path, place) in [
            (&b"/"[..], 0),
            (b"//", 0),
            (b"/a", 0),
            (b"a/", 1),
            (b"a//b", 1),
            (b":", 0),
            (b"df0:c", 0),
            (b"a/b/c:", 2),
            (b"a/:/", 1),
            (&too_long, 2),
            (&over, 0),
            (&over_and_bad, 0),
            (&bad_at_the_end, 127),
        ] {
            assert_eq!(components(path), Err(Refusal::at(18, place)), "{path:?}");
        }
    }

    /// Accents are asked for in either case on an international disk, and on a plain one as they stand.
    #[test]
    fn accents_in_the_other_case() {
        for disk in Disk::ALL {
            let volume = &small_on(&disk);
            let key = key(volume, b"Box\xE4");
            let found = |path: &[u8]| seek(volume, &volume.image, path).map(|found| (found.key, found.compared));
            assert_eq!(found(b"mARY/bOX\xE4"), Ok((key, 3)));
            let other = if disk.is_international() { Ok((key, 3)) } else { Err(Refusal::at(19, 1)) };
            assert_eq!(found(b"Mary/Box\xC4"), other);
            assert_eq!(found(b"mary/BOX\xC4"), other);
            assert_eq!(found(b"Mary/Box\x84"), Err(Refusal::at(19, 1)));
        }
    }

    /// The kind is that of the tag: the same bytes, found by the one kind, hang wrongly for the other.
    #[test]
    fn the_tag_says_how_names_fold() {
        for blocks in SIZES {
            let mut plan = Plan::new(&Disk::OLD_INTERNATIONAL.with_blocks(blocks));
            plan.add_named(None, b"\xE0", Kind::File(7));
            tag_says_how_names_fold(&laid_out(&mut Rng::new(122), &plan));
        }
    }

    fn tag_says_how_names_fold(volume: &Volume) {
        let mut image = volume.image.clone();
        let asked = |image: &[u8], path: &[u8]| seek(volume, image, path).map(|found| found.size);
        assert_eq!([&b"\xE0"[..], b"\xC0"].map(|path| asked(&image, path)), [Ok(7); 2]);
        image[3] = 0;
        // in the slot of C0 there is E0, which a plain disk has elsewhere
        let wrong_slot = Err(Refusal::at(12, key(volume, b"\xE0") as usize));
        assert_eq!(asked(&image, b"\xC0"), wrong_slot);
        assert_eq!(asked(&image, b"\xE0"), Err(Refusal::at(19, 0)));
        // the file system is no matter
        image[3] = 1;
        assert_eq!([asked(&image, b"\xC0"), asked(&image, b"\xE0")], [wrong_slot, Err(Refusal::at(19, 0))]);
        image[3] = 3;
        assert_eq!([&b"\xE0"[..], b"\xC0"].map(|path| asked(&image, path)), [Ok(7); 2]);
        for kind in [4, 5, 6, 7, 0x80, 0xFF] {
            image[3] = kind;
            assert_eq!([&b""[..], b"\xE0", b"x"].map(|path| asked(&image, path)), [Err(Refusal::at(3, 0)); 3]);
            assert_eq!(asked(&image, b"x/"), Err(Refusal::at(18, 1)));
        }
    }

    /// All is wrong at first; what is asked first is put right, until the path is found.
    #[test]
    fn everything_in_its_turn() {
        for volume in &smalls() {
            let root = volume.disk.root();
            let words = [(0, 3), (4, 1), (78, 0), (80, 1)];
            let mut image = changed(volume, root, &words);
            in_image(&mut image, root)[432] = 0;
            image[0] = 0;
            assert_eq!(seek(volume, &image[1..], b"Mary/"), refused(1, 0));
            assert_eq!(seek(volume, &[], b"Mary/"), refused(1, 0));
            assert_eq!(seek(volume, &image, b"Mary/"), refused(18, 1));
            assert_eq!(seek(volume, &image, b"Mary"), refused(3, 0));
            image[0] = b'D';
            assert_eq!(seek(volume, &image, b"Mary"), refused(7, root));
            change(&mut image, root, &[]);
            assert_eq!(seek(volume, &image, b""), refused(8, root));
            change(&mut image, root, &[(0, 2)]);
            assert_eq!(seek(volume, &image, b""), refused(4, root));
            change(&mut image, root, &[(4, 0)]);
            assert_eq!(seek(volume, &image, b"nobody"), refused(11, root));
            in_image(&mut image, root)[432] = 1;
            change(&mut image, root, &[]);
            assert_eq!(seek(volume, &image, b"nobody"), refused(19, 0));
            assert_eq!(seek(volume, &image, b"Mary").map(|found| found.key), Ok(key(volume, b"Mary")));
        }
    }

    /// A bad entry stops the search for itself and for those after it, not for those before it.
    #[test]
    fn an_entry_is_tested_before_its_name_is_compared() {
        for volume in &smalls() {
            let bad = key(volume, b"Mary");
            for (number, words) in [
                (8, &[(0, 8)][..]),
                (9, &[(127, 3), (1, 0)]),
                (8, &[(127, 1)]),
                (10, &[(1, 881)]),
                (10, &[(125, bad)]),
                (10, &[(126, 1)]),
                (11, &[(108, 0x1F4D_6172)]),
                (12, &[(108, 0x014D_6172)]),
            ] {
                let mut image = changed(volume, bad, words);
                for path in [&b"Mary"[..], b"dc", b"Mary/x"] {
                    assert_eq!(seek(volume, &image, path), refused(number, bad), "{words:?}");
                }
                assert_eq!(seek(volume, &image, b"cp").map(|found| found.compared), Ok(1), "{words:?}");
                in_image(&mut image, bad)[100] ^= 1;
                assert_eq!(seek(volume, &image, b"Mary"), refused(7, bad), "{words:?}");
            }
        }
    }

    #[test]
    fn keys_that_no_block_has() {
        for volume in &smalls() {
            for value in [1, volume.disk.blocks, 3_520, 3_521, 0x8000_0002, u32::MAX] {
                let image = changed(volume, volume.disk.root(), &[(slot_word(65), value)]);
                assert_eq!(seek(volume, &image, b"Mary"), refused(5, value));
                let image = changed(volume, key(volume, b"Mary"), &[(124, value)]);
                assert_eq!(seek(volume, &image, b"dc"), refused(5, value));
                assert_eq!(seek(volume, &image, b"Mary").map(|found| found.compared), Ok(2));
            }
            let image = changed(volume, key(volume, b"Mary"), &[(124, 0)]);
            assert_eq!(seek(volume, &image, b"dc"), refused(19, 0));
        }
    }

    /// The root and the bitmap block are keys like others here; what they are is seen from their words.
    #[test]
    fn nothing_is_claimed() {
        for volume in &smalls() {
            for (value, number) in [(volume.disk.root(), 8), (key(volume, b"Box\xE4"), 10)] {
                let image = changed(volume, volume.disk.root(), &[(slot_word(65), value)]);
                assert_eq!(seek(volume, &image, b"Mary"), refused(number, value));
            }
        }
    }

    #[test]
    fn the_size_is_the_one_stated() {
        for volume in &smalls() {
            let image = changed(volume, key(volume, b"cp"), &[(81, u32::MAX), (2, 99), (126, 1)]);
            assert_eq!(seek(volume, &image, b"cp").map(|found| found.size), Ok(u32::MAX));
            let image = changed(volume, key(volume, b"Mary"), &[(81, 5)]);
            assert_eq!(seek(volume, &image, b"Mary").map(|found| found.size), Ok(0));
        }
    }

    /// Chains that lead back to one of their entries: the key that comes after 1,756 of them, or after 3,516.
    #[test]
    fn chains_without_an_end() {
        for volume in &smalls() {
            let keys = [&b"cp"[..], b"Mary", b"dc"].map(|name| key(volume, name));
            // of three that go around the 1,757th is the second and the 3,517th the first, of two after the first both
            // are the last
            let around = if volume.disk.blocks == FLOPPY { keys[1] } else { keys[0] };
            for (to, place) in [(keys[0], around), (keys[1], keys[2]), (keys[2], keys[2])] {
                let image = changed(volume, keys[2], &[(124, to)]);
                let missing = b"hw";
                assert_eq!(slot(&volume.disk, missing), 65);
                assert_eq!(seek(volume, &image, missing), refused(6, place), "back to {to}");
                assert_eq!(seek(volume, &image, b"dc").map(|found| found.compared), Ok(3));
            }
        }
    }

    #[test]
    fn the_longest_chain() {
        let mut rng = Rng::new(121);
        for disk in Disk::ALL {
            let limit = if disk.blocks == FLOPPY { 1_756 } else { 3_516 };
            let plan = one_chain(&mut rng, &disk, limit);
            longest_chain(&laid_out(&mut rng, &plan), limit);
        }
    }

    fn longest_chain(volume: &Volume, limit: u32) {
        let [before, last] = [2, 1].map(|back| &volume.entries[limit as usize - back]);
        let first = &volume.entries[0];
        assert_eq!(seek(volume, &volume.image, &last.name).map(|found| found.compared), Ok(limit));
        let names = (0..=u16::MAX).map(|end| [&b"missing"[..], &end.to_be_bytes()].concat());
        let missing =
            names.filter(|name| valid(name)).find(|name| slot(&volume.disk, name) == first.slot).unwrap();
        assert_eq!(seek(volume, &volume.image, &missing), refused(19, 0));
        let beyond = volume.disk.blocks;
        for (link, number) in [(first.key, 6), (last.key, 6), (volume.bitmap, 6), (1, 5), (beyond, 5), (3_520, 5)]
        {
            let image = changed(volume, last.key, &[(124, link)]);
            assert_eq!(seek(volume, &image, &missing), refused(number, link), "link {link}");
        }
        // an entry in the bitmap block's place is one too many, and not found
        let words = [(0, 2), (1, volume.bitmap), (124, 0), (125, volume.disk.root()), (127, FILE)];
        let mut image = changed(volume, last.key, &[(124, volume.bitmap)]);
        put_name(in_image(&mut image, volume.bitmap), &missing);
        change(&mut image, volume.bitmap, &words);
        assert_eq!(seek(volume, &image, &missing), refused(6, volume.bitmap));
        // without the entry before it, it is the last that may be
        change(&mut image, before.key, &[(124, volume.bitmap)]);
        assert_eq!(seek(volume, &image, &missing).map(|found| found.compared), Ok(limit));
    }

    /// What is named is asked before the path's form and the tag.
    #[test]
    fn the_named_number_is_asked_first() {
        for (volume, other) in smalls().iter().zip([HIGH_DENSITY, FLOPPY]) {
            let blocks = volume.disk.blocks;
            let mut image = volume.image.clone();
            for tag in [b"DOS\0", b"KICK"] {
                image[..4].copy_from_slice(tag);
                for named in [other, 1, 880, blocks - 1, blocks + 1, 2 * blocks, u32::MAX] {
                    for path in [&b""[..], b"Mary", b"a//b", &[b'x'; 300]] {
                        assert_eq!(find(named, &image, path), refused(1, 0), "{named}");
                    }
                }
                assert_eq!(seek(volume, &image, b"a//b"), refused(18, 1));
            }
            // the other's length fits the other, and its root is elsewhere
            image[..4].copy_from_slice(b"DOS\0");
            image.resize(other as usize * BLOCK_BYTES, 0);
            in_image(&mut image, other / 2).fill(0);
            assert_eq!(
                [blocks, other, 0].map(|named| find(named, &image, b"a//b").unwrap_err().number),
                [1, 18, 18]
            );
            assert_eq!([other, 0].map(|named| find(named, &image, b"Mary")), [refused(8, other / 2); 2]);
        }
    }
}
