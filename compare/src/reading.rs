//! Reading a file on any image, whatever an audit says of it (docs/FORMAT.md, "Paths and reads").
//!
//! A file is had as a whole: its tables first, then all keys in them, then all its bytes. What is asked for is cut
//! from these at last, so nothing can be copied too early.

use crate::audit::passed;
use crate::blocks::{self, DataAt, ListAt, DIRECTORY};
use crate::disk::Disk;
use crate::lookup::{block, find_on, led_to};
use crate::program::Refusal;
use crate::sizes::{data_blocks, held, list_blocks};
use crate::words::{key_word, word, TABLE};

/// Copies a file's bytes from an offset on into the output, until one of them ends, and answers how many. The rest
/// of the output stays, and all of it if the read is refused. The call names the image's number of blocks or none.
pub fn read(named: u32, image: &[u8], path: &[u8], offset: usize, output: &mut [u8]) -> Result<usize, Refusal> {
    let (disk, found) = find_on(named, image, path)?;
    if found.kind == DIRECTORY {
        let slashes = path.iter().filter(|&&byte| byte == b'/').count();
        return Err(Refusal::at(20, slashes));
    }
    let contents = contents(&disk, image, found.key)?;
    let rest = contents.get(offset..).unwrap_or(&[]);
    let count = rest.len().min(output.len());
    output[..count].copy_from_slice(&rest[..count]);
    Ok(count)
}

/// The bytes of the file with this header.
fn contents(disk: &Disk, image: &[u8], header: u32) -> Result<Vec<u8>, Refusal> {
    passed(blocks::file(disk, block(image, header)), header)?;
    let size = blocks::size(block(image, header));
    let (tables, ended) = tables(disk, image, header);
    let count = data_blocks(disk, size) as usize;
    let listed = tables.iter().flat_map(|table| (0..TABLE).map(|index| word(table, key_word(index))));
    let keys: Vec<u32> = listed.take(count).collect();

    // all data of a table are asked for before the next table is
    let mut named = word(block(image, header), 4);
    for (&key, number) in keys.iter().zip(1..) {
        let block = led_to(disk, image, key)?;
        passed(blocks::data(disk, block, DataAt { key, header, number, size, named }), key)?;
        named = word(block, 4);
    }
    ended?;
    let part = |(&key, number)| &block(image, key)[disk.data_start()..][..held(disk, size, number) as usize];
    Ok(keys.iter().zip(1..).flat_map(part).copied().collect())
}

/// The header and the list blocks of a file; they end before the first list block that is refused, and why.
fn tables<'a>(disk: &Disk, image: &'a [u8], header: u32) -> (Vec<&'a [u8]>, Result<(), Refusal>) {
    let mut tables = vec![block(image, header)];
    let size = blocks::size(tables[0]);
    for list in 1..=list_blocks(disk, size) {
        let key = word(tables[tables.len() - 1], 126);
        let to_come = data_blocks(disk, size) - list * TABLE;
        let tested = led_to(disk, image, key).and_then(|block| {
            passed(blocks::list(block, ListAt { key, header, to_come }), key)?;
            Ok(block)
        });
        match tested {
            Ok(block) => tables.push(block),
            Err(refusal) => return (tables, Err(refusal)),
        }
    }
    (tables, Ok(()))
}

#[cfg(test)]
mod tests {
    use super::*;
    use crate::audit::audit;
    use crate::disk::{ANY, SIZES};
    use crate::rng::Rng;
    use crate::sizes::largest_file;
    use crate::volumes::{any_style, telling_sizes, Entry, Filling, Kind, Order, Plan, Style, Volume};
    use crate::words::{mend, put, BLOCK_BYTES};

    /// A file with one list, one with three full lists, an empty one, and a directory with a file, on a disk of this
    /// kind.
    fn volume_on(disk: &Disk) -> Volume {
        let (mut rng, full) = (Rng::new(130), disk.data_bytes());
        let mut plan = Plan::new(disk);
        plan.add_named(None, b"one", Kind::File(74 * full + 1));
        plan.add_named(None, b"three", Kind::File(4 * 72 * full));
        plan.add_named(None, b"empty", Kind::File(0));
        let within = Some(plan.add_named(None, b"Mary", Kind::Directory));
        plan.add_named(within, b"box", Kind::File(1_000));
        plan.add_named(within, b"Jane", Kind::Directory);
        let style = any_style(&mut rng);
        Volume::new(&mut rng, &plan, style)
    }

    /// The number of blocks that an image has as it stands.
    fn blocks(image: &[u8]) -> u32 {
        (image.len() / BLOCK_BYTES) as u32
    }

    /// What a read answers, whether it names the image's number of blocks or none.
    fn fetch(image: &[u8], path: &[u8], offset: usize, output: &mut [u8]) -> Result<usize, Refusal> {
        let mut other = output.to_vec();
        let answer = read(blocks(image), image, path, offset, output);
        assert_eq!(read(ANY, image, path, offset, &mut other), answer, "{path:?}, no number named");
        assert!(*output == other, "{path:?}, no number named");
        answer
    }

    fn entry<'a>(volume: &'a Volume, name: &[u8]) -> &'a Entry {
        volume.entries.iter().find(|entry| entry.name == name).expect("an entry")
    }

    /// The image with words put into a block, and its sum mended.
    fn changed(image: &[u8], key: u32, words: &[(usize, u32)]) -> Vec<u8> {
        let mut image = image.to_vec();
        let block = &mut image[key as usize * BLOCK_BYTES..][..BLOCK_BYTES];
        words.iter().for_each(|&(index, value)| put(block, index, value));
        mend(block, 5);
        image
    }

    /// Holds a read into rooms of several lengths, none among them, to a refusal that leaves them alone.
    fn hold_refused(image: &[u8], path: &[u8], number: u32, place: u32) {
        for (offset, room) in [(0, 40_000), (0, 1), (0, 0), (900, 600), (usize::MAX, 5)] {
            let mut output = vec![0xAA; room];
            let answer = fetch(image, path, offset, &mut output);
            assert_eq!(answer, Err(Refusal::at(number, place as usize)), "{path:?} from {offset}");
            assert!(output.iter().all(|&byte| byte == 0xAA), "{path:?}: {number} with an output of {room}");
        }
    }

    /// An image made word by word: directory a with file c of 492 bytes, in two blocks out of order.
    #[test]
    fn a_file_made_by_hand() {
        file_made_by_hand(901_120, 880);
        file_made_by_hand(1_802_240, 1_760);
    }

    fn file_made_by_hand(bytes: usize, middle: u32) {
        let mut image = vec![0; bytes];
        image[..3].copy_from_slice(b"DOS");
        let root = [(0, 2), (3, 72), (12, 4), (108, 0x0141_0000), (127, 1)];
        let directory = [(0, 2), (1, 4), (14, 5), (108, 0x0141_0000), (125, middle), (127, 2)];
        let sizes = [(2, 2), (4, 9), (76, 7), (77, 9), (81, 492)];
        let header = [(0, 2), (1, 5), (108, 0x0143_0000), (125, 4), (127, 0xFFFF_FFFD)];
        let first = [(0, 8), (1, 5), (2, 1), (3, 488), (4, 7), (6, 0x6669_7273), (127, 0x656E_6431)];
        let second = [(0, 8), (1, 5), (2, 2), (3, 4), (6, 0x6C61_7374), (7, 0x4E4F_5045)];
        let file = [sizes, header].concat();
        for (key, words) in [(middle, &root[..]), (4, &directory), (5, &file), (9, &first), (7, &second)] {
            image = changed(&image, key, words);
        }
        let mut output = [0xAA; 500];
        assert_eq!(fetch(&image, b"A/c", 0, &mut output), Ok(492));
        assert_eq!((&output[..4], &output[4..484]), (&b"firs"[..], &[0; 480][..]));
        assert_eq!(&output[484..], b"end1last\xAA\xAA\xAA\xAA\xAA\xAA\xAA\xAA");
        assert_eq!(fetch(&image, b"a/C", 486, &mut output[..3]), Ok(3));
        assert_eq!(&output[..5], b"d1ls\0");
        image[3] = 2;
        assert_eq!(fetch(&image, b"A/c", 484, &mut output), Ok(8));
        assert_eq!(&output[..8], b"end1last");
    }

    /// The same in the Fast File System: 516 bytes, of which 512 are in the first block. Nothing in a block is but
    /// bytes, no sum is mended, and the header names no data block.
    #[test]
    fn a_fast_file_made_by_hand() {
        fast_file_made_by_hand(901_120, 880);
        fast_file_made_by_hand(1_802_240, 1_760);
    }

    fn fast_file_made_by_hand(bytes: usize, middle: u32) {
        let mut image = vec![0; bytes];
        image[..4].copy_from_slice(b"DOS\x01");
        let root = [(0, 2), (3, 72), (12, 4), (108, 0x0141_0000), (127, 1)];
        let directory = [(0, 2), (1, 4), (14, 5), (108, 0x0141_0000), (125, middle), (127, 2)];
        let header = [(0, 2), (1, 5), (2, 2), (4, 0xDEAD_BEEF), (76, 7), (77, 9), (81, 516), (108, 0x0143_0000)];
        let header = [&header[..], &[(125, 4), (127, 0xFFFF_FFFD)]].concat();
        for (key, words) in [(middle, &root[..]), (4, &directory), (5, &header)] {
            image = changed(&image, key, words);
        }
        image[9 * 512..][..8].copy_from_slice(b"first512");
        image[9 * 512 + 508..][..4].copy_from_slice(b"end1");
        image[7 * 512..][..8].copy_from_slice(b"lastNOPE");
        for (kind, path) in [(1, b"A/c"), (3, b"a/C")] {
            image[3] = kind;
            let mut output = [0xAA; 520];
            assert_eq!(fetch(&image, path, 0, &mut output), Ok(516));
            assert_eq!((&output[..8], &output[8..508]), (&b"first512"[..], &[0; 500][..]));
            assert_eq!(&output[508..], b"end1last\xAA\xAA\xAA\xAA");
            for (offset, room, bytes) in [
                (0, 0, &b""[..]),
                (0, 1, b"f"),
                (507, 3, b"\0en"),
                (511, 1, b"1"),
                (511, 2, b"1l"),
                (512, 9, b"last"),
                (513, 2, b"as"),
                (515, 9, b"t"),
                (516, 9, b""),
                (517, 9, b""),
            ] {
                let mut output = vec![0xAA; room];
                assert_eq!(fetch(&image, path, offset, &mut output), Ok(bytes.len()), "{offset}");
                assert_eq!(&output[..bytes.len()], bytes, "{offset}");
                assert!(output[bytes.len()..].iter().all(|&byte| byte == 0xAA), "{offset}");
            }
        }
        // the old file system has two blocks for it too, and asks for sums
        for kind in [0, 2] {
            image[3] = kind;
            hold_refused(&image, b"A/c", 7, 9);
        }
    }

    /// What a read from this offset on makes of an output of this length.
    fn got(volume: &Volume, path: &[u8], offset: usize, room: usize) -> (usize, Vec<u8>) {
        let mut output = vec![0xAA; room];
        let count = fetch(&volume.image, path, offset, &mut output).expect("a good file");
        (count, output)
    }

    #[test]
    fn pieces_make_the_whole() {
        let mut rng = Rng::new(131);
        let all = Disk::ALL.into_iter().flat_map(|disk| {
            let sizes = telling_sizes(&disk).into_iter().chain([1_000, 2 * 72 * disk.data_bytes() + 1]);
            sizes.map(move |size| (disk, size))
        });
        for (disk, size) in all {
            let mut plan = Plan::new(&disk);
            plan.add_named(None, b"file", Kind::File(size));
            let style = any_style(&mut rng);
            let volume = Volume::new(&mut rng, &plan, style);
            let (count, whole) = got(&volume, b"file", 0, size as usize + 10);
            assert_eq!((count, &whole[count..]), (size as usize, &[0xAA; 10][..]));
            for piece in [1, 487, 488, 489, 511, 512, 513, 1_024, 5_000, 35_136, 36_864, 36_865] {
                // small pieces of a large file would take long
                let starts = (0..=count).step_by(piece).take(60);
                for start in starts {
                    let (part, output) = got(&volume, b"file", start, piece);
                    let due = &whole[start..count.min(start + piece)];
                    assert_eq!((part, &output[..part]), (due.len(), due), "{piece} of {size} from {start}");
                    assert!(output[part..].iter().all(|&byte| byte == 0xAA), "{piece} of {size} from {start}");
                }
            }
            for past in [count, count + 1, u32::MAX as usize, usize::MAX] {
                assert_eq!(got(&volume, b"file", past, 9), (0, vec![0xAA; 9]), "{size} from {past}");
            }
        }
    }

    #[test]
    fn a_refused_lookup_is_handed_on() {
        Disk::ALL.iter().for_each(|disk| hold_lookups(&volume_on(disk)));
    }

    fn hold_lookups(volume: &Volume) {
        hold_refused(&volume.image[1..], b"Mary/box", 1, 0);
        for (path, number, place) in [
            (&b"one/"[..], 18, 1),
            (b"two", 19, 0),
            (b"Mary/two", 19, 1),
            (b"one/x", 20, 0),
            (b"", 20, 0),
            (b"Mary", 20, 0),
            (b"Mary/Jane", 20, 1),
        ] {
            hold_refused(&volume.image, path, number, place);
        }
        let mut image = volume.image.clone();
        image[2] = 0;
        hold_refused(&image, b"Mary/box", 3, 0);
        hold_refused(&image, b":", 18, 0);
        let root = volume.disk.root();
        hold_refused(&changed(&volume.image, root, &[(3, 71)]), b"Mary/box", 4, root);
        image[2] = b'S';
        for kind in [4, 5, 0x80, 0xFF] {
            image[3] = kind;
            hold_refused(&image, b"Mary/box", 3, 0);
        }
        let key = entry(volume, b"Mary").key;
        hold_refused(&changed(&volume.image, key, &[(125, 0)]), b"Mary/box", 10, key);
    }

    /// A word of a block that is changed, and the number and place due for a read of this file.
    type Broken = (&'static [u8], u32, (usize, u32), u32, u32);

    /// Every rule about a file's blocks, broken far after what is asked for too.
    #[test]
    fn every_block_of_the_file_is_tested() {
        for disk in &Disk::ALL {
            let volume = volume_on(disk);
            hold_tables(&volume);
            hold_data(&volume);
        }
    }

    /// Each of these is refused so, and with 7 if the sum is not mended.
    fn hold_broken(volume: &Volume, broken: &[Broken]) {
        for &(path, key, words, number, place) in broken {
            hold_refused(&changed(&volume.image, key, &[words]), path, number, place);
            let mut unsummed = changed(&volume.image, key, &[words]);
            unsummed[key as usize * BLOCK_BYTES + 23] ^= 1;
            hold_refused(&unsummed, path, 7, key);
        }
    }

    /// What is asked of headers and list blocks in either file system.
    fn hold_tables(volume: &Volume) {
        let (disk, full) = (&volume.disk, volume.disk.data_bytes());
        let [one, three, empty] = [&b"one"[..], b"three", b"empty"].map(|name| entry(volume, name));
        let (header, list) = (one.key, one.lists[0]);
        hold_broken(
            volume,
            &[
                (b"one", header, (81, 75 * full + 1), 14, list),
                (b"one", header, (81, disk.file_limit() + 1), 14, header),
                (b"one", header, (2, 71), 14, header),
                (b"one", header, (126, 0), 14, header),
                (b"one", header, (126, disk.blocks), 5, disk.blocks),
                (b"one", header, (126, 3_520), 5, 3_520),
                (b"one", header, (77 - 40, 0), 5, 0),
                (b"one", header, (77 - 40, 1), 5, 1),
                (b"one", header, (77, disk.blocks), 5, disk.blocks),
                (b"one", header, (77, 3_520), 5, 3_520),
                (b"one", list, (0, 2), 8, list),
                (b"one", list, (1, header), 10, list),
                (b"one", list, (2, 4), 14, list),
                (b"one", list, (126, list), 14, list),
                (b"one", list, (77, 1), 5, 1),
                (b"three", three.lists[0], (126, 0), 14, three.lists[0]),
                (b"three", three.lists[1], (126, three.lists[1]), 14, three.lists[1]),
                (b"empty", empty.key, (2, 1), 14, empty.key),
                (b"empty", empty.key, (81, 1), 14, empty.key),
            ],
        );
    }

    /// What is asked of data blocks and of w4: in the Fast File System nothing, and the bytes are what they are.
    fn hold_data(volume: &Volume) {
        let [one, empty] = [&b"one"[..], b"empty"].map(|name| entry(volume, name));
        let (first, middle, last, header) = (one.data[0], one.data[40], one.data[74], one.key);
        let broken: [Broken; 12] = [
            (b"one", header, (4, 0), 15, first),
            (b"one", header, (77 - 40, volume.disk.root()), 8, volume.disk.root()),
            (b"one", header, (77 - 40, last), 15, last),
            (b"one", middle, (0, 16), 8, middle),
            (b"one", middle, (1, 0), 15, middle),
            (b"one", middle, (2, 40), 15, middle),
            (b"one", middle, (3, 487), 15, middle),
            (b"one", middle, (4, middle), 15, one.data[41]),
            (b"one", last, (3, 2), 15, last),
            (b"one", last, (4, last), 15, last),
            (b"empty", empty.key, (4, 5), 14, empty.key),
            (b"one", last, (0, 9), 8, last),
        ];
        if volume.disk.has_data_words() {
            return hold_broken(volume, &broken);
        }
        for (path, key, words, ..) in broken {
            let image = changed(&volume.image, key, &[words]);
            let bytes: Vec<u8> = listed(&image, entry(volume, path));
            let mut output = vec![0xAA; 40_000];
            assert_eq!(fetch(&image, path, 0, &mut output), Ok(bytes.len()), "{key} {words:?}");
            assert!(output[..bytes.len()] == bytes && output[bytes.len()..].iter().all(|&byte| byte == 0xAA));
            if one.data.contains(&key) {
                let mut unsummed = image;
                unsummed[key as usize * BLOCK_BYTES + 23] ^= 1;
                assert_eq!(fetch(&unsummed, path, 0, &mut output), Ok(bytes.len()), "{key} {words:?}");
            }
        }
    }

    /// The bytes of a file in the Fast File System with at most one list block, by the keys that its tables list: whole
    /// blocks end to end, cut at its size.
    fn listed(image: &[u8], file: &Entry) -> Vec<u8> {
        let block = |key: u32| &image[key as usize * BLOCK_BYTES..][..BLOCK_BYTES];
        let keys = (0..file.data.len()).map(|index| match index {
            0..72 => word(block(file.key), 77 - index),
            _ => word(block(file.lists[0]), 77 + 72 - index),
        });
        keys.flat_map(|key| block(key).to_vec()).take(file.size() as usize).collect()
    }

    /// The data of a table come before the next table, whatever is wrong with that.
    #[test]
    fn tables_and_data_in_turn() {
        SIZES.iter().for_each(|&blocks| hold_tables_and_data(&volume_on(&Disk::OLD.with_blocks(blocks))));
    }

    fn hold_tables_and_data(volume: &Volume) {
        let file = entry(volume, b"three");
        let harms = [
            (file.data[71], 15),
            (file.lists[0], 10),
            (file.data[72], 15),
            (file.lists[1], 10),
            (file.data[150], 15),
            (file.lists[2], 10),
            (file.data[287], 15),
        ];
        let mut image = volume.image.clone();
        for &(key, number) in harms.iter().rev() {
            image = changed(&image, key, &[(1, 0)]);
            hold_refused(&image, b"three", number, key);
        }
        hold_refused(&changed(&image, file.key, &[(2, 0)]), b"three", 14, file.key);
    }

    /// The same where only the keys of data are asked for.
    #[test]
    fn tables_and_keys_in_turn() {
        SIZES.iter().for_each(|&blocks| hold_tables_and_keys(&volume_on(&Disk::FAST.with_blocks(blocks))));
    }

    fn hold_tables_and_keys(volume: &Volume) {
        let beyond = volume.disk.blocks;
        let file = entry(volume, b"three");
        let [first, second, third] = [0, 1, 2].map(|index| file.lists[index]);
        // the word of each key, a key that no block has, and what is due for it; of lists the own key
        let harms = [
            (file.key, 6, beyond, (5, beyond)),
            (first, 1, 0, (10, first)),
            (first, 77, 1, (5, 1)),
            (first, 6, beyond + 1, (5, beyond + 1)),
            (second, 1, 0, (10, second)),
            (second, 77 - 6, 0, (5, 0)),
            (third, 1, 0, (10, third)),
            (third, 6, u32::MAX, (5, u32::MAX)),
        ];
        let mut image = volume.image.clone();
        for &(key, index, value, (number, place)) in harms.iter().rev() {
            image = changed(&image, key, &[(index, value)]);
            hold_refused(&image, b"three", number, place);
        }
        hold_refused(&changed(&image, file.key, &[(2, 0)]), b"three", 14, file.key);
    }

    /// A list met twice is no fault in itself; its data have other numbers than are due. In the Fast File System they
    /// have none: data and lists may be met twice, and the bytes come twice.
    #[test]
    fn nothing_is_claimed() {
        for disk in &Disk::ALL {
            let volume = volume_on(disk);
            let file = entry(&volume, b"three");
            let [first, second] = [file.lists[0], file.lists[1]];
            let image = changed(&volume.image, first, &[(126, first)]);
            let answer = audit(disk.blocks, &image, &mut [0; 3_520]);
            assert_eq!(answer, Err(Refusal::at(6, first as usize)));
            if disk.has_data_words() {
                hold_refused(&image, b"three", 15, file.data[72]);
                continue;
            }
            // the third list is asked whether it is the last, and the first is not
            hold_refused(&image, b"three", 14, first);
            let image =
                changed(&volume.image, second, &[(77, file.data[0]), (76, disk.root()), (75, volume.bitmap)]);
            assert_eq!(audit(disk.blocks, &image, &mut [0; 3_520]), Err(Refusal::at(6, file.data[0] as usize)));
            let mut output = vec![0xAA; 3 * 512];
            assert_eq!(fetch(&image, b"three", 144 * 512, &mut output), Ok(3 * 512));
            let block = |key: u32| &image[key as usize * BLOCK_BYTES..][..BLOCK_BYTES];
            assert!(output == [file.data[0], disk.root(), volume.bitmap].map(block).concat());
        }
    }

    /// The last byte of the largest file, and what lies around it.
    #[test]
    fn the_end_of_the_largest_file() {
        let mut rng = Rng::new(132);
        let sizes = [844_728, 886_272, 844_728, 886_272, 1_691_896, 1_775_104, 1_691_896, 1_775_104];
        for (disk, size) in Disk::ALL.iter().zip(sizes) {
            let mut plan = Plan::new(disk);
            plan.add_named(None, b"big", Kind::File(size as u32));
            let volume = Volume::new(&mut rng, &plan, Style { filling: Filling::Random, order: Order::Shuffled });
            let last = *entry(&volume, b"big").data.last().expect("a block");
            let end = &volume.block(last)[BLOCK_BYTES - 2..];
            assert_eq!(got(&volume, b"big", size - 1, 1), (1, vec![end[1]]));
            assert_eq!(got(&volume, b"big", size - 2, 3), (2, vec![end[0], end[1], 0xAA]));
            assert_eq!(got(&volume, b"big", size, 1), (0, vec![0xAA]));
            assert_eq!(got(&volume, b"big", size + 1, 1), (0, vec![0xAA]));
        }
    }
    /// The largest size that a header may state, in the Fast File System: its lists leave too few blocks for so much
    /// data, so some blocks come twice, which an audit does not accept and a read does not mind.
    #[test]
    fn the_largest_size_that_can_be_read() {
        let mut rng = Rng::new(133);
        for (disk, blocks, size) in [
            (Disk::FAST, 1_755, 898_560),
            (Disk::FAST.with_blocks(3_520), 3_515, 1_799_680),
            (Disk::FAST_INTERNATIONAL.with_blocks(3_520), 3_515, 1_799_680),
        ] {
            let largest = largest_file(&disk);
            let mut plan = Plan::new(&disk);
            plan.add_named(None, b"big", Kind::File(largest));
            let volume = Volume::new(&mut rng, &plan, Style { filling: Filling::Random, order: Order::Shuffled });
            let file = entry(&volume, b"big");
            let more = blocks - file.data.len();
            let last = *file.lists.last().expect("a list");
            let listed = file.data.len() - 72 * file.lists.len();
            let mut words = vec![(2, (listed + more) as u32)];
            words.extend((0..more).map(|index| (77 - listed - index, file.data[index])));
            let image = changed(&volume.image, last, &words);
            // the header still states what fits
            hold_refused(&image, b"big", 14, last);
            let image = changed(&image, file.key, &[(81, size)]);
            let mut output = vec![0xAA; size as usize + 9];
            assert_eq!(fetch(&image, b"big", 0, &mut output), Ok(size as usize));
            let (contents, start) = (&output[..size as usize], largest as usize);
            assert!(contents[start..] == contents[..more * 512] && output[size as usize..] == [0xAA; 9]);
            assert_eq!(audit(disk.blocks, &image, &mut [0; 3_520]), Err(Refusal::at(6, file.data[0] as usize)));
            hold_refused(&changed(&image, file.key, &[(81, size + 1)]), b"big", 14, file.key);
        }
    }

    /// What is named is asked before the path, and leaves the output alone.
    #[test]
    fn the_named_number_is_asked_first() {
        for disk in &Disk::ALL {
            let volume = volume_on(disk);
            let other = disk.other_sizes().next().expect("another size").blocks;
            for named in [other, 1, 880, disk.blocks - 1, disk.blocks + 1, 2 * disk.blocks, u32::MAX] {
                for path in [&b"one"[..], b"", b"a//b", b"nobody"] {
                    let mut output = [0xAA; 90];
                    assert_eq!(
                        read(named, &volume.image, path, 0, &mut output),
                        Err(Refusal::at(1, 0)),
                        "{named}"
                    );
                    assert_eq!(output, [0xAA; 90]);
                }
            }
        }
    }
}
