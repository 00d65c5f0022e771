//! Holds the exported functions and the yardstick to this package where `probe` has no request or no room: longer
//! images, areas, files and lists, and offsets that four bytes do not hold. The tests of audits, lookups and programs
//! ask them all else.

use compare::bad_volumes::{wrong_lengths, NO_SIZES};
use compare::calls::Opinion;
use compare::counter::SENTENCES;
use compare::disk::{image_length, Disk, ANY, FLOPPY, HIGH_DENSITY};
use compare::driver::checksum;
use compare::loader::RECORD;
use compare::model::Model;
use compare::native::Exports;
use compare::paths::{far_offsets, Paths};
use compare::program::{Memory, BOTH, BSS, CHIP, END, FAST, HEADER, HUNK_WORDS};
use compare::programs::{bytes, long_file, worked_file, Room};
use compare::rng::Rng;
use compare::sizes::{data_blocks, largest_file};
use compare::volumes::{any_style, Kind, Plan, Volume};
use compare::words::{mend, put};

/// What this package answers, and what the exported functions do. Those of the yardstick go with these.
struct Both {
    opinion: Model<Opinion>,
    exports: [(&'static str, Model<Exports>); 3],
}

impl Default for Both {
    fn default() -> Both {
        let exports = Exports::all().map(|(name, exports)| (name, Model::new(exports)));
        Both { opinion: Model::default(), exports }
    }
}

/// Makes a call on all; the line that is due, which all give.
macro_rules! same {
    ($both:ident.$call:ident($($word:expr),*)) => {{
        let due = $both.opinion.$call($($word),*);
        for (name, exports) in &mut $both.exports {
            let got = exports.$call($($word),*);
            assert_eq!(got, due, "{name}: {}", stringify!($call($($word),*)));
        }
        due
    }};
}

/// The same, with the beginning of the line known beforehand.
macro_rules! expect {
    ($both:ident.$call:ident($($word:expr),*), $beginning:expr) => {{
        let line = same!($both.$call($($word),*));
        assert!(line.starts_with(&$beginning), "{line}, not {}", $beginning);
    }};
}

/// Both with this volume's image and its number of blocks named.
fn both_with(volume: &Volume) -> Both {
    let mut both = Both::default();
    same!(both.name(volume.disk.blocks));
    same!(both.take_image(&volume.image));
    both
}

/// A volume with a directory and a file of this size, on a disk of this size and kind.
fn volume(seed: u64, disk: &Disk, size: u32) -> Volume {
    let (mut rng, mut plan) = (Rng::new(seed), Plan::new(disk));
    plan.add_named(None, b"c", Kind::Directory);
    plan.add_named(None, b"fil\xE9", Kind::File(size));
    let style = any_style(&mut rng);
    Volume::new(&mut rng, &plan, style)
}

/// Paths of the file: as it stands, and in the other case as far as the disk has one.
fn paths_of_file(disk: &Disk) -> [&'static [u8]; 2] {
    [b"fil\xE9", if disk.is_international() { b"FIL\xC9" } else { b"FIL\xE9" }]
}

/// An output of so many bytes with these at its beginning, as a line shows it.
fn output(beginning: &[u8], room: usize) -> String {
    let rest = vec![0xAA; room - beginning.len()];
    format!("out {}", checksum(&[beginning, &rest].concat()))
}

/// Without an opinion of this package. Cut to 32 bits, most of these offsets would lie in the file.
#[test]
fn reads_from_far_offsets_give_nothing() {
    for disk in &Disk::ALL {
        let volume = volume(170, disk, 1_000);
        let [file, capital] = paths_of_file(disk);
        let mut both = both_with(&volume);
        let contents = Paths::new(&volume).contents(1);
        for (offset, count) in [(0, 10), (990, 10), (991, 9), (999, 1), (1_000, 0), (1_001, 0)] {
            let due = format!("bytes {count} {}", output(&contents[offset.min(1_000)..][..count], 10));
            assert_eq!(same!(both.read(capital, offset, 10)), due);
            for high in [1 << 32, 3 << 32, 1 << 48, 1 << 63, u32::MAX as usize * (1 << 32)] {
                assert_eq!(same!(both.read(capital, high + offset, 10)), format!("bytes 0 {}", output(b"", 10)));
            }
        }
        for offset in far_offsets(disk, 1_000).into_iter().chain((0..1_100).map(|back| usize::MAX - back)) {
            for room in [0, 1, 1_000, 1_100] {
                assert_eq!(same!(both.read(file, offset, room)), format!("bytes 0 {}", output(b"", room)));
            }
        }
    }
}

/// What is refused is refused at every offset.
#[test]
fn reads_from_far_offsets_are_refused_as_others() {
    for disk in &Disk::ALL {
        let volume = volume(171, disk, 1_000);
        let [file, capital] = paths_of_file(disk);
        // of a block without words only the key can be wrong
        let last = *volume.entries[1].data.last().expect("a data block");
        let mut image = volume.image.clone();
        let mut due = format!("refused 7 {last} ");
        if disk.has_data_words() {
            image[last as usize * 512 + 511] ^= 1;
        } else {
            let header = &mut image[volume.entries[1].key as usize * 512..][..512];
            put(header, 76, disk.blocks);
            mend(header, 5);
            due = format!("refused 5 {} ", disk.blocks);
        }
        let mut both = both_with(&volume);
        for offset in [0, 1_000].into_iter().chain(far_offsets(disk, 1_000)) {
            same!(both.take_image(&volume.image));
            expect!(both.read(b"c", offset, 9), "refused 20 0 ");
            expect!(both.read(b"", offset, 9), "refused 20 0 ");
            expect!(both.read(&[file, b"x"].join(&b'/'), offset, 9), "refused 20 0 ");
            expect!(both.read(b"nobody", offset, 9), "refused 19 0 ");
            expect!(both.read(b"c//", offset, 9), "refused 18 1 ");
            same!(both.take_image(&image));
            expect!(both.read(file, offset, 0), due);
            expect!(both.read(capital, offset, 9), due);
        }
        same!(both.take_image(&image[1..]));
        expect!(both.read(file, usize::MAX, 9), "refused 1 0 ");
    }
}

#[test]
fn outputs_longer_than_any_file() {
    for disk in &Disk::ALL {
        // the directory takes a block
        let size = largest_file(disk) as usize - disk.data_bytes() as usize;
        let volume = volume(172, disk, size as u32);
        let [file, capital] = paths_of_file(disk);
        let mut both = both_with(&volume);
        for room in [size - 1, size, size + 1, 1_048_577, 3_000_001] {
            expect!(both.read(file, 0, room), format!("bytes {} ", room.min(size)));
        }
        expect!(both.read(capital, size - 1, 3_000_001), "bytes 1 ");
    }
}

#[test]
fn claim_areas_and_paths_of_any_length() {
    for disk in &Disk::ALL {
        let volume = volume(173, disk, 5_000);
        let [file, _] = paths_of_file(disk);
        let mut both = both_with(&volume);
        for length in [1_759, 1_760, 1_761, 3_519, 3_520, 3_521, 4_097, 1_000_003] {
            // in the old file system 11 data blocks, else 10
            let due = match (length < disk.blocks as usize, disk.has_data_words()) {
                (true, _) => "refused 2 0 ".to_string(),
                (false, true) => format!("accepted 1 1 0 11 15 {} ", disk.blocks - 17),
                (false, false) => format!("accepted 1 1 0 10 14 {} ", disk.blocks - 16),
            };
            expect!(both.audit(length), due);
        }
        for length in [255, 256, 4_097, 1_000_003] {
            let path = vec![b'\xE9'; length];
            expect!(both.find(&path), "refused 18 0");
            expect!(both.read(&path, 1, 3), "refused 18 0 ");
        }
        for length in [901_119, 901_121, 1_802_239, 1_802_241, 3_604_480, 5_000_000] {
            let mut image = volume.image.clone();
            image.resize(length, 0);
            same!(both.take_image(&image));
            expect!(both.audit(1_000_003), "refused 1 0 ");
            expect!(both.find(b""), "refused 1 0");
            expect!(both.read(file, 0, 4_000), "refused 1 0 ");
        }
    }
}

/// Every length of interest with every number of blocks of interest. Good bytes, cut or made longer, and 1 comes before
/// all else: before the claim area's 2, the path's 18 and the tag's 3.
#[test]
fn lengths_and_named_numbers() {
    for disk in [Disk::OLD, Disk::FAST_INTERNATIONAL].into_iter().flat_map(|disk| [disk, disk.with_blocks(3_520)])
    {
        let volume = volume(177, &disk, 1_000);
        let mut both = Both::default();
        for (named, length) in [ANY, FLOPPY, HIGH_DENSITY]
            .into_iter()
            .chain(NO_SIZES)
            .flat_map(|named| wrong_lengths(named).into_iter().map(move |length| (named, length)))
        {
            let mut image = volume.image.clone();
            image.resize(length, 0);
            same!(both.take_image(&image));
            same!(both.name(named));
            expect!(both.audit(4_096), "refused 1 0 ");
            expect!(both.audit(0), "refused 1 0 ");
            expect!(both.find(b""), "refused 1 0");
            expect!(both.find(b"a//b"), "refused 1 0");
            expect!(both.read(b"c", 0, 9), "refused 1 0 ");
            expect!(both.read(b":", usize::MAX, 0), "refused 1 0 ");
        }
        same!(both.take_image(&volume.image));
        for named in [ANY, disk.blocks] {
            same!(both.name(named));
            expect!(both.audit(disk.blocks as usize), "accepted 1 1 ");
            expect!(both.audit(disk.blocks as usize - 1), "refused 2 0 ");
            expect!(both.find(b"a//b"), "refused 18 1");
            expect!(both.find(b""), format!("directory {} 0 0", disk.blocks / 2));
        }
        // the same bytes and the other size's length: the root is elsewhere, and is not good there
        let other = disk.other_sizes().next().expect("another size").blocks;
        let mut image = volume.image.clone();
        image.resize(image_length(other), 0);
        image[image_length(other / 2)..][..512].fill(0);
        same!(both.take_image(&image));
        for (named, number, place) in [(ANY, 8, other / 2), (other, 8, other / 2), (disk.blocks, 1, 0)] {
            same!(both.name(named));
            expect!(both.audit(3_520), format!("refused {number} {place} "));
            expect!(both.find(b"c"), format!("refused {number} {place}"));
            expect!(both.read(b"c", 0, 3), format!("refused {number} {place} "));
        }
    }
}

/// Before any number of blocks is named by these models, it is a floppy's; so is that of `probe`.
#[test]
fn a_large_image_is_none_where_a_floppy_is_named() {
    for disk in Disk::of_blocks(HIGH_DENSITY) {
        let volume = volume(178, &disk, 1_000);
        let [file, _] = paths_of_file(&disk);
        let mut both = Both::default();
        same!(both.take_image(&volume.image));
        for named in [FLOPPY, 1_759, 3_519, 3_521] {
            expect!(both.audit(4_096), "refused 1 0 ");
            expect!(both.find(file), "refused 1 0");
            expect!(both.read(file, 0, 1_000), "refused 1 0 ");
            same!(both.name(named));
        }
        for named in [HIGH_DENSITY, ANY] {
            same!(both.name(named));
            expect!(both.audit(3_520), "accepted 1 1 0 ");
            expect!(both.find(file), "file ");
            expect!(both.read(file, 0, 1_001), "bytes 1000 ");
        }
    }
}

/// Every last byte of the tag: four are kinds of disk, and of these two have the capital for the letter. The file of
/// 900 bytes has two blocks in both file systems; where data blocks have words, the bytes come after them.
#[test]
fn every_kind_that_a_tag_can_name() {
    every_kind_on(FLOPPY);
    every_kind_on(HIGH_DENSITY);
}

fn every_kind_on(blocks: u32) {
    let volume = volume(174, &Disk::OLD_INTERNATIONAL.with_blocks(blocks), 900);
    let paths = Paths::new(&volume);
    let number = volume.entries.iter().position(|entry| entry.size() > 0).expect("the file");
    let key = volume.entries.iter().find(|entry| entry.size() > 0).expect("the file").key;
    let mut both = both_with(&volume);
    for kind in 0..=255 {
        let mut image = volume.image.clone();
        image[3] = kind;
        same!(both.take_image(&image));
        let [audit, small, capital] = match kind {
            // the file hangs where a plain disk has FIL and the capital, and a plain disk has its name elsewhere
            0 | 1 => [format!("refused 12 {key} "), "refused 19 0".to_string(), format!("refused 12 {key}")],
            2 | 3 => {
                let found = format!("file {key} 900 1");
                [format!("accepted 1 1 0 2 6 {} ", blocks - 8), found.clone(), found]
            }
            _ => ["refused 3 0 ".to_string(), "refused 3 0".to_string(), "refused 3 0".to_string()],
        };
        expect!(both.audit(3_520), audit);
        expect!(both.find(b"fil\xE9"), small);
        expect!(both.find(b"FIL\xC9"), capital);
        expect!(both.find(b"c/"), "refused 18 1");
        if let Some(disk) = Disk::of_blocks(blocks).into_iter().find(|disk| disk.kind == kind && kind >= 2) {
            let contents = paths.contents_on(&disk, number).expect("as many blocks");
            let start = if kind == 2 { 24 } else { 0 };
            assert_eq!(contents[..9], volume.block(volume.entries[number].data[0])[start..][..9]);
            for (offset, room) in [(0, 1_000), (487, 30), (511, 3), (899, 2), (900, 2)] {
                let rest: Vec<u8> = contents.iter().copied().skip(offset).take(room).collect();
                let due = format!("bytes {} {}", rest.len(), output(&rest, room));
                assert_eq!(same!(both.read(b"FIL\xC9", offset, room)), due);
            }
        }
    }
}

/// Files of one kind of disk under the tag of the other file system: as many blocks and other bytes, or 14.
#[test]
fn files_in_the_other_file_system() {
    for disk in &Disk::ALL {
        let other = disk.others().find(|other| {
            other.is_international() == disk.is_international() && other.has_data_words() != disk.has_data_words()
        });
        let other = other.expect("the other file system");
        for size in [0, 1, 488, 489, 512, 513, 976, 977, 1_024, 1_025] {
            let volume = volume(175 + u64::from(size), disk, size);
            let [file, capital] = paths_of_file(disk);
            let mut image = volume.image.clone();
            image[3] = other.kind;
            let mut both = both_with(&volume);
            same!(both.take_image(&image));
            let number = volume.entries.iter().position(|entry| entry.name.len() > 1).expect("the file");
            let key = volume.entries[number].key;
            let line = same!(both.read(file, 0, 1_030));
            if data_blocks(disk, size) != data_blocks(&other, size) {
                assert!(line.starts_with(&format!("refused 14 {key} ")), "{size}: {line}");
                expect!(both.audit(3_520), format!("refused 14 {key} "));
            }
            let due = match Paths::new(&volume).contents_on(&other, number) {
                Ok(contents) => format!("bytes {} {}", contents.len(), output(&contents, 1_030)),
                Err(refusal) => format!("refused {} {} {}", refusal.number, refusal.place, output(b"", 1_030)),
            };
            assert_eq!(line, due, "{size}");
            expect!(both.find(capital), format!("file {key} {size} "));
        }
    }
}

/// 64 hunks of the largest size, which take 16 MiB, with room to the byte, with more, and with less of each. They ask
/// for all kinds of memory in turn, which is seen in the table.
#[test]
fn the_largest_program_of_all() {
    let sizes: Vec<u32> = [HUNK_WORDS, CHIP | HUNK_WORDS, FAST | HUNK_WORDS].repeat(22)[..64].to_vec();
    let file = bytes(&[&[HEADER, 0, 64, 0, 63], &sizes[..], &[BSS, 65_536, END].repeat(64)].concat());
    let bases = |from: u32| (0..64).map(|index| from.wrapping_add(index << 18)).collect::<Vec<u32>>();
    let room = Room { memory: 1 << 24, records: 64, work: 1 << 24 };
    let mut both = Both::default();
    same!(both.take_file(&file));
    assert_eq!(same!(both.check()), "checked 64 16777216");
    // one of them asks for two kinds, the first or the last
    for place in [20, 20 + 4 * 63] {
        let mut wrong = file.clone();
        wrong[place] |= 0xC0;
        same!(both.take_file(&wrong));
        assert_eq!(same!(both.check()), format!("refused 43 {place}"));
    }
    same!(both.take_file(&file));
    let more = Room { memory: room.memory + 1, records: 65, work: room.work + 3 };
    expect!(both.load(more, &bases(0)), "loaded 64 16777216 ");
    let memories: Vec<u32> =
        both.exports[0].1.table.chunks_exact(RECORD).take(64).map(|record| record[4]).collect();
    assert_eq!(memories, [0, 1, 2].repeat(22)[..64]);
    expect!(both.relocate(room, &bases(0), &bases(0xFF00_0000)), "moved 64 16777216 ");
    expect!(both.relocate(room, &bases(0), &bases(0xFF00_0004)), "refused 40 127 ");
    for short in [
        Room { memory: room.memory - 1, ..room },
        Room { records: 63, ..room },
        Room { work: room.work - 1, ..room },
    ] {
        expect!(both.relocate(short, &bases(0), &bases(4)), "refused 41 0 ");
        expect!(both.load(short, &bases(0)), "refused 41 0 ");
        expect!(both.load(room, &bases(4)), "loaded 64 16777216 ");
    }
}

#[test]
fn files_lists_and_tables_of_any_length() {
    let room = Room { memory: 100, records: 1_000, work: 100 };
    let mut both = Both::default();
    let file = long_file(1 << 20);
    same!(both.take_file(&file));
    assert_eq!(same!(both.check()), "checked 1 4");
    expect!(both.load(room, &[0x1000]), "loaded 1 4 ");
    expect!(both.relocate(room, &[0x1000], &[0x2000]), "moved 1 4 ");
    for (cut, due) in [(4, "refused 31 4194300 "), (1, "refused 30 0 ")] {
        same!(both.take_file(&file[..file.len() - cut]));
        assert_eq!(same!(both.check()), due.trim_end());
        expect!(both.load(room, &[0x1000]), due);
        expect!(both.relocate(room, &[0x1000], &[0x2000]), due);
    }
    same!(both.take_file(&[&file[..], &[0; 4]].concat()));
    expect!(both.load(room, &[0x1000]), "refused 39 4194304 ");
    same!(both.take_file(&worked_file()));
    let good = [0x3000, 0x7000];
    expect!(both.load(room, &good), "loaded 2 40 ");
    for count in [0, 1, 3, 257, 70_000, 1_000_000] {
        let list = vec![0x40; count];
        expect!(both.relocate(room, &list, &good), "refused 40 0 ");
        expect!(both.relocate(room, &good, &list), "refused 40 2 ");
        expect!(both.load(room, &list), "refused 40 0 ");
    }
    for short in [Room { memory: 0, ..room }, Room { records: 0, ..room }, Room { work: 0, ..room }] {
        expect!(both.load(short, &good), "refused 41 0 ");
    }
}

/// The numbers of the crate are those of the hunk table, and its refusal is the one that is given.
#[test]
fn kinds_of_memory_by_their_names() {
    let named = [
        (Memory::Any, jufferdeeg::ANY_MEMORY),
        (Memory::Chip, jufferdeeg::CHIP_MEMORY),
        (Memory::Fast, jufferdeeg::FAST_MEMORY),
    ];
    let file = |word: u32| bytes(&[HEADER, 0, 1, 0, 0, word, BSS, 0, END]);
    for (memory, number) in named {
        assert_eq!(memory.number(), number);
        let (mut bytes, mut table, mut work) = ([7; 4], [jufferdeeg::Hunk::default(); 2], [7; 4]);
        let file = file(memory.bits() | 1);
        let answer = jufferdeeg::load(&file, &[0x1000], &mut bytes, &mut table, &mut work);
        assert_eq!((answer.number, answer.hunks, answer.bytes), (0, 1, 4));
        let record = jufferdeeg::Hunk { kind: jufferdeeg::BSS, place: 0, size: 1, base: 0x1000, memory: number };
        assert_eq!(table, [record, jufferdeeg::Hunk::default()]);
        // a move writes it too, over whatever stood there
        table[0] = jufferdeeg::Hunk { kind: 9, place: 9, size: 9, base: 9, memory: 9 };
        let answer = jufferdeeg::move_program(&file, &[0x1000], &[0x2000], &mut bytes, &mut table, &mut work);
        assert_eq!(answer.number, 0);
        assert_eq!(table[0], jufferdeeg::Hunk { base: 0x2000, ..record });
    }
    let answer = jufferdeeg::check(&file(BOTH | 1));
    assert_eq!((answer.number, answer.place), (jufferdeeg::fault::BOTH_MEMORIES, 20));
    assert_eq!(jufferdeeg::reason(answer.number), "chip and fast memory are asked for at once");
}

/// Every number with a sentence and those around them, into outputs of every length up to beyond the sentence.
#[test]
fn sentences_as_far_as_they_fit() {
    let mut both = Both::default();
    let mut numbers = Vec::new();
    for number in (0..=100).chain([256 + 7, (1 << 16) + 7, (1 << 31) + 7, u32::MAX - 1, u32::MAX]) {
        let sentence = SENTENCES.iter().find(|&&(other, _)| other == number).map_or("", |&(_, text)| text);
        let length = sentence.len();
        for room in (0..length + 4).chain([jufferdeeg::REASON_BYTES, 1_000]) {
            let copied = &sentence.as_bytes()[..length.min(room)];
            assert_eq!(same!(both.reason(number, room)), format!("reason {length} {}", output(copied, room)));
        }
        assert_eq!(jufferdeeg::reason(number), sentence, "{number}");
        numbers.extend((length > 0).then_some(number));
    }
    assert!(numbers.into_iter().eq((1..=20).chain(30..=43)));
    assert!(SENTENCES.iter().all(|(_, text)| text.len() <= jufferdeeg::REASON_BYTES));
}
