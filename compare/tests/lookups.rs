//! Holds the program `probe` and the exported functions to the lookup and the reader of this package: 1 takes an image
//! over, 2 changes bytes of it, 4 finds a path on it, 5 reads a file, 9 names a number of blocks.
//!
//! Where the volume or the harm done to it tells the answer beforehand, this package is held to that as well. Images
//! are long; most are had by a patch to one that is held already, which is patched back after. Offsets that four
//! bytes do not hold are for the exported functions alone. Images of high-density disks are twice as long, and fewer of
//! them are drawn.

use std::collections::{BTreeMap, BTreeSet};
use std::ops::{Deref, DerefMut};

use compare::bad_volumes::{causes, harmless, scratch, wrong_lengths, Cause, Harm, Patch, NO_SIZES};
use compare::blocks::{DIRECTORY, FILE};
use compare::disk::{settled, Disk, ANY, FLOPPY, HIGH_DENSITY};
use compare::driver::checksum;
use compare::kinds::first_misfit_of_file;
use compare::lookup::{find, Found, LONGEST_PATH};
use compare::model::read_request;
use compare::names::{name, put_name, same, slot};
use compare::paths::{bad_forms, far_offsets, telling_offsets, telling_rooms, unfolded, Paths, Question};
use compare::program::Refusal;
use compare::reading::read;
use compare::rng::Rng;
use compare::sides::{in_turn, with_seeds, Who};
use compare::sizes::largest_file;
use compare::talk;
use compare::volumes::{
    any_name, any_style, both_sizes, chain, empty, every_byte, files, filled, lookalike, mixed, nested, recased,
    shuffle, telling_sizes, Entry, Fill, Filling, Kind, Order, Part, Plan, Style, Volume, FILLS,
};
use compare::words::{key_word, mend, put, slot_word, word, BLOCK_BYTES, BLOCK_WORDS, TABLE};

const FIND: u32 = 4;
const READ: u32 = 5;

const BAD: &str = "bad request";

/// What is in the output before a read.
const BEFORE: u8 = 0xAA;

/// The longest path, the longest output and the longest image that `probe` has room for.
const PATH_ROOM: usize = 4_096;
const OUTPUT_ROOM: usize = 1_048_576;
const IMAGE_ROOM: usize = 1_802_240;

/// The longest output that is asked for often; checksums of longer ones take their time.
const SHORT: usize = 2_000;

/// Every number that a lookup gives, and those that a read gives besides. 15 is of data blocks with words alone.
const OF_FIND: [u32; 14] = [1, 3, 4, 5, 6, 7, 8, 9, 10, 11, 12, 18, 19, 20];
fn of_read(disk: &Disk) -> &'static [u32] {
    if disk.has_data_words() {
        &[14, 15]
    } else {
        &[14]
    }
}

/// A disk, and the number of a refusal or 0.
type Answer = (Disk, u32);

/// How often each kind of answer is due.
#[derive(Default)]
struct Tally {
    /// By the disk that the image is for the call, or where it is none, by that which it was as it was sent.
    finds: BTreeMap<Answer, usize>,
    reads: BTreeMap<Answer, usize>,
    /// Calls that name no number of blocks.
    unnamed: BTreeMap<Disk, usize>,
    /// Lookups on a volume under the tag of another kind, by the disk that it was laid out for.
    retagged: BTreeMap<Answer, usize>,
    /// Reads of files that are found there, by that disk and by whether the other is of the same file system.
    reread: BTreeMap<(Answer, bool), usize>,
    /// Reads from an offset that four bytes do not hold.
    far: usize,
    /// Answers known beforehand, and those of them that a harm told.
    known: usize,
    told: usize,
}

/// A talk about one image, and what was asked in it.
struct Talk {
    talk: talk::Talk,
    /// The disk that the image was as it was sent.
    sent: Disk,
    tally: Tally,
}

/// The number of a refusal, or 0.
fn number<T>(answer: &Result<T, Refusal>) -> u32 {
    answer.as_ref().map_or_else(|refusal| refusal.number, |_| 0)
}

impl Deref for Talk {
    type Target = talk::Talk;

    fn deref(&self) -> &talk::Talk {
        &self.talk
    }
}

impl DerefMut for Talk {
    fn deref_mut(&mut self) -> &mut talk::Talk {
        &mut self.talk
    }
}

impl Talk {
    fn new(who: Who) -> Talk {
        Talk { talk: talk::Talk::new(who), sent: Disk::OLD, tally: Tally::default() }
    }

    /// Sends an image.
    fn image(&mut self, image: &[u8]) {
        self.sent = Disk::named(ANY, image).unwrap_or(self.sent);
        self.talk.image(image);
    }

    /// Lets calls name the number of blocks of the image that was sent, or none.
    fn name_rightly(&mut self, rng: &mut Rng) {
        let blocks = self.sent.blocks;
        self.name(rng.pick(&[blocks, blocks, ANY]));
    }

    /// Sends the image of a volume, for calls that name its number of blocks, or none.
    fn volume(&mut self, rng: &mut Rng, volume: &Volume) {
        self.image(&volume.image);
        self.name_rightly(rng);
    }

    /// The disk under which an answer is counted. Those that name no number of blocks are counted besides.
    fn counted(&mut self) -> Disk {
        let disk = Disk::named(self.named(), self.held()).unwrap_or(self.sent);
        if self.named() == ANY {
            *self.tally.unnamed.entry(disk).or_default() += 1;
        }
        disk
    }

    /// Does this with the image patched; it is as before afterwards.
    fn patched(&mut self, patches: &[Patch], then: impl FnOnce(&mut Talk)) {
        let undo = self.patch(patches);
        then(self);
        self.patch(&undo);
    }

    fn find(&mut self, path: &[u8]) -> Result<Found, Refusal> {
        let path = in_room(path);
        let answer = find(self.named(), self.held(), path);
        let disk = self.counted();
        *self.tally.finds.entry((disk, number(&answer))).or_default() += 1;
        let line = match answer {
            Ok(Found { kind, key, size, compared }) => {
                let kind = if kind == DIRECTORY { "directory" } else { "file" };
                format!("{kind} {key} {size} {compared}")
            }
            Err(Refusal { number, place }) => format!("refused {number} {place}"),
        };
        self.ask(FIND, path, &line);
        answer
    }

    /// A read, and the output after it.
    fn read(&mut self, path: &[u8], offset: usize, room: usize) -> (Result<usize, Refusal>, Vec<u8>) {
        let (path, mut output) = (in_room(path), vec![BEFORE; room]);
        let answer = read(self.named(), self.held(), path, offset, &mut output);
        let disk = self.counted();
        *self.tally.reads.entry((disk, number(&answer))).or_default() += 1;
        self.tally.far += usize::from(offset > u32::MAX as usize);
        let line = match answer {
            Ok(count) => format!("bytes {count}"),
            Err(Refusal { number, place }) => format!("refused {number} {place}"),
        };
        let (number, body) = read_request(offset, room, path);
        self.ask(number, &body, &format!("{line} out {}", checksum(&output)));
        (answer, output)
    }

    /// A lookup of which the answer is known beforehand.
    fn expect_find(&mut self, path: &[u8], due: Result<Found, Refusal>) {
        self.tally.known += 1;
        let answer = self.find(path);
        assert_eq!(answer, due, "{}: {path:?}", self.subject());
    }

    /// A read that is known to give bytes of a file with these contents.
    fn expect_bytes(&mut self, path: &[u8], offset: usize, room: usize, contents: &[u8]) {
        let rest: Vec<u8> = contents.iter().copied().skip(offset).take(room).collect();
        let due = (Ok(rest.len()), [&rest[..], &vec![BEFORE; room - rest.len()]].concat());
        self.tally.known += 1;
        let got = self.read(path, offset, room);
        assert!(got == due, "{}: {path:?} from {offset} into {room}", self.subject());
    }

    /// A read that is known to be refused so.
    fn expect_refused(&mut self, path: &[u8], offset: usize, room: usize, due: Refusal) {
        self.tally.known += 1;
        let got = self.read(path, offset, room);
        assert!(got == (Err(due), vec![BEFORE; room]), "{}: {path:?}: {:?}, not {due:?}", self.subject(), got.0);
    }

    fn run(self) {
        self.talk.run();
    }
}

/// As much of a path as `probe` has room for; one that is cut is too long before and after.
fn in_room(path: &[u8]) -> &[u8] {
    &path[..path.len().min(PATH_ROOM)]
}

fn read_body(offset: u32, room: u32, path: &[u8]) -> Vec<u8> {
    [&offset.to_be_bytes(), &room.to_be_bytes(), path].concat()
}

fn laid_out(rng: &mut Rng, plan: &Plan) -> Volume {
    let style = any_style(rng);
    Volume::new(rng, plan, style)
}

/// Where to read in a file of this size, and how much.
fn spot(rng: &mut Rng, disk: &Disk, size: u32) -> (usize, usize) {
    let any = rng.below(u64::from(size) + 1) as usize;
    let telling = rng.pick(&telling_offsets(disk, size)) as usize;
    let far = rng.pick(&far_offsets(disk, size));
    let offset = rng.pick(&[0, 0, any, any, telling, telling, telling, far]);
    let rooms = telling_rooms(disk, (size as usize).saturating_sub(offset));
    let room = rng.pick(&rooms).min(OUTPUT_ROOM);
    // few of the long ones
    (offset, if room > SHORT && rng.below(8) > 0 { rng.below(SHORT as u64) as usize } else { room })
}

/// The answers to a few paths on the volume without entries, without an opinion of this package, for each size and kind
/// of disk.
#[test]
fn the_empty_volume() {
    Disk::ALL.iter().for_each(an_empty_volume);
}

/// A floppy is named at first, and the larger one is refused.
fn an_empty_volume(disk: &Disk) {
    let volume = laid_out(&mut Rng::new(140), &empty(disk));
    let mut talk = talk::Talk::new(Who::Both);
    talk.image(&volume.image);
    let root = if disk.blocks == FLOPPY { "directory 880 0 0" } else { "directory 1760 0 0" };
    let answers = [
        (&b""[..], root),
        (b"a", "refused 19 0"),
        (b"a/b", "refused 19 0"),
        (b"/", "refused 18 0"),
        (b"a/", "refused 18 1"),
    ];
    for named in [FLOPPY, HIGH_DENSITY, ANY, 1] {
        let is_right = [ANY, disk.blocks].contains(&named);
        talk.about(format!("{disk:?}, {named} blocks named"));
        talk.name(named);
        for (path, answer) in answers {
            let answer = if is_right { answer } else { "refused 1 0" };
            talk.ask(FIND, path, answer);
            let answer = if path.is_empty() && is_right { "refused 20 0" } else { answer };
            // two bytes AA: 171 * 257 + 171
            talk.ask(READ, &read_body(0, 2, path), &format!("{answer} out 44118"));
            talk.ask(READ, &read_body(7, 0, path), &format!("{answer} out 0"));
        }
    }
    talk.run();
}

#[test]
fn before_any_image_its_length_is_zero() {
    let mut talk = Talk::new(Who::Both);
    for path in [&b""[..], b"a", b":", b"a/"] {
        talk.expect_find(path, Err(Refusal::at(1, 0)));
        talk.expect_refused(path, 0, 10, Refusal::at(1, 0));
    }
    talk.run();
}

/// What is no lookup and no read answers so, and the image held stays.
#[test]
fn paths_and_outputs_above_their_room_and_short_bodies_are_bad() {
    let mut rng = Rng::new(141);
    let plan = files(&mut rng, &Disk::OLD, &[1_000]);
    let volume = laid_out(&mut rng, &plan);
    let (paths, path) = (Paths::new(&volume), &volume.entries[0].name);
    let mut talk = Talk::new(Who::Both);
    talk.image(&volume.image);
    for length in [PATH_ROOM + 1, 10_000] {
        talk.about(format!("a path of {length}"));
        talk.ask(FIND, &vec![b'x'; length], BAD);
        talk.ask(READ, &read_body(0, 10, &vec![b'x'; length]), BAD);
        talk.expect_find(path, Ok(paths.found(0)));
    }
    talk.about("a path as long as its room");
    talk.expect_find(&[b'x'; PATH_ROOM], Err(Refusal::at(18, 0)));
    talk.expect_refused(&[b'x'; PATH_ROOM], 0, 10, Refusal::at(18, 0));
    for room in [OUTPUT_ROOM as u32 + 1, 1 << 31, u32::MAX] {
        talk.about(format!("an output of {room}"));
        talk.ask(READ, &read_body(0, room, path), BAD);
        talk.expect_bytes(path, 10, 100, &paths.contents(0));
    }
    talk.about("an output as long as its room");
    talk.expect_bytes(path, 0, OUTPUT_ROOM, &paths.contents(0));
    for length in 0..8 {
        talk.about(format!("a body of {length}"));
        talk.ask(READ, &vec![0; length], BAD);
        talk.expect_bytes(path, 999, 2, &paths.contents(0));
    }
    talk.run();
}

/// Names of one byte 130 directories deep, and longest names that come to a path of 255 bytes and one of 256.
fn deep(rng: &mut Rng, disk: &Disk) -> Volume {
    let mut plan = empty(disk);
    let letter = |rng: &mut Rng| [rng.pick(b"abcxyzABC\xC4\xE4")];
    (0..130).fold(None, |within, _| Some(plan.add_named(within, &letter(rng), Kind::Directory)));
    let eighth = (0..8u8).fold(None, |within, depth| {
        Some(plan.add_named(within, &[&[b'L'; 29][..], &[b'q' + depth]].concat(), Kind::Directory))
    });
    for (name, kind) in
        [(&b"sevenEF"[..], Kind::File(520)), (b"seven_D", Kind::Directory), (b"eight__F", Kind::File(1))]
    {
        plan.add_named(eighth, name, kind);
    }
    laid_out(rng, &plan)
}

/// Names that lie near one another, in pairs on one chain.
fn near_names(rng: &mut Rng, disk: &Disk) -> Volume {
    let mut plan = empty(disk);
    let mut pairs = 0;
    let mut names: Vec<Vec<u8>> = Vec::new();
    while pairs < 25 {
        let name = any_name(rng);
        let Some(near) = unfolded(rng, disk, &name) else { continue };
        if ![&name, &near].into_iter().any(|new| names.iter().any(|name| same(disk, name, new))) {
            for name in [&name, &near] {
                plan.add_named(None, name, rng.pick(&[Kind::Directory, Kind::File(0), Kind::File(520)]));
            }
            names.extend([name, near]);
            pairs += 1;
        }
    }
    laid_out(rng, &plan)
}

/// Volumes of moderate size on a disk of this size and kind, and what they are; few of high-density disks.
fn moderate(rng: &mut Rng, disk: &Disk) -> Vec<(String, Volume)> {
    let named = |(what, volume): (String, Volume)| (format!("{disk:?}, {what}"), volume);
    if disk.blocks != FLOPPY {
        let full = disk.data_bytes();
        let plans = [
            ("one list", files(rng, disk, &[TABLE * full + 1, 0, full + 1])),
            ("20 on a chain", chain(rng, disk, 20)),
            ("mixed, 80 blocks", mixed(rng, disk, 80)),
        ];
        return plans.iter().map(|(what, plan)| named((what.to_string(), laid_out(rng, plan)))).collect();
    }
    let mut volumes =
        vec![("deep".to_string(), deep(rng, disk)), ("near names".to_string(), near_names(rng, disk))];
    let table = TABLE * disk.data_bytes();
    let plans = [
        ("telling sizes", files(rng, disk, &telling_sizes(disk))),
        ("several lists", files(rng, disk, &[3 * table + 1, 2 * table, 1])),
        ("30 nested", nested(rng, disk, 30)),
        ("40 on a chain", chain(rng, disk, 40)),
    ];
    volumes.extend(plans.iter().map(|(what, plan)| (what.to_string(), laid_out(rng, plan))));
    for blocks in [40, 120, 250] {
        let plan = mixed(rng, disk, blocks);
        volumes.push((format!("mixed, {blocks} blocks"), laid_out(rng, &plan)));
    }
    volumes.into_iter().map(named).collect()
}

/// A volume that fills its disk, which is of this size and of some kind.
fn large(rng: &mut Rng, blocks: u32, fill: Fill) -> (String, Volume) {
    let disk = rng.pick(&Disk::of_blocks(blocks));
    let plan = filled(rng, &disk, fill);
    (format!("{blocks} blocks, {fill:?}"), laid_out(rng, &plan))
}

/// All entries of all volumes, by their paths; of those that fill a high-density disk one in ten, and the last.
#[test]
fn every_entry_is_found_and_every_file_read() {
    let mut rng = Rng::new(142);
    let (mut found, mut out_of_reach, mut bytes) = (0, 0, 0);
    let mut volumes: Vec<(String, Volume)> = Disk::ALL.iter().flat_map(|disk| moderate(&mut rng, disk)).collect();
    for blocks in [FLOPPY, HIGH_DENSITY] {
        volumes.extend(FILLS.map(|fill| large(&mut rng, blocks, fill)));
    }
    for (what, volume) in &volumes {
        let named = rng.pick(&[volume.disk.blocks, ANY]);
        let paths = Paths::new(volume);
        let count = volume.entries.len();
        let is_asked = |number: usize| count < 1_800 || number % 10 == 0 || number + 1 == count;
        for (number, entry) in volume.entries.iter().enumerate().filter(|&(number, _)| is_asked(number)) {
            let Question { path, due, .. } = paths.existing(&mut rng, number);
            let answer = find(named, &volume.image, &path);
            assert_eq!(answer, due, "{what}: {path:?}");
            let Ok(Found { kind, key, size, .. }) = answer else {
                assert!(path.len() > LONGEST_PATH, "{what}: {path:?}");
                out_of_reach += 1;
                continue;
            };
            found += 1;
            let due = if entry.kind == Kind::Directory { (DIRECTORY, 0) } else { (FILE, entry.size()) };
            assert_eq!(((kind, size), key), (due, entry.key), "{what}: {path:?}");
            let mut output = vec![BEFORE; size as usize + 3];
            let answer = read(named, &volume.image, &path, 0, &mut output);
            if kind == DIRECTORY {
                let last = paths.components(Some(number)).len() - 1;
                assert_eq!(answer, Err(Refusal::at(20, last)), "{what}: {path:?}");
                continue;
            }
            assert_eq!(answer, Ok(size as usize), "{what}: {path:?}");
            assert!(output == [&paths.contents(number)[..], &[BEFORE; 3]].concat(), "{what}: {path:?}");
            bytes += size;
        }
    }
    assert!(found > 3_000 && out_of_reach > 1_500 && bytes > 4_000_000, "{found} {out_of_reach} {bytes}");
}

/// Images of every length with every number of blocks that may be named, and with some that may not, and good images
/// with other tags, asked for paths of all forms.
fn lengths(who: Who, rng: &mut Rng, disk: &Disk) -> Talk {
    let mut talk = Talk { sent: *disk, ..Talk::new(who) };
    let plan = mixed(rng, disk, 30);
    let volume = laid_out(rng, &plan);
    let path = Paths::new(&volume).path(0);
    let all = [&b""[..], &path, b"nobody", b"a//b", &[b'x'; 256]];
    // with this number none is right
    for length in wrong_lengths(1).into_iter().filter(|&length| length <= IMAGE_ROOM) {
        let mut image = volume.image.clone();
        image.resize(length, 0);
        talk.image(&image);
        for named in [ANY, FLOPPY, HIGH_DENSITY, rng.pick(&NO_SIZES)] {
            talk.about(format!("{length} bytes, {named} blocks named"));
            talk.name(named);
            let is_settled = settled(named, length).is_some();
            for path in [rng.pick(&all), rng.pick(&all)].into_iter().filter(|_| !is_settled) {
                talk.expect_find(path, Err(Refusal::at(1, 0)));
                talk.expect_refused(path, 0, 9, Refusal::at(1, 0));
            }
            if is_settled {
                talk.expect_find(b"a//b", Err(Refusal::at(18, 1)));
                look(&mut talk, rng, &all.map(<[u8]>::to_vec));
            }
        }
    }
    talk.volume(rng, &volume);
    let lower = [b'd', b'o', b's', disk.kind];
    for tag in [*b"KICK", *b"DOS\x04", *b"DOS\x05", *b"DOS\x81", *b"DOS\xFF", *b"dos\0", lower, [0; 4]] {
        talk.about(format!("the boot tag {tag:?}"));
        talk.patched(&[(0, tag.to_vec())], |talk| {
            for (path, due) in all.into_iter().zip([(3, 0), (3, 0), (3, 0), (18, 1), (18, 0)]) {
                talk.expect_find(path, Err(Refusal::at(due.0, due.1)));
                talk.expect_refused(path, 0, 9, Refusal::at(due.0, due.1));
            }
        });
    }
    talk
}

/// Images that are floppies if they are cut to a floppy's length, and else such high-density disks.
fn sizes_in_one(who: Who, rng: &mut Rng, larger: &[Disk]) -> Talk {
    let mut talk = Talk::new(who);
    for disk in larger {
        let both = both_sizes(rng, disk.kind, 25);
        for volume in &both {
            talk.about(format!("{:?} in one image with the other size", volume.disk));
            talk.image(&both[1].image[..volume.image.len()]);
            let paths = Paths::new(volume);
            for named in [FLOPPY, ANY, HIGH_DENSITY, rng.pick(&NO_SIZES)] {
                let is_right = [ANY, volume.disk.blocks].contains(&named);
                talk.name(named);
                for question in [paths.root()].into_iter().chain((0..6).map(|_| any_question(rng, &paths))) {
                    let due = if is_right { question.due } else { Err(Refusal::at(1, 0)) };
                    talk.expect_find(&question.path, due);
                }
                for _ in (0..4).filter(|_| is_right) {
                    let number = any_entry(rng, volume);
                    reads(&mut talk, rng, &paths, number, 1);
                }
            }
        }
    }
    talk
}

/// Some entry of a volume that has one.
fn any_entry(rng: &mut Rng, volume: &Volume) -> usize {
    rng.below(volume.entries.len() as u64) as usize
}

/// The path of some entry, or one that leads nowhere.
fn any_question(rng: &mut Rng, paths: &Paths) -> Question {
    let number = any_entry(rng, paths.volume);
    match rng.below(3) {
        0 => paths.missing(rng, None).remove(0),
        _ => paths.existing(rng, number),
    }
}

/// Keys around both ends of either size of disk, in each word on the way to a file and in its tables: those that no
/// block of the disk has are refused by 5, the others are not.
fn keys(who: Who, rng: &mut Rng, disk: &Disk) -> Talk {
    let mut talk = Talk::new(who);
    let Target { volume, path, file, slots, .. } = target(rng, disk, 73 * disk.data_bytes() + 5);
    talk.volume(rng, &volume);
    let outer = on_chain(&volume, disk.root(), slots[0]);
    let (list, before) = (file.lists[0], outer[0].key);
    for key in [1, 2, 879, 880, 1_758, 1_759, 1_760, 1_761, 3_518, 3_519, 3_520, 3_521, u32::MAX] {
        let is_key = (2..disk.blocks).contains(&key);
        for (what, holder, index, is_found) in [
            ("slot", disk.root(), slot_word(slots[0]), false),
            ("chain link", before, 124, false),
            ("slot of the directory", file.directory, slot_word(slots[1]), false),
            ("data key", file.key, key_word(0), true),
            ("data key", file.key, key_word(71), true),
            ("list link", file.key, 126, true),
            ("data key in a list", list, key_word(1), true),
        ] {
            talk.about(format!("{disk:?}: {what} {key}"));
            talk.patched(&[put_words(&volume, holder, &[(index, key)])], |talk| {
                let due = Err(Refusal::at(5, key as usize));
                let (found, (read, _)) = (talk.find(&path), talk.read(&path, 3, 9));
                assert_eq!(found.map(|_| 0) == due, !is_key && !is_found, "{}: {found:?}", talk.subject());
                assert_eq!(read.map(|_| 0) == due, !is_key, "{}: {read:?}", talk.subject());
            });
        }
    }
    talk
}

/// Asks questions, most often as lookups.
fn ask(talk: &mut Talk, rng: &mut Rng, what: &str, questions: &[Question]) {
    for question in questions {
        talk.about(format!("{what}: {}", question.what));
        match question.due {
            Err(due) if rng.below(3) == 0 => {
                let (offset, room) = spot(rng, &talk.sent, 600);
                talk.expect_refused(&question.path, offset, room, due);
            }
            due => talk.expect_find(&question.path, due),
        }
    }
}

/// Reads in a file, if the entry is one in reach, else what is due for it.
fn reads(talk: &mut Talk, rng: &mut Rng, paths: &Paths, number: usize, times: usize) {
    let Question { path, due, .. } = paths.existing(rng, number);
    let last = paths.components(Some(number)).len() - 1;
    let contents = paths.contents(number);
    for _ in 0..times {
        let (offset, room) = spot(rng, &paths.volume.disk, contents.len() as u32);
        match due {
            Ok(found) if found.kind == FILE => talk.expect_bytes(&path, offset, room, &contents),
            Ok(_) => talk.expect_refused(&path, offset, room, Refusal::at(20, last)),
            Err(due) => talk.expect_refused(&path, offset, room, due),
        }
    }
}

/// Questions about these entries, and about some of them that are directories.
fn questions(rng: &mut Rng, paths: &Paths, numbers: &[usize]) -> Vec<Question> {
    let is_directory = |number: &usize| paths.volume.entries[*number].kind == Kind::Directory;
    let (directories, files): (Vec<usize>, Vec<usize>) = numbers.iter().partition(|number| is_directory(number));
    let mut questions = vec![paths.root()];
    questions.extend(numbers.iter().map(|&number| paths.existing(rng, number)));
    questions.extend(files.iter().map(|&number| paths.past_file(rng, number)));
    for within in directories.into_iter().take(8).map(Some).chain([None, None]) {
        questions.extend(paths.missing(rng, within));
    }
    for number in numbers.iter().take(3).copied().map(Some).chain([None]) {
        questions.extend(bad_forms(rng, &paths.components(number)));
    }
    let lengths = [LONGEST_PATH - 1, LONGEST_PATH, LONGEST_PATH + 1, 300];
    questions.extend(lengths.map(|length| paths.of_length(rng, None, length)));
    questions
}

/// Paths on a volume as it is: to so many of its entries, and to where nothing is.
fn as_is(talk: &mut Talk, rng: &mut Rng, what: &str, volume: &Volume, times: usize) {
    let paths = Paths::new(volume);
    talk.about(what);
    talk.volume(rng, volume);
    talk.expect_refused(b"", 0, 5, Refusal::at(20, 0));
    named_otherwise(talk, rng, what, volume);
    let mut numbers: Vec<usize> = (0..volume.entries.len()).collect();
    shuffle(rng, &mut numbers);
    numbers.truncate(times);
    let questions = questions(rng, &paths, &numbers);
    ask(talk, rng, what, &questions);
    numbers.iter().for_each(|&number| reads(talk, rng, &paths, number, 2));
}

/// A good volume of which another size is named, or a number that no disk has: it is refused, whatever the path.
fn named_otherwise(talk: &mut Talk, rng: &mut Rng, what: &str, volume: &Volume) {
    let (before, paths) = (talk.named(), Paths::new(volume));
    for named in volume.disk.other_sizes().map(|other| other.blocks).chain([rng.pick(&NO_SIZES)]) {
        talk.about(format!("{what}: {named} blocks named"));
        talk.name(named);
        for path in [&b""[..], b"a//b", b"nobody", &paths.path(any_entry(rng, volume))] {
            talk.expect_find(path, Err(Refusal::at(1, 0)));
        }
        talk.expect_refused(b":", 0, 5, Refusal::at(1, 0));
        talk.expect_refused(&paths.path(any_entry(rng, volume)), 0, 5, Refusal::at(1, 0));
    }
    talk.name(before);
}

/// The volume with long paths: those of 255 bytes, of 256, and of 128 components.
fn long_paths(who: Who, rng: &mut Rng, disk: &Disk) -> Talk {
    let mut talk = Talk::new(who);
    let volume = deep(rng, disk);
    let paths = Paths::new(&volume);
    talk.about("long paths");
    talk.volume(rng, &volume);
    let lengths: BTreeSet<usize> = (0..volume.entries.len()).map(|number| paths.path(number).len()).collect();
    assert!(lengths.contains(&255) && lengths.contains(&256), "{lengths:?}");
    for number in 0..volume.entries.len() {
        let question = paths.existing(rng, number);
        talk.expect_find(&question.path, question.due);
        reads(&mut talk, rng, &paths, number, 1);
        let components = paths.components(Some(number));
        if components.len() > 125 && components.len() < 130 {
            let questions = [bad_forms(rng, &components), paths.missing(rng, Some(number))].concat();
            ask(&mut talk, rng, "long paths", &questions);
        }
    }
    talk
}

/// Files of telling sizes, read from every telling offset into every telling room.
fn ends(who: Who, rng: &mut Rng, disk: &Disk) -> Talk {
    let mut talk = Talk::new(who);
    let (full, table) = (disk.data_bytes(), TABLE * disk.data_bytes());
    let sizes = [&telling_sizes(disk)[..], &[2 * full, 2 * table, 2 * table + 1]].concat();
    let plan = files(rng, disk, &sizes);
    let volume = laid_out(rng, &plan);
    let paths = Paths::new(&volume);
    talk.volume(rng, &volume);
    for (number, entry) in volume.entries.iter().enumerate() {
        talk.about(format!("a file of {} bytes", entry.size()));
        let (path, contents) = (paths.path(number), paths.contents(number));
        let near = telling_offsets(disk, entry.size()).into_iter().map(|offset| offset as usize);
        for offset in near.chain(far_offsets(disk, entry.size())) {
            let left = contents.len().saturating_sub(offset);
            for room in telling_rooms(disk, left) {
                if room < SHORT || rng.below(4) == 0 {
                    talk.expect_bytes(&path, offset, room, &contents);
                }
            }
        }
    }
    talk
}

/// The key of the block that a patch changes.
fn patched_key((place, _): &Patch) -> u32 {
    (place / BLOCK_BYTES) as u32
}

fn part(volume: &Volume, key: u32) -> Option<Part> {
    volume.position(key).map(|position| volume.order[position].part)
}

/// The entry that a block belongs to.
fn owner(volume: &Volume, key: u32) -> Option<usize> {
    match part(volume, key)? {
        Part::Root | Part::Bitmap => None,
        Part::Directory(number) | Part::File(number) => Some(number),
        Part::List(number, _) | Part::Data(number, _) => Some(number),
    }
}

/// The words that a patch of a whole block changes.
fn changed_words(volume: &Volume, patch: &Patch) -> Vec<usize> {
    let old = volume.block(patched_key(patch));
    (0..BLOCK_WORDS).filter(|&index| word(old, index) != word(&patch.1, index)).collect()
}

/// The path of no entry, for which the chain of this slot in a directory is gone through.
fn lacking(rng: &mut Rng, paths: &Paths, within: Option<usize>, hangs: u32) -> Vec<u8> {
    let mut components = paths.components(within);
    components.push(paths.new_name(rng, within, |name| slot(&paths.volume.disk, name) == hangs));
    components.join(&b'/')
}

/// Paths to the chain of this slot in a directory: to some entry that hangs in it, and to one that does not.
fn to_slot(rng: &mut Rng, paths: &Paths, within: Option<usize>, hangs: u32) -> Vec<Vec<u8>> {
    let volume = paths.volume;
    let key = within.map_or(volume.disk.root(), |number| volume.entries[number].key);
    let on_chain = |entry: &Entry| entry.directory == key && entry.slot == hangs;
    let all: Vec<usize> = (0..volume.entries.len()).filter(|&n| on_chain(&volume.entries[n])).collect();
    let some = (!all.is_empty()).then(|| paths.path(rng.pick(&all)));
    some.into_iter().chain([lacking(rng, paths, within, hangs)]).collect()
}

/// Paths that lead to what patches change, and past it.
fn concerned(rng: &mut Rng, paths: &Paths, patches: &[Patch]) -> Vec<Vec<u8>> {
    let volume = paths.volume;
    let mut all = Vec::new();
    for patch in patches {
        let key = patched_key(patch);
        let Some(part) = part(volume, key) else { continue };
        let mut words = changed_words(volume, patch);
        shuffle(rng, &mut words);
        all.extend(owner(volume, key).map(|number| paths.path(number)));
        if let Part::Directory(number) | Part::File(number) = part {
            if words.contains(&124) {
                let entry = &volume.entries[number];
                let within = owner(volume, entry.directory);
                all.extend(to_slot(rng, paths, within, entry.slot));
            }
        }
        if let Part::Directory(_) | Part::Root = part {
            let slots = words.iter().filter_map(|&index| (0..TABLE).find(|&slot| slot_word(slot) == index));
            for slot in slots.chain([rng.below(72) as u32]).take(2) {
                all.extend(to_slot(rng, paths, owner(volume, key), slot));
            }
        }
    }
    if !volume.entries.is_empty() {
        all.push(paths.path(rng.below(volume.entries.len() as u64) as usize));
    }
    shuffle(rng, &mut all);
    all.truncate(5);
    all
}

/// Asks for paths on whatever is held: both calls, or one of them.
fn look(talk: &mut Talk, rng: &mut Rng, all: &[Vec<u8>]) {
    for path in all {
        let (finds, reads) = rng.pick(&[(true, true), (true, true), (true, false), (false, true)]);
        let found = find(talk.named(), talk.held(), path);
        if finds {
            let _ = talk.find(path);
        }
        if reads {
            let disk = Disk::named(talk.named(), talk.held()).unwrap_or(talk.sent);
            let size = found.map_or(500, |found| found.size.min(largest_file(&disk)));
            let (offset, room) = spot(rng, &disk, size);
            let (answer, output) = talk.read(path, offset, room);
            let untouched = output.iter().all(|&byte| byte == BEFORE);
            assert!(answer.is_ok() || untouched, "{}: {path:?}", talk.subject());
            assert!(found.is_ok() || answer.err() == found.err(), "{}: {path:?}", talk.subject());
        }
    }
}

/// The entry whose path is due for the refusal that an audit gives: all harm lies in its blocks, and is of a kind
/// that lookups and reads ask for too.
fn bearer(volume: &Volume, harm: &Harm, patches: &[Patch]) -> Option<usize> {
    let owners: BTreeSet<Option<usize>> = patches.iter().map(|p| owner(volume, patched_key(p))).collect();
    let number = owners.first().copied().flatten().filter(|_| owners.len() == 1)?;
    let (due, entry) = (harm.due(), &volume.entries[number]);
    let is_asked = ![6, 13, 16, 17].contains(&due.number);
    let in_link = |patch: &Patch| patched_key(patch) == entry.key && changed_words(volume, patch).contains(&124);
    let in_file = entry.kind != Kind::Directory && !patches.iter().any(in_link);
    let is_own = owner(volume, due.place as u32) == Some(number);
    (is_asked && (is_own || in_file)).then_some(number)
}

/// The entry that is found first where a patch gives its name to a later one.
fn earlier_namesake(volume: &Volume, patches: &[Patch]) -> Option<usize> {
    let changed = &volume.entries[owner(volume, patched_key(&patches[0]))?];
    let new = name(&patches[0].1)?;
    let is_same = |entry: &Entry| same(&volume.disk, &entry.name, new);
    volume.entries.iter().position(|entry| entry.directory == changed.directory && is_same(entry))
}

/// A harm, and what is known of it.
fn harmed(talk: &mut Talk, rng: &mut Rng, paths: &Paths, harm: &Harm) {
    talk.name_rightly(rng);
    let (patches, due) = (harm.patches(), harm.due());
    let all = concerned(rng, paths, &patches);
    let disk = &paths.volume.disk;
    let in_root = due.number == 3 || due.place == disk.root() as usize && [4, 7, 8, 11].contains(&due.number);
    let bearer = bearer(paths.volume, harm, &patches).filter(|&number| paths.is_within_reach(number));
    let namesake = (due.number == 13).then(|| earlier_namesake(paths.volume, &patches)).flatten();
    talk.patched(&patches, |talk| {
        look(talk, rng, &all);
        let (offset, room) = spot(rng, disk, 1_000);
        if let Some(number) = bearer {
            talk.tally.told += 1;
            talk.expect_refused(&paths.existing(rng, number).path, offset, room, due);
        }
        if let Some(number) = namesake {
            talk.tally.told += 1;
            let Question { path, due, .. } = paths.existing(rng, number);
            talk.expect_find(&path, due);
        }
        if in_root {
            talk.expect_find(b"", Err(due));
            talk.expect_refused(b"nobody/at/all", offset, room, due);
            talk.expect_find(b"no//body", Err(Refusal::at(18, 1)));
        }
    });
}

/// Some of the harms that an audit finds: of each cause with this chance in a hundred.
fn harms(talk: &mut Talk, rng: &mut Rng, what: &str, volume: &Volume, chance: u64) {
    let paths = Paths::new(volume);
    let chosen: Vec<&Cause> = causes().filter(|_| rng.below(100) < chance).collect();
    for cause in chosen {
        let Some(harm) = cause.harm(rng, volume) else { continue };
        talk.about(format!("{what}: {} by {}", cause.number, cause.what));
        harmed(talk, rng, &paths, &harm);
        if rng.below(4) == 0 {
            talk.about(format!("{what}: {} by {}, sums not mended", cause.number, cause.what));
            if let Some(harm) = harm.unmended() {
                harmed(talk, rng, &paths, &harm);
            }
        }
    }
}

/// Scratches of which nothing is known beforehand, one at a time and many together, and what harms no one.
fn scratches(talk: &mut Talk, rng: &mut Rng, what: &str, volume: &Volume, times: usize) {
    let paths = Paths::new(volume);
    for number in 0..times {
        talk.about(format!("{what}: scratch {number}"));
        let patches = scratch(rng, volume);
        let all = concerned(rng, &paths, &patches);
        talk.patched(&patches, |talk| look(talk, rng, &all));
    }
    for number in 0..times / 10 {
        talk.about(format!("{what}: harmless {number}"));
        talk.patched(&harmless(rng, volume), |talk| {
            let questions = (0..volume.entries.len().min(4)).map(|_| rng.below(volume.entries.len() as u64));
            let questions: Vec<usize> = questions.map(|number| number as usize).collect();
            for number in questions {
                let Question { path, due, .. } = paths.existing(rng, number);
                talk.expect_find(&path, due);
            }
        });
    }
    for number in 0..times / 20 {
        talk.about(format!("{what}: wreck {number}"));
        let wrecks: Vec<Patch> = (0..8).flat_map(|_| scratch(rng, volume)).collect();
        // the boot tag and the root would hide the rest
        let is_hiding = |patch: &Patch| [0, volume.disk.root()].contains(&patched_key(patch));
        let wrecks: BTreeMap<usize, Vec<u8>> = wrecks.into_iter().filter(|patch| !is_hiding(patch)).collect();
        let patches: Vec<Patch> = wrecks.into_iter().collect();
        let numbers = (0..12).map(|_| rng.below(volume.entries.len() as u64 + 1) as usize).collect::<Vec<_>>();
        let in_reach = numbers.into_iter().filter(|&number| number < volume.entries.len());
        let all: Vec<Vec<u8>> = in_reach.map(|number| paths.path(number)).collect();
        talk.patched(&patches, |talk| look(talk, rng, &all));
    }
}

/// A patch that puts words into a block and mends its sum.
fn put_words(volume: &Volume, key: u32, words: &[(usize, u32)]) -> Patch {
    let mut block = volume.block(key).to_vec();
    words.iter().for_each(|&(index, value)| put(&mut block, index, value));
    mend(&mut block, if key == volume.bitmap { 0 } else { 5 });
    (key as usize * BLOCK_BYTES, block)
}

/// A patch that makes the bitmap block an empty file of the root or of a directory, the last on its chain.
fn bitmap_as_file(volume: &Volume, directory: u32, name: &[u8]) -> Patch {
    let key = volume.bitmap;
    let words = [(0, 2), (1, key), (2, 0), (4, 0), (81, 0), (124, 0), (125, directory), (126, 0), (127, FILE)];
    let mut block = volume.block(key).to_vec();
    words.iter().for_each(|&(index, value)| put(&mut block, index, value));
    put_name(&mut block, name);
    mend(&mut block, 5);
    (key as usize * BLOCK_BYTES, block)
}

/// Another value for a word.
fn other(rng: &mut Rng, value: u32) -> u32 {
    let near = [value.wrapping_add(1), value.wrapping_sub(1), value ^ 1 << rng.below(32), rng.draw() as u32];
    let all: Vec<u32> =
        near.into_iter().chain([0, 1, 880, 1_760, u32::MAX]).filter(|&other| other != value).collect();
    rng.pick(&all)
}

/// A directory with a file in it, and one path to both: what is found, and what is read.
struct Target {
    volume: Volume,
    path: Vec<u8>,
    found: Found,
    contents: Vec<u8>,
    file: Entry,
    /// The slots of the directory and of the file.
    slots: [u32; 2],
}

/// A target of this size, after and before others on its chains.
fn target(rng: &mut Rng, disk: &Disk, size: u32) -> Target {
    let mut plan = empty(disk);
    plan.add(rng, None, Some(30), Kind::File(3));
    let within = Some(plan.add(rng, None, Some(30), Kind::Directory));
    plan.add(rng, None, Some(30), Kind::Directory);
    plan.add(rng, within, Some(41), Kind::Directory);
    plan.add(rng, within, Some(41), Kind::File(size));
    plan.add(rng, within, Some(41), Kind::File(disk.data_bytes()));
    let volume = laid_out(rng, &plan);
    let number = volume.entries.iter().position(|entry| entry.size() == size).expect("the file");
    let paths = Paths::new(&volume);
    let (path, found, contents) = (paths.path(number), paths.found(number), paths.contents(number));
    let file = volume.entries[number].clone();
    Target { volume, path, found, contents, file, slots: [30, 41] }
}

impl Target {
    /// Whether a word of such a block plays no part in finding and reading the target.
    fn is_unread(&self, part: Part, index: usize) -> bool {
        let is_slot_of = |slot: u32| index == slot_word(slot);
        let is_slot = (0..TABLE).any(is_slot_of);
        let here = match part {
            Part::Bitmap => true,
            Part::Root => (78..=104).contains(&index) || is_slot && !is_slot_of(self.slots[0]),
            Part::Directory(_) => index == 124 || is_slot && !is_slot_of(self.slots[1]),
            Part::File(_) => index == 124,
            _ => false,
        };
        here || self.volume.spare(part).contains(&index)
    }

    /// Asks for the target with this word changed.
    fn ask(&self, talk: &mut Talk, rng: &mut Rng, key: u32, index: usize, mended: bool) {
        let part = part(&self.volume, key).expect("a block of the volume");
        let value = other(rng, word(self.volume.block(key), index));
        let (place, block) = put_words(&self.volume, key, &[(index, value)]);
        let unmended = (place + 4 * index, value.to_be_bytes().to_vec());
        let patch = if mended { (place, block) } else { unmended };
        let is_header = matches!(part, Part::Root | Part::Directory(_) | Part::File(_));
        let is_summed = part != Part::Bitmap && self.volume.is_summed(part);
        let due = Refusal::at(7, key as usize);
        let (offset, room) = spot(rng, &self.volume.disk, self.contents.len() as u32);
        talk.about(format!("{part:?}: w{index} is {value:X}, sum mended: {mended}"));
        talk.patched(&[patch], |talk| {
            if !mended && is_summed {
                talk.expect_find(&self.path, if is_header { Err(due) } else { Ok(self.found) });
                talk.expect_refused(&self.path, offset, room, due);
            } else if self.is_unread(part, index) {
                talk.expect_find(&self.path, Ok(self.found));
                let (answer, _) = talk.read(&self.path, offset, room);
                assert!(answer.is_ok(), "{}", talk.subject());
            } else {
                look(talk, rng, &[self.path.clone()]);
            }
        });
    }
}

/// Every word of every kind of block, changed with the sum mended and without.
fn every_word(who: Who, rng: &mut Rng, disk: &Disk) -> Talk {
    let mut talk = Talk::new(who);
    let target = target(rng, disk, 73 * disk.data_bytes() + 5);
    talk.volume(rng, &target.volume);
    let headers =
        [disk.root(), target.volume.bitmap, target.file.directory, target.file.key, target.file.lists[0]];
    let data = [0, 30, 71, 72, 73].map(|index| target.file.data[index]);
    for index in 0..BLOCK_WORDS {
        let some_data = data.iter().filter(|_| index < 7 || rng.below(20) == 0).copied().collect::<Vec<_>>();
        for key in headers.into_iter().chain(some_data) {
            for mended in [true, true, false] {
                target.ask(&mut talk, rng, key, index, mended);
            }
        }
    }
    talk
}

/// Damage to each block of a file in turn, with reads of what lies before it, in it and after it. In the Fast File
/// System damage to a data block is another file's bytes, and is read; of these only the key can be wrong.
fn in_the_middle(who: Who, rng: &mut Rng, disk: &Disk) -> Talk {
    let mut talk = Talk::new(who);
    let full = disk.data_bytes() as usize;
    let Target { volume, path, file, found, contents, .. } = target(rng, disk, 150 * full as u32 - 7);
    talk.volume(rng, &volume);
    let mut harms = Vec::new();
    for (index, &key) in file.data.iter().enumerate() {
        let next = file.data.get(index + 1).copied().unwrap_or(key);
        let index = rng.pick(&[1, 2, 3]);
        harms.extend([(key, 0, 8, key), (key, index, 15, key), (key, 4, 15, next)]);
    }
    for &key in &file.lists {
        let [types, keys] = [rng.pick(&[0, 127]), rng.pick(&[1, 125])];
        harms.extend([(key, types, 8, key), (key, keys, 10, key), (key, 2, 14, key)]);
    }
    for (key, index, number, place) in harms {
        talk.about(format!("block {key}, w{index}"));
        let value = other(rng, word(volume.block(key), index));
        let block = file.data.iter().position(|&data| data == key);
        let start = block.unwrap_or(72) * full;
        let far = (1 << 32) + start;
        let spots =
            [(0, 1), (0, start.min(SHORT)), (start, full), (start + full, 700), (far, full), (usize::MAX, 3)];
        if block.is_some() && !disk.has_data_words() {
            let mut contents = contents.clone();
            let new = value.to_be_bytes();
            contents[start + 4 * index..][..4].copy_from_slice(&new);
            talk.patched(&[(key as usize * BLOCK_BYTES + 4 * index, new.to_vec())], |talk| {
                let (offset, room) = rng.pick(&spots);
                talk.expect_bytes(&path, offset, room, &contents);
                talk.expect_bytes(&path, start.saturating_sub(1), 30, &contents);
            });
            continue;
        }
        talk.patched(&[put_words(&volume, key, &[(index, value)])], |talk| {
            let (offset, room) = rng.pick(&spots);
            talk.expect_refused(&path, offset, room, Refusal::at(number, place as usize));
            if index == 0 {
                talk.expect_find(&path, Ok(found));
            }
        });
        let flipped = volume.block(key)[BLOCK_BYTES - 1] ^ 1;
        talk.patched(&[(key as usize * BLOCK_BYTES + BLOCK_BYTES - 1, vec![flipped])], |talk| {
            let (offset, room) = rng.pick(&spots);
            talk.expect_refused(&path, offset, room, Refusal::at(7, key as usize));
        });
    }
    talk
}

/// Reads around every end of a block, of a table and of the file, in a file with two list blocks, and of the last byte
/// of the largest file; with all data blocks and w4 of the header as the style has them. In the Fast File System then
/// with other words at the beginning of each block.
fn boundaries(who: Who, rng: &mut Rng, disk: &Disk) -> Talk {
    let mut talk = Talk::new(who);
    let full = disk.data_bytes() as usize;
    let size = 2 * 72 * full + 2 * full + 9;
    let fillings = [Filling::Random, Filling::Stale, Filling::Old];
    let style = Style { filling: rng.pick(&fillings), order: Order::Shuffled };
    let mut plan = empty(disk);
    plan.add_named(None, b"file", Kind::File(size as u32));
    let volume = Volume::new(rng, &plan, style);
    let contents = Paths::new(&volume).contents(0);
    talk.about(format!("{disk:?}, {style:?}: boundaries"));
    talk.volume(rng, &volume);
    let mut ends: Vec<usize> = (0..=size / full).map(|blocks| blocks * full).chain([size]).collect();
    ends.retain(|end| [0, 1, 2, 71, 72, 73, 143, 144, 145, 146].contains(&(end / full)) || rng.below(8) == 0);
    for end in ends {
        for offset in [end.saturating_sub(1), end, end + 1] {
            for room in [0, 1, full - 1, full, full + 1] {
                if rng.below(2) == 0 {
                    talk.expect_bytes(b"file", offset, room, &contents);
                }
            }
        }
    }
    if !disk.has_data_words() {
        let entry = &volume.entries[0];
        let mut changed = volume.image.clone();
        for &key in &entry.data {
            let words = rng.bytes(24);
            changed[key as usize * BLOCK_BYTES..][..24].copy_from_slice(&words);
        }
        put(&mut changed[entry.key as usize * BLOCK_BYTES..][..BLOCK_BYTES], 4, rng.draw() as u32);
        mend(&mut changed[entry.key as usize * BLOCK_BYTES..][..BLOCK_BYTES], 5);
        let bytes = entry.data.iter().flat_map(|&key| &changed[key as usize * BLOCK_BYTES..][..BLOCK_BYTES]);
        let contents: Vec<u8> = bytes.copied().take(size).collect();
        talk.about(format!("{disk:?}, {style:?}: other words"));
        talk.image(&changed);
        for block in [0, 1, 71, 72, 143, 144, 145, 146] {
            talk.expect_bytes(b"file", block * full, 25, &contents);
            talk.expect_bytes(b"file", block * full + 511, 513, &contents);
        }
    }
    let size = largest_file(disk);
    let mut plan = empty(disk);
    plan.add_named(None, b"big", Kind::File(size));
    let volume = Volume::new(rng, &plan, style);
    let (contents, size) = (Paths::new(&volume).contents(0), size as usize);
    talk.about(format!("{disk:?}, the largest file"));
    talk.volume(rng, &volume);
    for (offset, room) in [(size - 1, 1), (size - 1, 9), (size - full, full + 1), (size, 5), (size + 1, 5)] {
        talk.expect_bytes(b"big", offset, room, &contents);
    }
    largest_size(&mut talk, &volume, &contents);
    talk
}

/// The largest file with more stated than it can hold, up to the largest size that may be. The last list then lists
/// keys that were listed before. In the Fast File System such a file can be read, though no audit accepts it.
fn largest_size(talk: &mut Talk, volume: &Volume, contents: &[u8]) {
    let (disk, file) = (&volume.disk, &volume.entries[0]);
    let (limit, blocks) = (disk.file_limit(), disk.file_limit() / disk.data_bytes());
    assert_eq!(blocks, if disk.blocks == FLOPPY { 1_755 } else { 3_515 });
    let last = *file.lists.last().expect("a list block");
    for (stated, place) in [(limit, last), (limit + 1, file.key), (u32::MAX, file.key)] {
        talk.about(format!("{disk:?}, the largest file, {stated} bytes stated"));
        talk.patched(&[put_words(volume, file.key, &[(81, stated)])], |talk| {
            talk.expect_refused(b"big", 0, 9, Refusal::at(14, place as usize));
        });
    }
    let listed = (file.data.len() - TABLE as usize * file.lists.len()) as u32;
    let more = blocks - file.data.len() as u32;
    let mut words = vec![(2, listed + more)];
    words.extend((0..more).map(|index| (key_word(listed + index), file.data[index as usize])));
    let patches = [put_words(volume, file.key, &[(81, limit)]), put_words(volume, last, &words)];
    talk.about(format!("{disk:?}, a file of the largest size"));
    talk.patched(&patches, |talk| {
        if disk.has_data_words() {
            // the first that comes again is not the next
            return talk.expect_refused(b"big", 0, 9, Refusal::at(15, file.data[0] as usize));
        }
        let again = &contents[..(more * disk.data_bytes()) as usize];
        let contents = [contents, again].concat();
        assert_eq!(contents.len(), limit as usize);
        for (offset, room) in [(contents.len() - 1, 2), (contents.len() - again.len() - 3, 9), (contents.len(), 4)]
        {
            talk.expect_bytes(b"big", offset, room, &contents);
        }
    });
}

/// Changes that are harm in the old file system alone, in files of this volume: the bytes are those that the listed
/// blocks then have.
fn allowed(talk: &mut Talk, rng: &mut Rng, what: &str, volume: &Volume) {
    let paths = Paths::new(volume);
    for cause in causes() {
        let Some(patches) = cause.allowed(rng, volume) else { continue };
        let Some(number) = patches.iter().find_map(|patch| owner(volume, patched_key(patch))) else { continue };
        if !paths.is_within_reach(number) {
            continue;
        }
        talk.about(format!("{what}: {} by {}, if it were asked for", cause.number, cause.what));
        talk.patched(&patches, |talk| {
            let Question { path, .. } = paths.existing(rng, number);
            let contents = listed(talk.held(), &volume.entries[number]);
            let (offset, room) = spot(rng, &volume.disk, contents.len() as u32);
            talk.expect_find(&path, Ok(Found { size: contents.len() as u32, ..paths.found(number) }));
            talk.expect_bytes(&path, offset, room, &contents);
            talk.tally.told += 1;
        });
    }
}

/// The bytes of a file in the Fast File System, by the words of its tables: whole blocks end to end, cut at its size.
fn listed(image: &[u8], file: &Entry) -> Vec<u8> {
    let block = |key: u32| &image[key as usize * BLOCK_BYTES..][..BLOCK_BYTES];
    let tables = [file.key].into_iter().chain(file.lists.iter().copied());
    let keys = tables.flat_map(|table| (0..TABLE).map(move |index| word(block(table), key_word(index))));
    let bytes = keys.take(file.data.len()).flat_map(|key| block(key).iter().copied());
    bytes.take(word(block(file.key), 81) as usize).collect()
}

/// A word of a block, and the number due at the block if another value stands there; for 5, due at that value.
type Step = (u32, usize, u32);

/// Steps on the way to the target, in the order in which a read takes them, and how many of them a lookup takes.
fn steps(target: &Target) -> (Vec<Step>, usize) {
    let Target { volume, file, slots, .. } = target;
    let outer = on_chain(volume, volume.disk.root(), slots[0]);
    let inner = on_chain(volume, file.directory, slots[1]);
    let mut steps = vec![(volume.disk.root(), 4, 4)];
    steps.extend([outer[0], outer[1], inner[0], inner[1]].map(|entry| (entry.key, 1, 10)));
    let in_lookup = steps.len();
    steps.push((file.key, 2, 14));
    for (index, &key) in file.data.iter().enumerate() {
        if index > 0 && index % TABLE as usize == 0 {
            steps.push((file.lists[index / TABLE as usize - 1], 1, 10));
        }
        if volume.disk.has_data_words() {
            steps.push((key, 1, 15));
        } else {
            let table = index / TABLE as usize;
            let holder = if table == 0 { file.key } else { file.lists[table - 1] };
            steps.push((holder, key_word(index as u32 % TABLE), 5));
        }
    }
    (steps, in_lookup)
}

/// Two faults on the way to a file and through its blocks: the one that is met first is due.
fn two_faults(who: Who, rng: &mut Rng, disk: &Disk) -> Talk {
    let mut talk = Talk::new(who);
    let target = target(rng, disk, 150 * disk.data_bytes() - 7);
    let (steps, in_lookup) = steps(&target);
    let Target { volume, path, found, .. } = target;
    talk.volume(rng, &volume);
    for _ in 0..200 {
        let bound = rng.pick(&[12, steps.len() as u64 - 1]);
        let second = 1 + rng.below(bound) as usize;
        let first = rng.below(second as u64) as usize;
        let mut faults: BTreeMap<u32, Vec<(usize, u32)>> = BTreeMap::new();
        for (key, index, number) in [steps[first], steps[second]] {
            let any = other(rng, word(volume.block(key), index));
            let value = if number == 5 { rng.pick(&[0, 1, disk.blocks, disk.blocks + 1, u32::MAX]) } else { any };
            faults.entry(key).or_default().push((index, value));
        }
        let patches: Vec<Patch> = faults.iter().map(|(&key, words)| put_words(&volume, key, words)).collect();
        let (key, index, number) = steps[first];
        let value = faults[&key].iter().find(|(other, _)| *other == index).map_or(0, |&(_, value)| value);
        let due = Refusal::at(number, if number == 5 { value } else { key } as usize);
        talk.about(format!("{:?} and then {:?}", steps[first], steps[second]));
        talk.patched(&patches, |talk| {
            let (offset, room) = spot(rng, disk, found.size);
            talk.expect_find(&path, if first < in_lookup { Err(due) } else { Ok(found) });
            talk.expect_refused(&path, offset, room, due);
        });
    }
    talk
}

/// The place of the key with this number, both counted from 0, on a chain of so many entries that leads from its
/// last entry back to place `to`.
fn around(length: usize, to: usize, number: usize) -> usize {
    if number < length {
        number
    } else {
        to + (number - to) % (length - to)
    }
}

/// The chain of a directory's slot.
fn on_chain(volume: &Volume, directory: u32, slot: u32) -> Vec<&Entry> {
    let mut all: Vec<&Entry> =
        volume.entries.iter().filter(|entry| entry.directory == directory && entry.slot == slot).collect();
    all.sort_by_key(|entry| entry.place());
    all
}

/// Chains of a volume, led back to one of their entries: whoever is not on them is looked for up to the limit.
fn loops(talk: &mut Talk, rng: &mut Rng, what: &str, volume: &Volume, times: usize) {
    let paths = Paths::new(volume);
    for _ in 0..times {
        let entry = &volume.entries[rng.below(volume.entries.len() as u64) as usize];
        let (within, chain) = (owner(volume, entry.directory), on_chain(volume, entry.directory, entry.slot));
        let last = rng.below(chain.len() as u64) as usize;
        let to = rng.below(last as u64 + 1) as usize;
        let missing = lacking(rng, &paths, within, entry.slot);
        let on_it = volume.entries.iter().position(|entry| entry.key == chain[last].key).expect("an entry");
        let Question { path, due, .. } = paths.existing(rng, on_it);
        talk.about(format!("{what}: from place {last} back to {to}"));
        talk.patched(&[put_words(volume, chain[last].key, &[(124, chain[to].key)])], |talk| {
            let key = chain[around(last + 1, to, volume.disk.chain_limit() as usize)].key;
            let is_too_long = missing.len() > LONGEST_PATH;
            let refusal = if is_too_long { Refusal::at(18, 0) } else { Refusal::at(6, key as usize) };
            talk.expect_find(&missing, Err(refusal));
            talk.expect_refused(&missing, 0, 20, refusal);
            talk.expect_find(&path, due);
        });
    }
}

/// The longest chain, and one more on it.
fn longest_chain(who: Who, rng: &mut Rng, disk: &Disk) -> Talk {
    let mut talk = Talk::new(who);
    let limit = if disk.blocks == FLOPPY { 1_756 } else { 3_516 };
    let plan = chain(rng, disk, limit);
    let volume = laid_out(rng, &plan);
    let paths = Paths::new(&volume);
    let end = limit as usize - 1;
    let [first, middle, before, last] = [0, 800, end - 1, end].map(|number| &volume.entries[number]);
    let missing = lacking(rng, &paths, None, first.slot);
    talk.about(format!("{disk:?}: the longest chain"));
    talk.volume(rng, &volume);
    talk.expect_find(&missing, Err(Refusal::at(19, 0)));
    talk.expect_find(&last.name, Ok(Found { compared: limit, ..paths.found(end) }));
    let (root, blocks) = (disk.root(), disk.blocks);
    let links = [first.key, middle.key, last.key, volume.bitmap, root, 2, 1_759, blocks - 1].map(|link| (link, 6));
    for (link, number) in links.into_iter().chain([1, blocks, blocks + 1, 3_520, u32::MAX].map(|link| (link, 5))) {
        talk.about(format!("{disk:?}: the longest chain goes on to {link}"));
        talk.patched(&[put_words(&volume, last.key, &[(124, link)])], |talk| {
            talk.expect_find(&missing, Err(Refusal::at(number, link as usize)));
            talk.expect_refused(&missing, 0, 3, Refusal::at(number, link as usize));
        });
    }
    let more = bitmap_as_file(&volume, disk.root(), &missing);
    talk.about(format!("{disk:?}: a chain of one more"));
    talk.patched(&[put_words(&volume, last.key, &[(124, volume.bitmap)]), more.clone()], |talk| {
        talk.expect_find(&missing, Err(Refusal::at(6, volume.bitmap as usize)));
        talk.expect_refused(&missing, 0, 3, Refusal::at(6, volume.bitmap as usize));
        talk.expect_find(&last.name, Ok(paths.found(end)));
    });
    talk.about(format!("{disk:?}: as long a chain with the bitmap block"));
    talk.patched(&[put_words(&volume, before.key, &[(124, volume.bitmap)]), more], |talk| {
        talk.expect_find(&missing, Ok(Found { kind: FILE, key: volume.bitmap, size: 0, compared: limit }));
        talk.expect_bytes(&missing, 0, 5, b"");
        talk.expect_find(&last.name, Err(Refusal::at(19, 0)));
    });
    loops(&mut talk, rng, "the longest chain", &volume, if disk.blocks == FLOPPY { 10 } else { 3 });
    talk
}

/// Two long chains, one in the other's last directory: the limit is for each, the count for both. They take all blocks;
/// on a high-density disk the first alone is longer than any on a floppy.
fn two_long_chains(who: Who, rng: &mut Rng, disk: &Disk) -> Talk {
    let mut talk = Talk::new(who);
    let (limit, before) = if disk.blocks == FLOPPY { (1_756, 999) } else { (3_516, 1_999) };
    let within_it = limit - before - 1;
    let mut plan = empty(disk);
    (0..before).for_each(|_| _ = plan.add(rng, None, Some(7), Kind::File(0)));
    let within = Some(plan.add(rng, None, Some(7), Kind::Directory));
    (0..within_it).for_each(|_| _ = plan.add(rng, within, Some(70), Kind::File(0)));
    let volume = laid_out(rng, &plan);
    let paths = Paths::new(&volume);
    let directory = volume.entries.iter().position(|entry| entry.kind == Kind::Directory).expect("the directory");
    let inner = on_chain(&volume, volume.entries[directory].key, 70);
    let name = paths.new_name(rng, Some(directory), |name| slot(disk, name) == 70);
    let path = [&volume.entries[directory].name[..], &name].join(&b'/');
    talk.about(format!("{disk:?}: two long chains"));
    talk.volume(rng, &volume);
    talk.expect_find(&path, Err(Refusal::at(19, 1)));
    let end = inner.len() - 1;
    let last = paths.existing(rng, volume.entries.iter().position(|entry| entry.key == inner[end].key).unwrap());
    assert_eq!(last.due.map(|found| found.compared), Ok(limit));
    talk.expect_find(&last.path, last.due);
    talk.about(format!("{disk:?}: two long chains of one entry more together"));
    let more = bitmap_as_file(&volume, volume.entries[directory].key, &name);
    talk.patched(&[put_words(&volume, inner[end].key, &[(124, volume.bitmap)]), more], |talk| {
        talk.expect_find(&path, Ok(Found { kind: FILE, key: volume.bitmap, size: 0, compared: limit + 1 }));
    });
    for to in [0, 1, 400, end - 1, end] {
        talk.about(format!("{disk:?}: two long chains, the second back to {to}"));
        talk.patched(&[put_words(&volume, inner[end].key, &[(124, inner[to].key)])], |talk| {
            let key = inner[around(end + 1, to, limit as usize)].key;
            talk.expect_find(&path, Err(Refusal::at(6, key as usize)));
        });
    }
    talk
}

/// Asks for a path of these components on a volume under the tag of another kind.
fn ask_on(talk: &mut Talk, paths: &Paths, disk: &Disk, components: &[Vec<u8>]) {
    let (path, due) = (components.join(&b'/'), paths.on(disk, components));
    *talk.tally.retagged.entry((paths.volume.disk, number(&due))).or_default() += 1;
    talk.expect_find(&path, due);
    match due {
        Err(due) => talk.expect_refused(&path, 0, 9, due),
        Ok(found) if found.kind == FILE => {
            let one = paths.volume.entries.iter().position(|entry| entry.key == found.key).expect("the file");
            let due = paths.contents_on(disk, one);
            let same_system = disk.has_data_words() == paths.volume.disk.has_data_words();
            let answer = (paths.volume.disk, number(&due));
            *talk.tally.reread.entry((answer, same_system)).or_default() += 1;
            assert_eq!(due.is_err(), first_misfit_of_file(paths.volume, disk, one).is_some());
            match due {
                Ok(contents) => talk.expect_bytes(&path, contents.len() / 2, SHORT, &contents),
                Err(due) => talk.expect_refused(&path, 1, 9, due),
            }
        }
        Ok(_) => {}
    }
}

/// Paths on the bytes of a volume under the tag of another kind, to so many of its entries: as their names stand, in
/// the other case as that kind has it, and with other accents.
fn other_kinds(talk: &mut Talk, rng: &mut Rng, what: &str, volume: &Volume, times: usize) {
    let paths = Paths::new(volume);
    let mut numbers: Vec<usize> = (0..volume.entries.len()).filter(|&one| paths.is_within_reach(one)).collect();
    shuffle(rng, &mut numbers);
    numbers.truncate(times);
    for other in volume.disk.others() {
        talk.about(format!("{what}: under the tag of kind {}", other.kind));
        talk.patched(&[(0, other.boot_tag().to_vec())], |talk| {
            for &number in &numbers {
                let names = paths.components(Some(number));
                let again: Vec<_> = names.iter().map(|name| recased(rng, &other, name)).collect();
                let accents: Vec<_> = names.iter().map(|name| lookalike(rng, name)).collect();
                [names, again, accents].iter().for_each(|names| ask_on(talk, &paths, &other, names));
            }
        });
    }
}

/// A volume with a file for each byte that a name can be, and each byte asked for: the entry is the one with the
/// capital of it, as far as the disk has capitals.
fn bytes_as_names(who: Who, rng: &mut Rng, disk: &Disk) -> Talk {
    let mut talk = Talk::new(who);
    let plan = every_byte(rng, disk);
    let volume = laid_out(rng, &plan);
    let paths = Paths::new(&volume);
    talk.volume(rng, &volume);
    let capital = |byte: u8| match byte {
        b'a'..=b'z' => byte - 0x20,
        0xE0..=0xF6 | 0xF8..=0xFE if disk.kind >= 2 => byte - 0x20,
        _ => byte,
    };
    for byte in (0..=255).filter(|byte| !b"/:".contains(byte)) {
        talk.about(format!("{disk:?}: the name {byte:02X}"));
        let number = volume.entries.iter().position(|entry| capital(entry.name[0]) == capital(byte));
        talk.expect_find(&[byte], Ok(paths.found(number.expect("an entry for each byte"))));
    }
    other_kinds(&mut talk, rng, &format!("{disk:?}, bytes"), &volume, 85);
    talk
}

/// All requests of the great comparison, as the seed draws them: about floppies of all kinds, and about these
/// high-density disks, which are filled in these ways.
fn talks(who: Who, seed: u64, larger: &[Disk], fills: &[Fill]) -> Vec<Talk> {
    let mut rng = Rng::new(seed);
    let rng = &mut rng;
    let of_each = [lengths, bytes_as_names, boundaries];
    let of_some = [long_paths, ends, every_word, in_the_middle, two_faults, longest_chain, two_long_chains];
    let mut talks = vec![sizes_in_one(who, rng, larger)];
    for (number, make) in of_some.into_iter().enumerate() {
        // each in turn on a disk of another kind, so that ten seeds have all of them
        talks.push(make(who, rng, &in_turn(&Disk::FLOPPIES, seed + number as u64)));
    }
    // of larger disks some take turns, and one of those after them
    for (number, make) in [in_turn(&of_some, seed), lengths, boundaries, longest_chain].into_iter().enumerate() {
        talks.push(make(who, rng, &in_turn(larger, seed / 4 + number as u64)));
    }
    // as many floppies as larger disks, in turn
    let floppies = (0..larger.len()).map(|after| in_turn(&Disk::FLOPPIES, seed + after as u64));
    for disk in floppies.chain(larger.iter().copied()) {
        talks.push(keys(who, rng, &disk));
    }
    for disk in Disk::FLOPPIES.iter().chain(larger) {
        let is_floppy = disk.blocks == FLOPPY;
        talks.extend(of_each.into_iter().filter(|_| is_floppy).map(|make| make(who, rng, disk)));
        let mut talk = Talk::new(who);
        for (what, volume) in moderate(rng, disk) {
            let [asked, others, chance, times, around] =
                if is_floppy { [24, 8, 80, 40, 2] } else { [8, 3, 50, 12, 1] };
            as_is(&mut talk, rng, &what, &volume, asked);
            other_kinds(&mut talk, rng, &what, &volume, others);
            harms(&mut talk, rng, &what, &volume, chance as u64);
            allowed(&mut talk, rng, &what, &volume);
            scratches(&mut talk, rng, &what, &volume, times);
            loops(&mut talk, rng, &what, &volume, around);
        }
        talks.push(talk);
    }
    let mut talk = Talk::new(who);
    for fill in FILLS {
        let (what, volume) = large(rng, FLOPPY, fill);
        as_is(&mut talk, rng, &what, &volume, 8);
        other_kinds(&mut talk, rng, &what, &volume, 4);
        harms(&mut talk, rng, &what, &volume, 8);
        scratches(&mut talk, rng, &what, &volume, 5);
    }
    for &fill in fills {
        let (what, volume) = large(rng, HIGH_DENSITY, fill);
        as_is(&mut talk, rng, &what, &volume, 3);
        harms(&mut talk, rng, &what, &volume, 2);
        scratches(&mut talk, rng, &what, &volume, 1);
    }
    talks.push(talk);
    talks
}

/// How often each answer is due over all talks.
fn sum<K: Copy + Ord>(talks: &[Talk], of: fn(&Tally) -> &BTreeMap<K, usize>) -> BTreeMap<K, usize> {
    let mut sum = BTreeMap::new();
    for (&answer, &times) in talks.iter().flat_map(|talk| of(&talk.tally)) {
        *sum.entry(answer).or_default() += times;
    }
    sum
}

/// The answers for one disk, by number: all that the call gives, each at least so many times, and so many that are no
/// refusals. Answers with how many they are.
fn hold_answers(what: &str, answers: &BTreeMap<Answer, usize>, disk: Disk, numbers: &[u32]) -> usize {
    let of_disk: BTreeMap<u32, usize> =
        answers.range((disk, 0)..=(disk, u32::MAX)).map(|(&(_, number), &times)| (number, times)).collect();
    println!("{disk:?}, {what} by number: {of_disk:?}");
    let wanted: BTreeSet<u32> = numbers.iter().copied().chain([0]).collect();
    assert!(of_disk.keys().eq(&wanted), "{what}, {disk:?}: not the numbers that there are: {of_disk:?}");
    let (least, accepted) = if disk.blocks == FLOPPY { (20, 1_000) } else { (1, 80) };
    let rare: Vec<_> = of_disk.iter().filter(|(_, &times)| times < least).collect();
    assert!(
        rare.is_empty() && of_disk[&0] >= accepted,
        "{what}, {disk:?}: too few of {rare:?} or {}",
        of_disk[&0]
    );
    of_disk.values().sum()
}

/// Enough of everything is asked: at least 20,000 calls on floppies, and of each call every number for each of these
/// and for each of these high-density disks.
fn are_enough(talks: &[Talk], larger: &[Disk]) {
    let [finds, reads] = [sum(talks, |tally| &tally.finds), sum(talks, |tally| &tally.reads)];
    let unnamed = sum(talks, |tally| &tally.unnamed);
    let of_disk = |disk: &Disk| {
        let all = [&OF_FIND[..], of_read(disk)].concat();
        let found = hold_answers("lookups", &finds, *disk, &OF_FIND);
        let calls = found + hold_answers("reads", &reads, *disk, &all);
        let unnamed = unnamed.get(disk).copied().unwrap_or(0);
        assert!(
            unnamed >= calls / 20 && calls - unnamed >= calls / 20,
            "{unnamed} of {calls} unnamed of {disk:?}"
        );
        calls
    };
    let calls: usize = Disk::FLOPPIES.iter().map(of_disk).sum();
    let on_larger: usize = larger.iter().map(of_disk).sum();
    let total = |of: fn(&Tally) -> usize| talks.iter().map(|talk| of(&talk.tally)).sum::<usize>();
    let [far, known, told] = [total(|tally| tally.far), total(|tally| tally.known), total(|tally| tally.told)];
    println!("{calls} calls on floppies and {on_larger} on larger disks, {far} far");
    println!("{known} answers known beforehand, {told} of them told by a harm");
    assert!(known >= 10_000 && told >= 1_000, "{known} known, {told} told");
    assert!(calls >= 20_000 && on_larger >= 500 * larger.len(), "{calls} calls and {on_larger}");
    assert!(far >= 1_000, "{far} reads from far offsets");
    let retagged = sum(talks, |tally| &tally.retagged);
    println!("lookups under another tag, by disk and number: {retagged:?}");
    for number in [0, 12, 19] {
        let times = |disk: Disk| retagged.get(&(disk, number)).copied().unwrap_or(0);
        let on_larger: usize = larger.iter().copied().map(times).sum();
        assert!(Disk::FLOPPIES.into_iter().all(|disk| times(disk) >= 20) && on_larger > 0, "{retagged:?}");
    }
    // where the file system is the same, so are the files; else some are too, but for their bytes
    let reread = sum(talks, |tally| &tally.reread);
    println!("reads under another tag, by disk, number and whether in the same file system: {reread:?}");
    for disk in Disk::ALL {
        let numbers = |same: bool| -> Vec<u32> {
            let of = reread.keys().filter(|((other, _), is_same)| *other == disk && *is_same == same);
            of.map(|((_, number), _)| *number).collect()
        };
        let [same, elsewhere] = [true, false].map(numbers);
        // of larger disks there may be too few for each answer
        let is_wanted = disk.blocks == FLOPPY;
        assert!(same == [0] || same.is_empty() && !is_wanted, "{disk:?}: {same:?}");
        let (all, least): (&[u32], &[u32]) =
            if disk.has_data_words() { (&[0, 14], &[0, 14]) } else { (&[0, 7, 8, 14, 15], &[0, 7, 14]) };
        assert!(elsewhere.iter().all(|number| all.contains(number)), "{disk:?}: {elsewhere:?}");
        assert!(!is_wanted || least.iter().all(|number| elsewhere.contains(number)), "{disk:?}: {elsewhere:?}");
    }
}

/// All that is known beforehand is answered so; no one else is needed for that.
#[test]
fn answers_known_beforehand() {
    are_enough(&talks(Who::Nobody, 143, &Disk::of_blocks(HIGH_DENSITY), &FILLS), &Disk::of_blocks(HIGH_DENSITY));
}

/// `probe` and the exported functions agree.
#[test]
fn paths_and_files_good_and_bad() {
    let talks = talks(Who::Both, 143, &Disk::of_blocks(HIGH_DENSITY), &FILLS);
    are_enough(&talks, &Disk::of_blocks(HIGH_DENSITY));
    talks.into_iter().for_each(Talk::run);
}

/// The exported functions are fast, and are asked ten times as much. High-density disks of the four kinds take turns,
/// and so do the ways to fill one.
#[test]
fn paths_and_files_for_the_exported_functions() {
    with_seeds(1_400, 10, |seed| {
        let larger = [in_turn(&Disk::of_blocks(HIGH_DENSITY), seed)];
        are_enough(&talks(Who::Exports, seed, &larger, &[in_turn(&FILLS, seed)]), &larger);
    });
}
