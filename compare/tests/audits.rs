//! Holds the program `probe` and the exported functions to the audit of this package: 1 takes an image over, 2 changes
//! bytes of it, 3 audits it, 9 names a number of blocks.
//!
//! Every answer due is one that the two opinions of this package [agree](agreed) on, so each image that is asked
//! about is a comparison of these two as well. Images are long; most are had by a patch to one that is held already,
//! which is patched back after. Those of high-density disks are twice as long, and fewer of them are drawn.

use std::collections::BTreeMap;
use std::ops::{Deref, DerefMut};

use compare::audit::Report;
use compare::bad_volumes::{causes, harmless, scratch, short_claims, wrong_lengths, Cause, Harm, Patch, NO_SIZES};
use compare::bitmap::place;
use compare::declared::agreed;
use compare::disk::{claim_length, settled, Disk, ANY, FLOPPY, HIGH_DENSITY, SIZES};
use compare::driver::checksum;
use compare::kinds::retagged;
use compare::program::Refusal;
use compare::rng::Rng;
use compare::sides::{in_turn, with_seeds, Who};
use compare::sizes::largest_file;
use compare::talk;
use compare::volumes::{
    alike, any_style, both_sizes, chain, empty, every_byte, files, filled, mixed, nested, shuffle, telling_sizes,
    Fill, Filling, Kind, Met, Order, Part, Plan, Style, Volume, FILLS,
};
use compare::words::{key_word, mend, put, slot_word, word, BLOCK_BYTES, BLOCK_WORDS, TABLE};

const AUDIT: u32 = 3;

const BAD: &str = "bad request";

/// What is in the claim area before an audit.
const CLAIM: u8 = 0xAA;

/// The longest claim area that `probe` lends, and the longest image that it takes.
const CLAIM_ROOM: usize = 4_096;
const IMAGE_ROOM: usize = 1_802_240;

/// A disk, and the number of a refusal or 0.
type Answer = (Disk, u32);

/// How often each kind of answer is due.
#[derive(Default)]
struct Tally {
    /// By the disk that the image is for the call, or where it is none, by that which it was as it was sent.
    audits: BTreeMap<Answer, usize>,
    /// Those that name no number of blocks.
    unnamed: BTreeMap<Answer, usize>,
    /// Those of a volume under the tag of another kind, by the disk that it was laid out for and by that one.
    retagged: BTreeMap<(Disk, Answer), usize>,
    /// Changes that are harm in the old file system alone, by the number due there.
    allowed: BTreeMap<Answer, usize>,
}

/// A talk about one image, and what was asked in it.
struct Talk {
    talk: talk::Talk,
    /// The disk that the image was as it was sent.
    sent: Disk,
    tally: Tally,
}

impl Deref for Talk {
    type Target = talk::Talk;

    fn deref(&self) -> &talk::Talk {
        &self.talk
    }
}

impl DerefMut for Talk {
    fn deref_mut(&mut self) -> &mut talk::Talk {
        &mut self.talk
    }
}

impl Talk {
    fn new(who: Who) -> Talk {
        Talk { talk: talk::Talk::new(who), sent: Disk::OLD, tally: Tally::default() }
    }

    /// Sends an image.
    fn image(&mut self, image: &[u8]) {
        self.sent = Disk::named(ANY, image).unwrap_or(self.sent);
        self.talk.image(image);
    }

    /// Lets calls name the number of blocks of the image that was sent, or none.
    fn name_rightly(&mut self, rng: &mut Rng) {
        let blocks = self.sent.blocks;
        self.name(rng.pick(&[blocks, blocks, ANY]));
    }

    /// Sends the image of a volume, for calls that name its number of blocks, or none.
    fn volume(&mut self, rng: &mut Rng, volume: &Volume) {
        self.image(&volume.image);
        self.name_rightly(rng);
    }

    /// The least claim area that is enough for the image that was sent.
    fn enough(&self) -> usize {
        claim_length(self.sent.blocks)
    }

    fn audit(&mut self, claim_length: usize) -> Result<Report, Refusal> {
        let mut claim = vec![CLAIM; claim_length];
        let named = self.named();
        let answer = agreed(named, self.held(), &mut claim);
        let disk = Disk::named(named, self.held()).unwrap_or(self.sent);
        *self.tally.audits.entry((disk, number(answer))).or_default() += 1;
        if named == ANY {
            *self.tally.unnamed.entry((disk, number(answer))).or_default() += 1;
        }
        let line = match answer {
            Ok(Report { directories, files, list_blocks, data_blocks, used, free }) => {
                format!("accepted {directories} {files} {list_blocks} {data_blocks} {used} {free}")
            }
            Err(Refusal { number, place }) => format!("refused {number} {place}"),
        };
        let body = (claim_length as u32).to_be_bytes();
        self.ask(AUDIT, &body, &format!("{line} claim {}", checksum(&claim)));
        answer
    }

    /// An audit of which the answer is known beforehand, and not only by the two opinions.
    fn expect(&mut self, claim_length: usize, due: Result<Report, Refusal>) {
        let answer = self.audit(claim_length);
        assert_eq!(answer, due, "{}", self.subject());
    }

    /// Does this with the image patched; it is as before afterwards.
    fn patched(&mut self, patches: &[Patch], then: impl FnOnce(&mut Talk)) {
        let undo = self.patch(patches);
        then(self);
        self.patch(&undo);
    }

    /// An audit with a claim area that is just long enough.
    fn expect_enough(&mut self, due: Result<Report, Refusal>) {
        self.expect(self.enough(), due);
    }

    /// A harm, met with a claim area that is long enough.
    fn harmed(&mut self, rng: &mut Rng, harm: &Harm) {
        self.name_rightly(rng);
        let enough = self.enough();
        let claim = rng.pick(&[enough, enough, enough, enough + 1, CLAIM_ROOM]);
        self.patched(&harm.patches(), |talk| talk.expect(claim, Err(harm.due())));
    }

    fn run(self) {
        self.talk.run();
    }
}

/// The number of a refusal, or 0.
fn number(answer: Result<Report, Refusal>) -> u32 {
    answer.map_or_else(|refusal| refusal.number, |_| 0)
}

fn refused(number: u32) -> Result<Report, Refusal> {
    Err(Refusal::at(number, 0))
}

fn laid_out(rng: &mut Rng, plan: &Plan) -> Volume {
    let style = any_style(rng);
    Volume::new(rng, plan, style)
}

/// The case that docs/FORMAT.md works out ("Worked cases"), without the opinions, on disks of each size and kind.
#[test]
fn the_empty_volume() {
    let mut rng = Rng::new(90);
    let mut talk = talk::Talk::new(Who::Both);
    for disk in Disk::ALL {
        let volume = laid_out(&mut rng, &empty(&disk));
        let (blocks, root, free) = if disk.blocks == FLOPPY { (1_760, 880, 1_756) } else { (3_520, 1_760, 3_516) };
        talk.about(format!("{disk:?}"));
        talk.image(&volume.image);
        for named in [disk.blocks, ANY] {
            talk.name(named);
            for length in [blocks, blocks + 1, 4_096] {
                let mut claim = vec![0; length];
                claim[root] = 1;
                claim[volume.bitmap as usize] = 1;
                let answer = format!("accepted 0 0 0 0 2 {free} claim {}", checksum(&claim));
                talk.ask(AUDIT, &(length as u32).to_be_bytes(), &answer);
            }
            for length in [0, 1, blocks - 1] {
                let answer = format!("refused 2 0 claim {}", checksum(&vec![0; length]));
                talk.ask(AUDIT, &(length as u32).to_be_bytes(), &answer);
            }
        }
    }
    talk.run();
}

/// Where no number of blocks was ever named, a floppy's is: a large image is refused, however good.
#[test]
fn a_floppy_is_named_at_first() {
    let mut rng = Rng::new(89);
    let mut talk = talk::Talk::new(Who::Both);
    for disk in Disk::ALL {
        let volume = laid_out(&mut rng, &empty(&disk));
        talk.about(format!("{disk:?}"));
        talk.image(&volume.image);
        let mut claim = vec![0; 4_096];
        let answer = if disk.blocks == FLOPPY {
            claim[880] = 1;
            claim[volume.bitmap as usize] = 1;
            "accepted 0 0 0 0 2 1756"
        } else {
            "refused 1 0"
        };
        talk.ask(AUDIT, &4_096_u32.to_be_bytes(), &format!("{answer} claim {}", checksum(&claim)));
        assert_eq!(talk.named(), FLOPPY);
    }
    talk.run();
}

/// Every last byte that a tag can have, on a volume of which every kind is right; and the letters before it.
#[test]
fn every_boot_tag() {
    for blocks in SIZES {
        every_boot_tag_of(blocks);
    }
}

fn every_boot_tag_of(blocks: u32) {
    let mut rng = Rng::new(93);
    let plan = alike(&mut rng, &Disk::OLD.with_blocks(blocks), 10, 0);
    let volume = laid_out(&mut rng, &plan);
    let mut talk = Talk::new(Who::Both);
    talk.volume(&mut rng, &volume);
    for kind in 0..=255 {
        talk.about(format!("kind {kind}"));
        let due = if kind < 4 { Ok(volume.report()) } else { refused(3) };
        talk.patched(&[(3, vec![kind])], |talk| {
            talk.expect_enough(due);
            talk.expect(talk.enough() - 1, refused(2));
        });
    }
    for (kind, place) in (0..4).flat_map(|kind| (0..24).map(move |place| (kind, place))) {
        let mut tag = [b'D', b'O', b'S', kind];
        tag[place / 8] ^= 1 << (place % 8);
        talk.about(format!("tag {tag:?}"));
        talk.patched(&[(0, tag.to_vec())], |talk| talk.expect_enough(refused(3)));
    }
    talk.run();
}

#[test]
fn before_any_image_its_length_is_zero() {
    let mut talk = Talk::new(Who::Both);
    for named in [FLOPPY, ANY, HIGH_DENSITY, 1, u32::MAX] {
        talk.name(named);
        for claim in [0, 1_759, 1_760, CLAIM_ROOM] {
            talk.expect(claim, refused(1));
        }
    }
    talk.run();
}

/// What is no audit answers so, and the image held stays.
#[test]
fn claim_areas_above_the_room_and_short_bodies_are_bad() {
    let mut rng = Rng::new(91);
    let plan = mixed(&mut rng, &Disk::OLD, 40);
    let volume = laid_out(&mut rng, &plan);
    let mut talk = Talk::new(Who::Both);
    talk.image(&volume.image);
    for claim in [CLAIM_ROOM as u32 + 1, 1 << 16, 1 << 31, (1 << 31) + 1_760, u32::MAX] {
        talk.about(format!("a claim area of {claim}"));
        talk.ask(AUDIT, &claim.to_be_bytes(), BAD);
        talk.expect_enough(Ok(volume.report()));
    }
    for length in 0..4 {
        talk.about(format!("a body of {length}"));
        talk.ask(AUDIT, &vec![0; length], BAD);
        talk.expect(CLAIM_ROOM, Ok(volume.report()));
    }
    talk.run();
}

/// Lengths of image and claim area on both sides of what is right, and numbers of blocks that are named: each length
/// with every number that a disk can have, with none and with another; with good and with bad tags and roots.
fn lengths(who: Who, rng: &mut Rng, disk: &Disk) -> Talk {
    let mut talk = Talk { sent: *disk, ..Talk::new(who) };
    let volume = laid_out(rng, &empty(disk));
    // with this number none is right
    let lengths = wrong_lengths(1).into_iter().filter(|&length| length <= IMAGE_ROOM);
    for length in lengths {
        let mut image = volume.image.clone();
        image.resize(length, 0);
        talk.about(format!("{length} bytes"));
        talk.image(&image);
        for named in [ANY, FLOPPY, HIGH_DENSITY, rng.pick(&NO_SIZES)] {
            talk.about(format!("{length} bytes, {named} blocks named"));
            talk.name(named);
            let enough = settled(named, length).map(claim_length);
            let some = rng.pick(&[short_claims(disk.blocks), vec![CLAIM_ROOM, disk.blocks as usize + 1]].concat());
            for claim in [enough.unwrap_or(1_760) - 1, enough.unwrap_or(3_520), some] {
                let due = match enough {
                    None => refused(1),
                    Some(enough) if claim < enough => refused(2),
                    Some(_) if length == volume.image.len() => Ok(volume.report()),
                    // the root is elsewhere
                    Some(_) => {
                        let answer = talk.audit(claim);
                        assert!(!(1..4).contains(&number(answer)), "{}: {answer:?}", talk.subject());
                        continue;
                    }
                };
                talk.expect(claim, due);
            }
            if length >= 4 && (enough.is_some() || rng.below(2) == 0) {
                talk.about(format!("{length} bytes with another boot tag, {named} blocks named"));
                talk.patched(&[(0, b"KICK".to_vec())], |talk| {
                    let [short, long] = if enough.is_some() { [2, 3] } else { [1, 1] };
                    talk.expect(enough.unwrap_or(1_760) - 1, refused(short));
                    talk.expect(enough.unwrap_or(3_520), refused(long));
                });
            }
        }
    }
    talk
}

/// Images that are floppies if they are cut to a floppy's length, and else such high-density disks.
fn sizes_in_one(who: Who, rng: &mut Rng, larger: &[Disk]) -> Talk {
    let mut talk = Talk::new(who);
    for disk in larger {
        let blocks = rng.pick(&[0, 3, 20, 60]);
        let both = both_sizes(rng, disk.kind, blocks);
        for volume in &both {
            talk.about(format!("{:?}, {blocks} blocks in use", volume.disk));
            talk.image(&both[1].image[..volume.image.len()]);
            let enough = talk.enough();
            for named in [FLOPPY, ANY, HIGH_DENSITY, rng.pick(&NO_SIZES)] {
                let is_right = [ANY, volume.disk.blocks].contains(&named);
                talk.name(named);
                talk.expect(enough, if is_right { Ok(volume.report()) } else { refused(1) });
                talk.expect(enough - 1, refused(if is_right { 2 } else { 1 }));
            }
        }
    }
    talk
}

/// Keys around both ends of either size of disk, and around the roots.
const KEYS: [u32; 12] = [0, 1, 2, 880, 1_758, 1_759, 1_760, 1_761, 3_519, 3_520, 3_521, u32::MAX];

/// The block of a volume with one word changed and its sum mended, as a patch.
fn with_word(volume: &Volume, key: u32, index: usize, value: u32) -> Patch {
    let mut block = volume.block(key).to_vec();
    put(&mut block, index, value);
    mend(&mut block, if key == volume.bitmap { 0 } else { 5 });
    (key as usize * BLOCK_BYTES, block)
}

/// Both sides of every limit that follows from the size of a disk: the keys that each kind of reference may hold, the
/// bits that are read, the claim area, and where the root is. Limits of files have their own talk, and so do chains.
fn limits(who: Who, rng: &mut Rng, disk: &Disk) -> Talk {
    let mut talk = Talk::new(who);
    let (blocks, root) = (disk.blocks, disk.root());
    let mut plan = empty(disk);
    plan.add(rng, None, Some(3), Kind::File(TABLE * disk.data_bytes() + 1));
    plan.add(rng, None, Some(3), Kind::Directory);
    // free blocks are blank, so that none of them passes for an entry or a list
    let style = Style { filling: Filling::Zeros, order: rng.pick(&ORDERS) };
    let volume = Volume::new(rng, &plan, style);
    talk.volume(rng, &volume);
    let [file, directory] = [&volume.entries[0], &volume.entries[1]];
    let list = file.lists[0];
    let empty_slot = slot_word(60);
    for key in KEYS {
        let is_key = (2..blocks).contains(&key);
        for (what, holder, index) in [
            ("slot", root, empty_slot),
            ("directory's slot", directory.key, empty_slot),
            ("end of a chain", directory.key, 124),
            ("bitmap key", root, 79),
            ("data key", file.key, key_word(30)),
            ("data key in a list", list, key_word(0)),
            ("list link", file.key, 126),
        ] {
            talk.about(format!("{disk:?}: {what} {key}"));
            talk.patched(&[with_word(&volume, holder, index, key)], |talk| {
                let answer = talk.audit(talk.enough());
                let may_be_0 = index == empty_slot || index == 124;
                match (key, is_key) {
                    (0, _) if may_be_0 => assert_eq!(answer, Ok(volume.report()), "{}", talk.subject()),
                    (0, _) if index == 126 => assert_eq!(number(answer), 14, "{}", talk.subject()),
                    (_, false) => assert_eq!(answer, Err(Refusal::at(5, key as usize)), "{}", talk.subject()),
                    (_, true) => assert_ne!(number(answer), 5, "{}", talk.subject()),
                }
            });
        }
    }
    for key in
        KEYS.into_iter().filter(|key| (2..4_000).contains(key)).chain([root, blocks - 1, blocks, blocks + 1])
    {
        let (index, bit) = place(key);
        let bits = word(volume.block(volume.bitmap), index) ^ 1 << bit;
        let due = if key < blocks { Err(Refusal::at(17, key as usize)) } else { Ok(volume.report()) };
        talk.about(format!("{disk:?}: the bit of {key}"));
        talk.patched(&[with_word(&volume, volume.bitmap, index, bits)], |talk| talk.expect_enough(due));
    }
    unread_bits(&mut talk, &volume);
    for claim in [1_759, 1_760, 1_761, 3_519, 3_520, 3_521] {
        talk.about(format!("{disk:?}: a claim area of {claim}"));
        talk.expect(claim, if claim < blocks as usize { refused(2) } else { Ok(volume.report()) });
    }
    for (index, value, number) in [(3, 71, 4), (124, root, 4), (78, 0, 16), (104, 1, 16), (0, 8, 8), (108, 0, 11)]
    {
        talk.about(format!("{disk:?}: w{index} of the root"));
        let due = Err(Refusal::at(number, root as usize));
        talk.patched(&[with_word(&volume, root, index, value)], |talk| talk.expect_enough(due));
    }
    for other in disk.other_sizes().map(|other| other.root()).filter(|&other| other < blocks) {
        talk.about(format!("{disk:?}: the root at {other}"));
        let at = |key: u32, block: &[u8]| (key as usize * BLOCK_BYTES, block.to_vec());
        let patches = [at(other, volume.block(root)), at(root, &[0; BLOCK_BYTES])];
        talk.patched(&patches, |talk| talk.expect_enough(Err(Refusal::at(8, root as usize))));
    }
    talk
}

/// In which orders blocks are given away.
const ORDERS: [Order; 3] = [Order::Rising, Order::Falling, Order::Shuffled];

/// The bits after that of the last block, all 1, all 0 and each other one: no one reads them.
fn unread_bits(talk: &mut Talk, volume: &Volume) {
    let (last, bit) = place(volume.disk.blocks - 1);
    for value in [u32::MAX, 0, 0x5555_5555, 0xAAAA_AAAA] {
        let mut block = volume.block(volume.bitmap).to_vec();
        let read = word(&block, last) & (u32::MAX >> (31 - bit));
        put(&mut block, last, read | value & !(u32::MAX >> (31 - bit)));
        (last + 1..BLOCK_WORDS).for_each(|index| put(&mut block, index, value));
        mend(&mut block, 0);
        talk.about(format!("{:?}: bits past the last are those of {value:X}", volume.disk));
        let patch = (volume.bitmap as usize * BLOCK_BYTES, block);
        talk.patched(&[patch], |talk| talk.expect_enough(Ok(volume.report())));
    }
}

/// Volumes of moderate size on a disk of this size and kind, and what they are; few of high-density disks.
fn moderate(rng: &mut Rng, disk: &Disk) -> Vec<(String, Volume)> {
    let table = TABLE * disk.data_bytes();
    let plans = if disk.blocks == FLOPPY {
        let mut plans = vec![
            ("empty".to_string(), empty(disk)),
            ("telling sizes".to_string(), files(rng, disk, &telling_sizes(disk))),
            // three list blocks, and two of which the last is full
            ("several lists".to_string(), files(rng, disk, &[3 * table + 1, 3 * table, 1])),
            ("40 nested".to_string(), nested(rng, disk, 40)),
            ("40 on a chain".to_string(), chain(rng, disk, 40)),
            ("every byte".to_string(), every_byte(rng, disk)),
            ("alike on each kind".to_string(), alike(rng, disk, 30, 0)),
        ];
        if !disk.is_international() {
            plans.push(("pairs of names".to_string(), alike(rng, disk, 20, 3)));
        }
        for blocks in [30, 100, 200, 320] {
            plans.push((format!("mixed, {blocks} blocks"), mixed(rng, disk, blocks)));
        }
        plans
    } else {
        let pairs = if disk.is_international() { 0 } else { 2 };
        vec![
            ("two lists".to_string(), files(rng, disk, &[2 * table + 1, 0, 1])),
            ("20 on a chain".to_string(), chain(rng, disk, 20)),
            ("alike on each kind".to_string(), alike(rng, disk, 10, pairs)),
            ("mixed, 150 blocks".to_string(), mixed(rng, disk, 150)),
        ]
    };
    let named = |what: &str| format!("{disk:?}, {what}");
    plans.iter().map(|(what, plan)| (named(what), laid_out(rng, plan))).collect()
}

/// A volume that fills its disk, which is of this size and of some kind.
fn large(rng: &mut Rng, blocks: u32, fill: Fill) -> (String, Volume) {
    let disk = rng.pick(&Disk::of_blocks(blocks));
    let plan = filled(rng, &disk, fill);
    (format!("{blocks} blocks, {fill:?}"), laid_out(rng, &plan))
}

/// The largest file of a disk, with more than it can hold: a header may state as many data blocks as there are besides
/// root, bitmap block and header, but with its lists there is no room for them. One byte more may not be stated.
fn largest_size(who: Who, rng: &mut Rng, disk: &Disk) -> Talk {
    let mut talk = Talk::new(who);
    let plan = files(rng, disk, &[largest_file(disk)]);
    let volume = laid_out(rng, &plan);
    let file = &volume.entries[0];
    let last = *file.lists.last().expect("a list block");
    let (limit, blocks) = (disk.file_limit(), disk.file_limit() / disk.data_bytes());
    assert_eq!(blocks, if disk.blocks == FLOPPY { 1_755 } else { 3_515 });
    talk.about(format!("{disk:?}: the largest file"));
    talk.volume(rng, &volume);
    talk.expect_enough(Ok(volume.report()));
    for (stated, place) in [(limit, last), (limit + 1, file.key), (u32::MAX, file.key)] {
        talk.about(format!("{disk:?}: the largest file, {stated} bytes stated"));
        let due = Err(Refusal::at(14, place as usize));
        talk.patched(&[with_word(&volume, file.key, 81, stated)], |talk| talk.expect_enough(due));
    }
    // the last list lists as many keys as are stated; the first that is new is of no block, or of one that is claimed
    let listed = file.data.len() - TABLE as usize * file.lists.len();
    let more = blocks - file.data.len() as u32;
    for (key, number) in [(volume.bitmap, 6), (file.data[0], 6), (disk.root(), 6), (0, 5), (disk.blocks, 5)] {
        talk.about(format!("{disk:?}: {blocks} data blocks, of which one is {key}"));
        let mut block = volume.block(last).to_vec();
        put(&mut block, 2, listed as u32 + more);
        (0..more).for_each(|index| put(&mut block, key_word(listed as u32 + index), key));
        mend(&mut block, 5);
        let lists = (last as usize * BLOCK_BYTES, block);
        let due = Err(Refusal::at(number, key as usize));
        talk.patched(&[with_word(&volume, file.key, 81, limit), lists], |talk| talk.expect_enough(due));
    }
    talk
}

/// A chain of all blocks, and one that would have one more, the bitmap block: it is claimed before.
fn longest_chain(talk: &mut Talk, what: &str, volume: &Volume) {
    let last = volume.entries.last().expect("an entry").key;
    talk.about(format!("{what}: goes on to the bitmap block"));
    let patch = with_word(volume, last, 124, volume.bitmap);
    talk.patched(&[patch], |talk| talk.expect_enough(Err(Refusal::at(6, volume.bitmap as usize))));
}

/// The bytes of a volume under the tag of another kind, alone and with a claim area that is too short.
fn other_kinds(talk: &mut Talk, what: &str, volume: &Volume) {
    for other in volume.disk.others() {
        talk.about(format!("{what}: under the tag of kind {}", other.kind));
        let (patch, due) = retagged(volume, &other);
        *talk.tally.retagged.entry((volume.disk, (other, number(due)))).or_default() += 1;
        talk.patched(&[patch], |talk| {
            talk.expect_enough(due);
            talk.expect(talk.enough() - 1, refused(2));
        });
    }
}

/// Small volumes of each kind under the tags of all others: good there, or with so many double names, or with a file
/// that has other blocks or other words there. On these disks, in so many rounds.
fn tagged_anew(who: Who, rng: &mut Rng, disks: &[Disk], rounds: u32) -> Talk {
    let mut talk = Talk::new(who);
    for disk in disks {
        for round in 0..rounds {
            let pairs = if disk.is_international() { 0 } else { round % 4 };
            // one block in both file systems, or two in the old one; with a list block in one or in both
            let size = rng.pick(&[1, 488, 488, 489, 512, 513, 900, 976, 35_137, 36_864, 36_865]);
            let plan = match round % 3 {
                0 => alike(rng, disk, 4, pairs),
                1 => files(rng, disk, &[size]),
                _ => {
                    let mut plan = empty(disk);
                    plan.add_named(None, b"file", Kind::File(size));
                    plan
                }
            };
            let volume = laid_out(rng, &plan);
            let what = format!("{disk:?}, {pairs} pairs or a file of {size}");
            talk.about(&what[..]);
            talk.volume(rng, &volume);
            talk.expect_enough(Ok(volume.report()));
            other_kinds(&mut talk, &what, &volume);
        }
        if !disk.has_data_words() {
            words_of_data(&mut talk, rng, disk);
        }
    }
    talk
}

/// A volume in the Fast File System whose file has all words that the old one asks for, and each of them changed in
/// turn. Under its own tag nothing is wrong with that, and under an old one this number is due at this block.
fn words_of_data(talk: &mut Talk, rng: &mut Rng, disk: &Disk) {
    let mut plan = empty(disk);
    plan.add_named(None, b"file", Kind::File(600));
    let volume = Volume::new(rng, &plan, Style { filling: Filling::Old, order: Order::Shuffled });
    let entry = &volume.entries[0];
    let [header, first, last] = [entry.key, entry.data[0], entry.data[1]];
    let harms = [(header, 4, 15, first), (first, 0, 8, first), (first, 4, 15, last), (last, 4, 15, last)];
    let words = [first, last].into_iter().flat_map(|key| [1, 2, 3].map(|index| (key, index, 15, key)));
    let sums = [first, last].map(|key| (key, 5 + rng.below(123) as usize, 7, key));
    let what = format!("{disk:?}, with all words");
    talk.about(&what[..]);
    talk.volume(rng, &volume);
    talk.expect_enough(Ok(volume.report()));
    other_kinds(talk, &what, &volume);
    for (key, index, number, place) in harms.into_iter().chain(words).chain(sums) {
        let mut block = volume.block(key).to_vec();
        let changed = word(&block, index) ^ 1 << rng.below(32);
        put(&mut block, index, changed);
        if number != 7 {
            mend(&mut block, 5);
        }
        let patch = (key as usize * BLOCK_BYTES, block);
        for other in disk.others().filter(|other| other.has_data_words()) {
            talk.about(format!("{disk:?}, block {key}, w{index}, under the tag of kind {}", other.kind));
            let due = Err(Refusal::at(number, place as usize));
            *talk.tally.retagged.entry((*disk, (other, number))).or_default() += 1;
            talk.patched(std::slice::from_ref(&patch), |talk| {
                talk.expect_enough(Ok(volume.report()));
                talk.patched(&[(3, vec![other.kind])], |talk| talk.expect_enough(due));
            });
        }
    }
}

/// Sizes on both sides of each place where something changes, each in a file of its own, and the same file with the
/// size of the other side stated.
fn sizes(who: Who, rng: &mut Rng, disk: &Disk) -> Talk {
    let mut talk = Talk::new(who);
    let (full, limit) = (disk.data_bytes(), disk.file_limit());
    let table = TABLE * full;
    for (size, other) in
        [(0, 1), (1, 0), (full, full + 1), (full + 1, full), (table, table + 1), (table + 1, table)]
    {
        let plan = files(rng, disk, &[size]);
        let volume = laid_out(rng, &plan);
        let entry = &volume.entries[0];
        talk.about(format!("{disk:?}, {size} bytes"));
        talk.volume(rng, &volume);
        talk.expect_enough(Ok(volume.report()));
        let last = entry.lists.last().copied().unwrap_or(entry.key);
        // the largest size asks for more keys than the last table lists; one more is asked of none
        for (stated, place) in [(other, entry.key), (limit, last), (limit + 1, entry.key), (u32::MAX, entry.key)] {
            talk.about(format!("{disk:?}, {size} bytes, {stated} stated"));
            let patch = with_word(&volume, entry.key, 81, stated);
            talk.patched(&[patch], |talk| talk.expect_enough(Err(Refusal::at(14, place as usize))));
        }
    }
    talk
}

/// Changes that are harm in the old file system alone, which this volume is not in.
fn allowed(talk: &mut Talk, rng: &mut Rng, what: &str, volume: &Volume) {
    for cause in causes() {
        let Some(patches) = cause.allowed(rng, volume) else { continue };
        talk.about(format!("{what}: {} by {}, if it were asked for", cause.number, cause.what));
        *talk.tally.allowed.entry((volume.disk, cause.number)).or_default() += 1;
        talk.patched(&patches, |talk| talk.expect_enough(Ok(volume.report())));
    }
}

/// Some of a volume's harms: of each cause with this chance in a hundred.
fn harms(talk: &mut Talk, rng: &mut Rng, what: &str, volume: &Volume, chance: u64) {
    let chosen: Vec<&Cause> = causes().filter(|_| rng.below(100) < chance).collect();
    for cause in chosen {
        let Some(harm) = cause.harm(rng, volume) else { continue };
        talk.about(format!("{what}: {} by {}", cause.number, cause.what));
        talk.harmed(rng, &harm);
        if rng.below(4) == 0 {
            talk.about(format!("{what}: {} by {}, sums not mended", cause.number, cause.what));
            if let Some(harm) = harm.unmended() {
                talk.harmed(rng, &harm);
            }
        } else if rng.below(20) == 0 {
            talk.about(format!("{what}: {} by {}, and a short claim area", cause.number, cause.what));
            talk.patched(&harm.patches(), |talk| talk.expect(talk.enough() - 1, refused(2)));
        }
    }
}

/// Two harms at once, at most so many times in different blocks and as often in one.
fn pairs(talk: &mut Talk, rng: &mut Rng, what: &str, volume: &Volume, most: usize) {
    let harms: Vec<(&Cause, Harm)> =
        causes().filter_map(|cause| Some((cause, cause.harm(rng, volume)?))).collect();
    let all = (0..harms.len()).flat_map(|one| (0..one).map(move |other| [one, other]));
    let (mut shared, mut apart): (Vec<_>, Vec<_>) =
        all.partition(|&[one, other]| harms[one].1.shares_block(&harms[other].1));
    shuffle(rng, &mut shared);
    shuffle(rng, &mut apart);
    for list in [shared, apart] {
        let made = list.iter().filter_map(|&[one, other]| {
            let [(one, harm), (other, second)] = [&harms[one], &harms[other]];
            Some((one, other, harm.with(second)?))
        });
        for (one, other, both) in made.take(most) {
            talk.about(format!("{what}: {} {}, {} {}", one.number, one.what, other.number, other.what));
            talk.harmed(rng, &both);
        }
    }
}

/// A volume as it is, with harmless changes, and with scratches of which nothing is known beforehand.
fn as_is(talk: &mut Talk, rng: &mut Rng, what: &str, volume: &Volume, scratches: usize) {
    talk.about(what);
    talk.volume(rng, volume);
    let enough = talk.enough();
    for claim in [enough, CLAIM_ROOM] {
        talk.expect(claim, Ok(volume.report()));
    }
    named_otherwise(talk, rng, what, volume);
    for number in 0..scratches.div_ceil(8) {
        talk.about(format!("{what}: harmless {number}"));
        talk.patched(&harmless(rng, volume), |talk| talk.expect(enough + 1, Ok(volume.report())));
    }
    for number in 0..scratches {
        talk.about(format!("{what}: scratch {number}"));
        let patches = scratch(rng, volume);
        talk.patched(&patches, |talk| {
            let _ = talk.audit(enough);
        });
    }
    talk.about(format!("{what}: patched back"));
    talk.expect_enough(Ok(volume.report()));
}

/// A good volume of which another size is named, or a number that no disk has: it is refused, whatever the claim area.
fn named_otherwise(talk: &mut Talk, rng: &mut Rng, what: &str, volume: &Volume) {
    let (before, enough) = (talk.named(), talk.enough());
    for named in volume.disk.other_sizes().map(|other| other.blocks).chain([rng.pick(&NO_SIZES)]) {
        talk.about(format!("{what}: {named} blocks named"));
        talk.name(named);
        talk.expect(enough, refused(1));
        talk.expect(rng.pick(&[0, enough - 1, CLAIM_ROOM]), refused(1));
    }
    talk.name(before);
}

/// The sum of a block's words, worked out apart from the opinions.
fn total(block: &[u8]) -> u32 {
    let words = block.chunks(4).map(|four| u32::from_be_bytes(four.try_into().expect("four bytes")));
    words.fold(0, u32::wrapping_add)
}

/// Changes of a byte, all of which change it.
const CHANGES: [fn(u8) -> u8; 3] = [|byte| byte.wrapping_add(1), |byte| byte.wrapping_sub(1), |byte| byte ^ 0x80];

/// Numbers that are added to one word and taken from another, so that carries run through one byte or several.
const CARRIES: [u32; 6] = [1, 0x100, 0x1_0000, 0x100_0000, 0x8000_0000, 0xFFFF_FFFF];

/// What is added to one word and taken from another, though not the same: one is twice the other, or stands at another
/// byte, or both words rise.
const UNEQUAL: [(u32, u32); 7] =
    [(1, 2), (2, 1), (1, 0x100), (0x100, 1), (1, 0x100_0000), (0x8000_0000, 1), (1, 0xFFFF_FFFF)];

/// A block of a good volume, to be audited with other words in it. If only spare words are changed and the sum is 0,
/// the volume is as good as before. With any other sum 7 is due, whatever is changed: the key has passed 5 and 6, and
/// no test of what is in a block comes earlier.
struct Summed<'a> {
    talk: &'a mut Talk,
    volume: &'a Volume,
    what: String,
    key: u32,
    /// The words that no rule tests.
    spare: Vec<usize>,
}

impl Summed<'_> {
    fn expect(&mut self, about: &str, block: &[u8], due: Result<Report, Refusal>) {
        self.talk.about(format!("{}: {about}", self.what));
        let patch = (self.key as usize * BLOCK_BYTES, block.to_vec());
        self.talk.patched(&[patch], |talk| talk.expect_enough(due));
    }

    /// A block whose sum is 0, which is accepted.
    fn right(&mut self, about: &str, block: &[u8]) {
        assert_eq!(total(block), 0, "{}: {about}", self.what);
        self.expect(about, block, Ok(self.volume.report()));
    }

    /// A block with another sum, which is refused.
    fn wrong(&mut self, about: &str, block: &[u8]) {
        assert_ne!(total(block), 0, "{}: {about}", self.what);
        self.expect(about, block, Err(Refusal::at(7, self.key as usize)));
    }

    /// A block that is wrong as it is, and right again once it is mended, if only spare words were changed.
    fn changed(&mut self, about: &str, block: &[u8]) {
        self.wrong(about, block);
        let own = self.volume.block(self.key);
        let stays = |index: usize| word(block, index) == word(own, index) || self.spare.contains(&index);
        if (0..BLOCK_WORDS).all(stays) {
            self.right(&format!("{about}, and mended"), &self.mended(block));
        }
    }

    /// The block with a sum of 0, by the first spare word.
    fn mended(&self, block: &[u8]) -> Vec<u8> {
        let mut mended = block.to_vec();
        put(&mut mended, self.spare[0], word(block, self.spare[0]).wrapping_sub(total(block)));
        mended
    }

    /// The block with these values in its spare words, and mended.
    fn filled(&self, mut value: impl FnMut(usize) -> u32) -> Vec<u8> {
        let mut block = self.volume.block(self.key).to_vec();
        self.spare.iter().for_each(|&index| put(&mut block, index, value(index)));
        self.mended(&block)
    }

    fn random(&self, rng: &mut Rng) -> Vec<u8> {
        self.filled(|_| rng.draw() as u32)
    }

    /// Two spare words that are so far apart, in either order, if there are such.
    fn apart(&self, rng: &mut Rng, distance: usize) -> Option<[usize; 2]> {
        let has_other = |index: &usize| self.spare.contains(&(index + distance));
        let firsts: Vec<usize> = self.spare.iter().copied().filter(has_other).collect();
        let first = (!firsts.is_empty()).then(|| rng.pick(&firsts))?;
        Some(rng.pick(&[[first, first + distance], [first + distance, first]]))
    }

    /// Words of which some bytes are as large as can be, or large, or small, and the others 0; full words up to any
    /// place, or in every eighth; and anything.
    fn extremes(&mut self, rng: &mut Rng) {
        let some = [0xFF, 0x80, 0x7F, 0x01].into_iter().flat_map(|byte| (1..16).map(move |chosen| (byte, chosen)));
        for (byte, chosen) in some.chain([(0, 0)]) {
            let bytes = [0, 1, 2, 3].map(|place| if chosen >> place & 1 == 1 { byte } else { 0 });
            let block = self.filled(|_| u32::from_be_bytes(bytes));
            self.right(&format!("all words {bytes:02X?}"), &block);
        }
        let full = |is_full: bool| if is_full { u32::MAX } else { 0 };
        for last in self.spare.clone() {
            let block = self.filled(|index| full(index <= last));
            self.right(&format!("full words up to w{last}"), &block);
        }
        for place in 0..8 {
            let block = self.filled(|index| full(index % 8 == place));
            self.right(&format!("every eighth word full, from w{place} on"), &block);
        }
        for _ in 0..16 {
            let block = self.random(rng);
            self.right("any words", &block);
        }
    }

    /// Each byte of a right block changed alone, by these.
    fn bytes(&mut self, about: &str, block: &[u8], changes: &[fn(u8) -> u8]) {
        for index in 0..BLOCK_BYTES {
            for byte in changes.iter().map(|change| change(block[index])) {
                let mut changed = block.to_vec();
                changed[index] = byte;
                self.changed(&format!("{about}, byte {index} made {byte:02X}"), &changed);
            }
        }
    }

    /// Bytes of one word swapped, or turned round, or one of them up and another down.
    fn within_words(&mut self, rng: &mut Rng) {
        let block = self.random(rng);
        let pairs = (0..4).flat_map(|one| (0..4).map(move |other| (one, other)));
        for index in 0..BLOCK_WORDS {
            let old: [u8; 4] = word(&block, index).to_be_bytes();
            let mut new = vec![[3, 2, 1, 0].map(|place| old[place])];
            for (one, other) in pairs.clone().filter(|(one, other)| one != other) {
                let [mut swapped, mut moved] = [old; 2];
                swapped.swap(one, other);
                moved[one] = old[one].wrapping_add(1);
                moved[other] = old[other].wrapping_sub(1);
                new.push(moved);
                new.extend((one < other).then_some(swapped));
            }
            for bytes in new.into_iter().filter(|&bytes| bytes != old) {
                let mut changed = block.clone();
                put(&mut changed, index, u32::from_be_bytes(bytes));
                self.changed(&format!("w{index} from {old:02X?} to {bytes:02X?}"), &changed);
            }
        }
    }

    /// One word up and another down, not by the same; and sums that would be 0 with one word in the place of another.
    /// The two are neighbours, or 8 words apart, or 64 bytes.
    fn across_words(&mut self, rng: &mut Rng) {
        let all = |distance| (0..BLOCK_WORDS - distance).map(move |one| [one, one + distance]);
        let both_ways = |[one, other]: [usize; 2]| [[one, other], [other, one]];
        for [one, other] in [1, 8, 16].into_iter().flat_map(all).flat_map(both_ways) {
            let block = self.random(rng);
            let (up, down) = rng.pick(&UNEQUAL);
            let mut changed = block.clone();
            put(&mut changed, one, word(&block, one).wrapping_add(up));
            put(&mut changed, other, word(&block, other).wrapping_sub(down));
            self.changed(&format!("w{one} up by {up:X}, w{other} down by {down:X}"), &changed);
            let (first, more) = (self.spare[0], word(&block, one).wrapping_sub(word(&block, other)));
            if more != 0 && ![one, other].contains(&first) {
                let mut changed = block.clone();
                put(&mut changed, first, word(&block, first).wrapping_sub(more));
                self.wrong(&format!("a sum of 0 if w{one} is taken for w{other}"), &changed);
            }
        }
    }

    /// Two words exchanged, or one up and another down by the same; or the spare words in reverse order.
    fn same_sums(&mut self, rng: &mut Rng) {
        let any = BLOCK_WORDS as u64 - 1;
        let distances: Vec<usize> = (1..=16).chain((0..32).map(|_| 1 + rng.below(any) as usize)).collect();
        for distance in distances {
            let Some([one, other]) = self.apart(rng, distance) else { continue };
            let block = self.random(rng);
            let mut changed = block.clone();
            put(&mut changed, one, word(&block, other));
            put(&mut changed, other, word(&block, one));
            self.right(&format!("w{one} and w{other} exchanged"), &changed);
            for (block, by) in [self.filled(|_| 0), block].iter().flat_map(|b| CARRIES.map(|by| (b, by))) {
                let mut changed = block.clone();
                put(&mut changed, one, word(block, one).wrapping_add(by));
                put(&mut changed, other, word(block, other).wrapping_sub(by));
                self.right(&format!("w{one} up and w{other} down by {by:X}"), &changed);
            }
        }
        let block = self.random(rng);
        let mut changed = block.clone();
        for (&index, &other) in self.spare.iter().zip(self.spare.iter().rev()) {
            put(&mut changed, index, word(&block, other));
        }
        self.right("spare words in reverse order", &changed);
    }
}

/// Sums of blocks of every kind, and most of all of a full data block, of which all words but five are spare. However
/// the words are added up, several at once or in parts, a slip that loses a word, a byte or a carry is to show. In the
/// Fast File System data blocks have no sum, and are left out.
#[test]
fn block_sums() {
    let mut rng = Rng::new(94);
    for disk in &Disk::FLOPPIES {
        let mut talk = Talk::new(Who::Both);
        // one of each kind, and 73 data blocks
        let mut plan = files(&mut rng, disk, &[TABLE * disk.data_bytes() + 1]);
        plan.add(&mut rng, None, None, Kind::Directory);
        let volume = laid_out(&mut rng, &plan);
        let tried = rng.below(72) as usize;
        let is_tried = |part| volume.is_summed(part) && !matches!(part, Part::Data(_, index) if index != tried);
        for &Met { key, part } in volume.order.iter().filter(|met| is_tried(met.part)) {
            // the exported functions get it at another address
            talk.image(&volume.image);
            let what = format!("{disk:?}, {part:?}");
            let mut summed = Summed { talk: &mut talk, volume: &volume, what, key, spare: volume.spare(part) };
            summed.extremes(&mut rng);
            summed.same_sums(&mut rng);
            let any = summed.random(&mut rng);
            summed.bytes("any words", &any, &CHANGES[..1]);
            // once is enough: how names fold has no part in sums
            if matches!(part, Part::Data(..)) && !disk.is_international() {
                let [zeros, full] = [0, u32::MAX].map(|value| summed.filled(|_| value));
                summed.bytes("any words", &any, &CHANGES[1..]);
                summed.bytes("zeros", &zeros, &CHANGES);
                summed.bytes("full words", &full, &CHANGES);
                summed.within_words(&mut rng);
                summed.across_words(&mut rng);
            }
        }
        let audits = &talk.tally.audits;
        println!("{disk:?}, sums: audits by number: {audits:?}");
        let least = match (disk.has_data_words(), disk.is_international()) {
            (true, false) => 10_000,
            (true, true) => 3_000,
            (false, _) => 1_500,
        };
        assert!([0, 7].iter().all(|&number| audits[&(*disk, number)] >= least), "{audits:?}");
        talk.run();
    }
}

/// All requests of the great comparison, as the seed draws them: about floppies of all kinds, and about these
/// high-density disks, which are filled in these ways.
fn talks(who: Who, seed: u64, larger: &[Disk], fills: &[Fill]) -> Vec<Talk> {
    let mut rng = Rng::new(seed);
    let rng = &mut rng;
    let one_floppy = in_turn(&Disk::FLOPPIES, seed);
    let one_larger = in_turn(larger, seed / 4);
    let mut talks = vec![
        tagged_anew(who, rng, &Disk::FLOPPIES, 24),
        tagged_anew(who, rng, larger, 3),
        sizes_in_one(who, rng, larger),
        lengths(who, rng, &one_larger),
        largest_size(who, rng, &one_floppy),
        largest_size(who, rng, &one_larger),
    ];
    talks.extend(Disk::FLOPPIES.iter().map(|disk| lengths(who, rng, disk)));
    // as many floppies as larger disks, in turn
    let floppies = (0..larger.len()).map(|after| in_turn(&Disk::FLOPPIES, seed + after as u64));
    for disk in floppies.chain(larger.iter().copied()) {
        talks.push(limits(who, rng, &disk));
    }
    for disk in Disk::FLOPPIES.iter().chain(larger) {
        talks.push(sizes(who, rng, disk));
        let (scratches, chance, most) = if disk.blocks == FLOPPY { (16, 80, 10) } else { (12, 50, 2) };
        let mut talk = Talk::new(who);
        for (what, volume) in moderate(rng, disk) {
            as_is(&mut talk, rng, &what, &volume, scratches);
            other_kinds(&mut talk, &what, &volume);
            harms(&mut talk, rng, &what, &volume, chance);
            allowed(&mut talk, rng, &what, &volume);
            pairs(&mut talk, rng, &what, &volume, most);
        }
        talks.push(talk);
    }
    let mut talk = Talk::new(who);
    for fill in FILLS {
        let (what, volume) = large(rng, FLOPPY, fill);
        as_is(&mut talk, rng, &what, &volume, 3);
        other_kinds(&mut talk, &what, &volume);
        harms(&mut talk, rng, &what, &volume, 10);
    }
    for &fill in fills {
        let (what, volume) = large(rng, HIGH_DENSITY, fill);
        as_is(&mut talk, rng, &what, &volume, 0);
        match fill {
            // it takes longest
            Fill::OneChain => longest_chain(&mut talk, &what, &volume),
            _ => harms(&mut talk, rng, &what, &volume, 2),
        }
    }
    talks.push(talk);
    talks
}

/// The numbers that are due for volumes of one kind under the tag of another.
fn numbers_of_tags(from: &Disk, to: &Disk) -> Vec<u32> {
    let mut numbers = vec![0];
    // a plain volume may have names that an international disk has for one, and none the other way round
    match (from.is_international(), to.is_international()) {
        (false, true) => numbers.extend([12, 13]),
        (true, false) => numbers.extend([12]),
        _ => {}
    }
    // sizes ask for other blocks, and the old file system for words
    match (from.has_data_words(), to.has_data_words()) {
        (true, false) => numbers.extend([14]),
        (false, true) => numbers.extend([7, 8, 14, 15]),
        _ => {}
    }
    numbers.sort();
    numbers
}

/// How often each answer is due over all talks.
fn sum<K: Copy + Ord>(talks: &[Talk], of: fn(&Tally) -> &BTreeMap<K, usize>) -> BTreeMap<K, usize> {
    let mut sum = BTreeMap::new();
    for (&answer, &times) in talks.iter().flat_map(|talk| of(&talk.tally)) {
        *sum.entry(answer).or_default() += times;
    }
    sum
}

/// The answers for one disk, by number.
fn of_disk(answers: &BTreeMap<Answer, usize>, disk: Disk) -> BTreeMap<u32, usize> {
    answers.range((disk, 0)..=(disk, u32::MAX)).map(|(&(_, number), &times)| (number, times)).collect()
}

/// Enough of everything is asked: of each kind of floppy at least 2,000 audits, each number at least 20 times; of each
/// of these high-density disks a few hundred, each number at least 3 times. Where data blocks have no words, 15 is
/// never due.
fn are_enough(talks: &[Talk], larger: &[Disk]) {
    let disks = || Disk::FLOPPIES.into_iter().chain(larger.iter().copied());
    let audits = sum(talks, |tally| &tally.audits);
    let unnamed = sum(talks, |tally| &tally.unnamed);
    for disk in disks() {
        let by_number = of_disk(&audits, disk);
        let total: usize = by_number.values().sum();
        println!("{disk:?}: {total} audits, by number: {by_number:?}");
        let (least, accepted, times) = if disk.blocks == FLOPPY { (2_000, 150, 20) } else { (500, 40, 3) };
        assert!(total >= least, "{total} audits of {disk:?}");
        let wanted = (0..18).filter(|&number| number != 15 || disk.has_data_words());
        assert!(by_number.keys().copied().eq(wanted), "other numbers for {disk:?}: {by_number:?}");
        assert!(by_number[&0] >= accepted, "{} accepted of {disk:?}", by_number[&0]);
        let rare: Vec<_> = by_number.iter().filter(|(_, &met)| met < times).collect();
        assert!(rare.is_empty(), "too few of {rare:?} for {disk:?}");
        let unnamed: usize = of_disk(&unnamed, disk).values().sum();
        assert!(
            unnamed >= least / 10 && total - unnamed >= least / 10,
            "{unnamed} of {total} unnamed of {disk:?}"
        );
    }
    let allowed = sum(talks, |tally| &tally.allowed);
    println!("no harm in the Fast File System, by disk and number due elsewhere: {allowed:?}");
    let fast = disks().filter(|disk| !disk.has_data_words());
    let wanted: Vec<Answer> = fast.flat_map(|disk| [7, 8, 14, 15].map(|number| (disk, number))).collect();
    assert!(allowed.keys().eq(&wanted), "{allowed:?}");
    let is_often = |disk: &Disk, times: usize| times >= if disk.blocks == FLOPPY { 5 } else { 2 };
    assert!(allowed.iter().all(|((disk, _), &times)| is_often(disk, times)), "{allowed:?}");

    let retagged = sum(talks, |tally| &tally.retagged);
    println!("under another tag, by disk, that disk and number: {retagged:?}");
    let pairs = disks().flat_map(|from| from.others().map(move |to| (from, to)));
    for (from, to) in pairs {
        let wanted = numbers_of_tags(&from, &to);
        let all = retagged.keys().filter(|&&(disk, (other, _))| (disk, other) == (from, to));
        let found: Vec<u32> = all.map(|&(_, (_, number))| number).collect();
        // on a larger disk there may be too few for the rare ones
        let is_right =
            if from.blocks == FLOPPY { found == wanted } else { found.iter().all(|n| wanted.contains(n)) };
        assert!(is_right && found.contains(&0), "{from:?} under the tag of {to:?}: {found:?}, not {wanted:?}");
    }
}

/// The two opinions agree on all that is asked, and with what is known beforehand; no one else is needed for that.
#[test]
fn both_opinions_agree() {
    are_enough(&talks(Who::Nobody, 92, &Disk::of_blocks(HIGH_DENSITY), &FILLS), &Disk::of_blocks(HIGH_DENSITY));
}

/// `probe` and the exported functions agree too.
#[test]
fn volumes_good_and_bad() {
    let talks = talks(Who::Both, 92, &Disk::of_blocks(HIGH_DENSITY), &FILLS);
    are_enough(&talks, &Disk::of_blocks(HIGH_DENSITY));
    talks.into_iter().for_each(Talk::run);
}

/// The exported functions are fast, and are asked ten times as much. High-density disks of the four kinds take turns,
/// and so do the ways to fill one.
#[test]
fn volumes_for_the_exported_functions() {
    with_seeds(900, 10, |seed| {
        let larger = [in_turn(&Disk::of_blocks(HIGH_DENSITY), seed)];
        are_enough(&talks(Who::Exports, seed, &larger, &[in_turn(&FILLS, seed)]), &larger);
    });
}
