//! Cases drawn at random for as long as one likes: damaged volumes and damaged programs, each put to two answerers
//! whose lines are compared. One of them is mostly the [`Model`], the other the instrument.
//!
//! All that a round draws follows from its seed.

use std::collections::{BTreeMap, BTreeSet};
use std::rc::Rc;

use crate::bad_programs::{bad_bases, scratch as scratch_program, short_room, CAUSES};
use crate::bad_volumes::{apply, causes, harmless, scratch, wrong_lengths, Cause, Harm, Patch, NO_SIZES};
use crate::calls::{Calls, Opinion};
use crate::disk::{image_length, settled, Disk, ANY, FLOPPY, HIGH_DENSITY};
use crate::driver::Request;
use crate::kinds::retagged;
use crate::model::{
    load_body, move_body, read_request, Model, AUDIT, DISK, FILE, FIND, IMAGE, IMAGE_ROOM, LOAD, MOVE, PATCH,
};
use crate::native::Exports;
use crate::paths::{bad_forms, telling_offsets, telling_rooms, Paths};
use crate::programs::{file, good_bases, good_program, Room};
use crate::rng::Rng;
use crate::sizes::largest_file;
use crate::volumes::{
    alike, any_style, both_sizes, chain, empty, files, full, mixed, nested, shuffle, telling_sizes, Kind, Part,
    Volume,
};
use crate::words::{BLOCK_BYTES, TABLE};

/// What is asked of an image.
#[derive(Clone, Debug, PartialEq, Eq)]
pub enum Asked {
    /// An audit with a claim area of this length.
    Audit(u32),
    /// A lookup of a path.
    Find(Vec<u8>),
    /// A read of so much of a path, from this offset on.
    Read { offset: u32, room: u32, path: Vec<u8> },
}

impl Asked {
    fn told(&self) -> String {
        match self {
            Asked::Audit(claim) => format!("audit with a claim area of {claim}"),
            Asked::Find(path) => format!("find \"{}\"", path.escape_ascii()),
            Asked::Read { offset, room, path } => {
                format!("read \"{}\" from {offset} into {room}", path.escape_ascii())
            }
        }
    }

    fn request(&self) -> Request {
        match self {
            Asked::Audit(claim) => (AUDIT, claim.to_be_bytes().to_vec()),
            Asked::Find(path) => (FIND, path.clone()),
            Asked::Read { offset, room, path } => read_request(*offset as usize, *room as usize, path),
        }
    }
}

/// What is done with a program file.
#[derive(Clone, Debug, PartialEq, Eq)]
pub enum Call {
    /// A load at these bases.
    Load(Room, Vec<u32>),
    /// A move from the old bases to the new.
    Move(Room, Vec<u32>, Vec<u32>),
}

impl Call {
    fn request(&self) -> Request {
        match self {
            Call::Load(room, bases) => (LOAD, load_body(*room, bases)),
            Call::Move(room, old, new) => (MOVE, move_body(*room, old, new)),
        }
    }
}

/// Something to ask.
#[derive(Clone, Debug)]
pub enum Case {
    /// A question about an image, which is another one patched, and the number of blocks that the call names.
    Image { named: u32, good: Rc<Vec<u8>>, patches: Vec<Patch>, asked: Asked },
    /// Calls with a program file.
    Program { file: Vec<u8>, calls: Vec<Call> },
}

fn patch_request((place, bytes): &Patch) -> Request {
    (PATCH, [&(*place as u32).to_be_bytes(), &bytes[..]].concat())
}

/// The patches that change an image back.
fn undoing(good: &[u8], patches: &[Patch]) -> Vec<Patch> {
    patches.iter().map(|(place, bytes)| (*place, good[*place..][..bytes.len()].to_vec())).collect()
}

/// The requests for these cases one after the other, each with the number of its case. An image that several cases in a
/// row begin with is sent once, and a number of blocks is named where it changes.
fn numbered_requests(cases: &[Case]) -> Vec<(usize, Request)> {
    let mut held: Option<&Rc<Vec<u8>>> = None;
    let mut now = FLOPPY;
    let mut all = Vec::new();
    for (number, case) in cases.iter().enumerate() {
        match case {
            Case::Image { named, good, patches, asked } => {
                if *named != now {
                    all.push((number, (DISK, named.to_be_bytes().to_vec())));
                    now = *named;
                }
                if !held.is_some_and(|held| Rc::ptr_eq(held, good)) {
                    all.push((number, (IMAGE, good.to_vec())));
                    held = Some(good);
                }
                all.extend(patches.iter().map(|patch| (number, patch_request(patch))));
                all.push((number, asked.request()));
                all.extend(undoing(good, patches).iter().map(|patch| (number, patch_request(patch))));
            }
            Case::Program { file, calls } => {
                all.push((number, (FILE, file.clone())));
                all.extend(calls.iter().map(|call| (number, call.request())));
            }
        }
    }
    all
}

/// The requests for one case.
pub fn requests(case: &Case) -> Vec<Request> {
    numbered_requests(std::slice::from_ref(case)).into_iter().map(|(_, request)| request).collect()
}

/// Whoever answers requests, a line for each.
pub type Answerer<'a> = dyn FnMut(&[Request]) -> Vec<String> + 'a;

fn by<C: Calls>(mut model: Model<C>, requests: &[Request]) -> Vec<String> {
    requests.iter().map(|(number, body)| model.answer(*number, body)).collect()
}

/// The lines due for requests.
pub fn due(requests: &[Request]) -> Vec<String> {
    by(Model::new(Opinion), requests)
}

/// The lines that the exported functions give.
pub fn exported(requests: &[Request]) -> Vec<String> {
    by(Model::new(Exports::default()), requests)
}

/// Two lines that are not the same.
#[derive(Clone, Debug, PartialEq, Eq)]
pub struct Difference {
    /// The number of the case.
    pub case: usize,
    /// The number of the request.
    pub request: u32,
    /// The line of the one, and that of the other.
    pub lines: [String; 2],
}

/// How often each kind of answer came: by request and by number of refusal, which is 0 for all else.
pub type Tally = BTreeMap<(u32, u32), usize>;

fn refusal_number(line: &str) -> u32 {
    line.strip_prefix("refused ").and_then(|rest| rest.split(' ').next()?.parse().ok()).unwrap_or(0)
}

/// Puts cases to both; the first difference, or how often each kind of answer came.
pub fn compare(cases: &[Case], one: &mut Answerer, other: &mut Answerer) -> Result<Tally, Difference> {
    let (numbers, requests): (Vec<usize>, Vec<Request>) = numbered_requests(cases).into_iter().unzip();
    let (ours, theirs) = (one(&requests), other(&requests));
    let mut tally = Tally::new();
    let line = |lines: &[String], index: usize| lines.get(index).cloned().unwrap_or("no answer".to_string());
    for (index, (request, _)) in requests.iter().enumerate() {
        let lines = [line(&ours, index), line(&theirs, index)];
        if lines[0] != lines[1] {
            return Err(Difference { case: numbers[index], request: *request, lines });
        }
        *tally.entry((*request, refusal_number(&lines[0]))).or_default() += 1;
    }
    if ours.len() != theirs.len() {
        let lines = [line(&ours, requests.len()), line(&theirs, requests.len())];
        return Err(Difference { case: cases.len() - 1, request: 0, lines });
    }
    Ok(tally)
}

/// Whether the two differ about this one case.
pub fn differ(case: &Case, one: &mut Answerer, other: &mut Answerer) -> bool {
    compare(std::slice::from_ref(case), one, other).is_err()
}

/// A volume of any kind, one in three on a high-density disk.
fn any_volume(rng: &mut Rng) -> Volume {
    let blocks = rng.pick(&[FLOPPY, FLOPPY, HIGH_DENSITY]);
    let disk = &rng.pick(&Disk::of_blocks(blocks));
    let few = 1 + rng.below(60) as u32;
    let full_block = disk.data_bytes();
    let plan = match rng.below(40) {
        0 => empty(disk),
        1..4 => nested(rng, disk, few),
        4..8 => chain(rng, disk, few),
        8..10 => files(rng, disk, &telling_sizes(disk)),
        10..13 => files(rng, disk, &[3 * TABLE * full_block + 1, 2 * TABLE * full_block, 1]),
        13 => nested(rng, disk, disk.chain_limit()),
        14 => chain(rng, disk, disk.chain_limit()),
        15 => files(rng, disk, &[largest_file(disk)]),
        16..18 => full(rng, disk),
        18..22 => alike(rng, disk, few, if disk.is_international() { 0 } else { few / 8 }),
        22 => {
            // cut to a floppy's length it is one
            let [_, large] = both_sizes(rng, disk.kind, few);
            return large;
        }
        _ => {
            let blocks = rng.pick(&[10, 30, 80, 200, 400]);
            mixed(rng, disk, blocks)
        }
    };
    let style = any_style(rng);
    Volume::new(rng, &plan, style)
}

/// Some harms of which it is known what they are, mended or not, alone or two of them; or a change that is harm in
/// another file system.
fn aimed(rng: &mut Rng, volume: &Volume) -> Vec<Patch> {
    let all: Vec<&Cause> = causes().collect();
    if let Some(patches) = rng.pick(&all).allowed(rng, volume) {
        return patches;
    }
    let [one, two] = [(); 2].map(|()| rng.pick(&all).harm(rng, volume));
    let harm = match (one, two, rng.below(3)) {
        (Some(one), Some(two), 0) => one.with(&two),
        (Some(one), _, 1) => one.unmended(),
        (one, two, _) => one.or(two),
    };
    harm.as_ref().map(Harm::patches).unwrap_or_default()
}

/// Many scratches at once; the boot tag and the root would hide the rest.
fn wreck(rng: &mut Rng, volume: &Volume) -> Vec<Patch> {
    let times = 2 + rng.below(10);
    let all = (0..times).flat_map(|_| scratch(rng, volume));
    let is_hiding = |place: usize| [0, volume.disk.root() as usize].contains(&(place / BLOCK_BYTES));
    all.filter(|(place, _)| !is_hiding(*place)).collect::<BTreeMap<_, _>>().into_iter().collect()
}

/// A run of other bytes anywhere, often in a block that is in use.
fn torn(rng: &mut Rng, volume: &Volume) -> Vec<Patch> {
    let (any, used) = (rng.below(u64::from(volume.disk.blocks)) as u32, rng.pick(&volume.order).key);
    let key = rng.pick(&[any, used, used, volume.disk.root()]);
    let place = key as usize * BLOCK_BYTES + rng.below(BLOCK_BYTES as u64) as usize;
    let length = rng.pick(&[1, 1, 2, 4, 30, 512, 3_000]).min(image_length(volume.disk.blocks) - place);
    let alike = vec![rng.pick(&[0, 0xF6, 0xFF]); length];
    vec![(place, if rng.below(2) == 0 { alike } else { rng.bytes(length) })]
}

/// The tag of another kind, at times with a scratch besides.
fn other_kind(rng: &mut Rng, volume: &Volume) -> Vec<Patch> {
    let others: Vec<Disk> = volume.disk.others().collect();
    let (patch, _) = retagged(volume, &rng.pick(&others));
    let more = if rng.below(2) == 0 { scratch(rng, volume) } else { Vec::new() };
    // a scratch of the block with the tag would bring the tag back
    [patch].into_iter().chain(more.into_iter().filter(|&(place, _)| place > 0)).collect()
}

fn damage(rng: &mut Rng, volume: &Volume) -> Vec<Patch> {
    match rng.below(13) {
        0 => Vec::new(),
        1 => harmless(rng, volume),
        2..5 => aimed(rng, volume),
        5 => wreck(rng, volume),
        6 => torn(rng, volume),
        7 => other_kind(rng, volume),
        _ => scratch(rng, volume),
    }
}

/// The entry that a block belongs to.
fn owner(volume: &Volume, key: u32) -> Option<usize> {
    match volume.order[volume.position(key)?].part {
        Part::Root | Part::Bitmap => None,
        Part::Directory(number) | Part::File(number) => Some(number),
        Part::List(number, _) | Part::Data(number, _) => Some(number),
    }
}

/// Paths on a volume without regard to its damage: to some of its entries, and a few to where nothing is.
fn any_paths(rng: &mut Rng, paths: &Paths) -> Vec<Vec<u8>> {
    let count = paths.volume.entries.len();
    let numbers: Vec<usize> = (0..count.min(20)).map(|_| rng.below(count as u64) as usize).collect();
    let mut missing = paths.missing(rng, None);
    for &number in &numbers {
        match paths.volume.entries[number].kind {
            Kind::Directory => missing.extend(paths.missing(rng, Some(number))),
            Kind::File(_) => missing.push(paths.past_file(rng, number)),
        }
    }
    let mut bad = bad_forms(rng, &paths.components(numbers.first().copied()));
    shuffle(rng, &mut missing);
    shuffle(rng, &mut bad);
    let existing = numbers.iter().map(|&number| paths.existing(rng, number)).collect::<Vec<_>>();
    let all = [paths.root()].into_iter().chain(existing);
    all.chain(missing.into_iter().take(10)).chain(bad.into_iter().take(3)).map(|question| question.path).collect()
}

/// The paths to ask for where these patches are: to what they harm, and two of the others.
fn concerned(rng: &mut Rng, paths: &Paths, patches: &[Patch], others: &[Vec<u8>]) -> Vec<Vec<u8>> {
    let keys = patches.iter().map(|(place, _)| (place / BLOCK_BYTES) as u32);
    let owners: BTreeSet<usize> = keys.filter_map(|key| owner(paths.volume, key)).collect();
    let harmed = owners.into_iter().take(3).map(|number| paths.existing(rng, number).path);
    let mut all: Vec<Vec<u8>> = harmed.collect();
    all.extend((0..2).map(|_| others[rng.below(others.len() as u64) as usize].clone()));
    all
}

/// A read of a path on such a disk, small more often than large.
fn any_read(rng: &mut Rng, disk: &Disk, path: &[u8]) -> Asked {
    let [none, one, _, full, more, table, over] = telling_sizes(disk);
    let size = rng.pick(&[none, one, full, more, 1_000, over, 2 * table + 1]);
    let offset = rng.pick(&telling_offsets(disk, size));
    let room = rng.pick(&telling_rooms(disk, size.saturating_sub(offset) as usize)) as u32;
    let room = if room > 2_000 && rng.below(6) > 0 { rng.below(2_000) as u32 } else { room };
    Asked::Read { offset, room, path: path.to_vec() }
}

/// A number of blocks to name for such a disk: mostly its own, or none.
fn any_named(rng: &mut Rng, disk: &Disk) -> u32 {
    let wrong = rng.pick(&NO_SIZES);
    match rng.below(24) {
        0 => disk.other_sizes().next().map_or(wrong, |other| other.blocks),
        1 => wrong,
        2..9 => ANY,
        _ => disk.blocks,
    }
}

/// A claim area for such a disk: mostly long enough for it.
fn any_claim(rng: &mut Rng, disk: &Disk) -> u32 {
    let blocks = disk.blocks;
    let other = disk.other_sizes().next().map_or(blocks, |other| other.blocks);
    rng.pick(&[blocks, blocks, blocks, blocks + 1, 4_096, blocks - 1, other])
}

/// Cases about one volume with so many damages, one after the other.
fn image_cases(rng: &mut Rng, damages: usize) -> Vec<Case> {
    let volume = any_volume(rng);
    let disk = &volume.disk;
    let (good, paths) = (Rc::new(volume.image.clone()), Paths::new(&volume));
    let others = any_paths(rng, &paths);
    let mut cases = Vec::new();
    for _ in 0..damages {
        let patches = damage(rng, &volume);
        let mut questions = vec![Asked::Audit(any_claim(rng, disk))];
        for path in concerned(rng, &paths, &patches, &others) {
            questions.push(any_read(rng, disk, &path));
            questions.push(Asked::Find(path));
        }
        let named = any_named(rng, disk);
        let case = |asked| Case::Image { named, good: good.clone(), patches: patches.clone(), asked };
        cases.extend(questions.into_iter().map(case));
    }
    if rng.below(8) == 0 {
        cases.extend(resized_cases(rng, &volume, &others));
    }
    cases
}

/// Cases about the bytes of a volume cut or made longer: to the length of another size of disk, or to one that fits no
/// disk.
fn resized_cases(rng: &mut Rng, volume: &Volume, paths: &[Vec<u8>]) -> Vec<Case> {
    let other = volume.disk.other_sizes().next().unwrap_or(volume.disk);
    let wrong: Vec<usize> = wrong_lengths(ANY).into_iter().filter(|&length| length <= IMAGE_ROOM).collect();
    let length = [rng.pick(&wrong), image_length(other.blocks)][rng.below(2) as usize];
    let mut image = volume.image.clone();
    image.resize(length, 0);
    let good = Rc::new(image);
    let mut cases = Vec::new();
    for path in paths.iter().take(4) {
        let named = [any_named(rng, &volume.disk), any_named(rng, &other)][rng.below(2) as usize];
        let asked = [Asked::Audit(any_claim(rng, &other)), Asked::Find(path.clone()), any_read(rng, &other, path)];
        cases.extend(asked.map(|asked| Case::Image { named, good: good.clone(), patches: Vec::new(), asked }));
    }
    cases
}

/// A program file, mostly damaged, and the sizes that its hunks have or had.
fn any_file(rng: &mut Rng) -> (Vec<u8>, Vec<u32>) {
    if rng.below(4) == 0 {
        let bad = CAUSES[rng.below(CAUSES.len() as u64) as usize].file(rng);
        return (bad.bytes, bad.sizes);
    }
    let program = good_program(rng);
    let mut bytes = file(&program.written());
    (0..rng.pick(&[0, 1, 1, 2])).for_each(|_| scratch_program(rng, &mut bytes));
    (bytes, program.sizes())
}

fn any_bases(rng: &mut Rng, sizes: &[u32]) -> Vec<u32> {
    if rng.below(8) == 0 {
        bad_bases(rng, sizes).0
    } else {
        good_bases(rng, sizes)
    }
}

fn any_room(rng: &mut Rng, sizes: &[u32]) -> Room {
    let needed = Room::needed(sizes);
    if rng.below(8) == 0 {
        short_room(rng, needed)
    } else {
        needed.widened(rng)
    }
}

/// A program that is loaded, and most often moved once or twice.
fn program_case(rng: &mut Rng) -> Case {
    let (file, sizes) = any_file(rng);
    let mut room = any_room(rng, &sizes);
    let mut at = any_bases(rng, &sizes);
    let mut calls = vec![Call::Load(room, at.clone())];
    for _ in 0..rng.pick(&[0, 1, 1, 2]) {
        let new = any_bases(rng, &sizes);
        if rng.below(10) == 0 {
            room = any_room(rng, &sizes);
        }
        calls.push(Call::Move(room, at, new.clone()));
        at = new;
    }
    Case::Program { file, calls }
}

/// The cases of a round.
pub fn round(seed: u64) -> Vec<Case> {
    let mut rng = Rng::new(seed);
    let mut cases = image_cases(&mut rng, 40);
    cases.extend((0..200).map(|_| program_case(&mut rng)));
    cases
}

/// An image with patches in it.
pub fn patched(good: &[u8], patches: &[Patch]) -> Vec<u8> {
    let mut image = good.to_vec();
    apply(patches, &mut image);
    image
}

/// The disks that the image of a case is: as it was drawn, by its length and tag alone, and as it is asked about, also
/// by the number of blocks that is named.
pub fn disks(case: &Case) -> Option<[Option<Disk>; 2]> {
    let Case::Image { named, good, patches, .. } = case else { return None };
    let mut tag: Vec<u8> = good.iter().copied().take(4).collect();
    for (place, bytes) in patches {
        tag.iter_mut().skip(*place).zip(bytes).for_each(|(byte, &new)| *byte = new);
    }
    let asked = settled(*named, good.len()).and_then(|blocks| Disk::of(blocks, &tag));
    Some([Disk::named(ANY, good), asked])
}

/// The words in which two images differ, as patches of one word each that make the first the second.
pub fn differing_words(one: &[u8], other: &[u8]) -> Vec<Patch> {
    let words = one.chunks(4).zip(other.chunks(4)).enumerate();
    words.filter(|(_, (old, new))| old != new).map(|(index, (_, new))| (4 * index, new.to_vec())).collect()
}

/// A case in words.
pub fn told(case: &Case) -> String {
    let hex = |bytes: &[u8]| bytes.iter().map(|byte| format!("{byte:02X}")).collect::<String>();
    match case {
        Case::Image { named, good, patches, asked } => {
            let word = |(place, new): &Patch| {
                let old = &good[*place..][..new.len()];
                let (block, index) = (place / BLOCK_BYTES, place % BLOCK_BYTES / 4);
                format!("block {block} w{index}: {} instead of {}\n", hex(new), hex(old))
            };
            let words: String = differing_words(good, &patched(good, patches)).iter().map(word).collect();
            let blank = |block: &&[u8]| block.iter().all(|&byte| byte == 0);
            let blocks = good.chunks(BLOCK_BYTES).filter(|block| !blank(block)).count();
            let (length, tag) = (good.len(), hex(&good[..good.len().min(4)]));
            let image = format!("an image of {length} bytes, boot tag {tag}, {blocks} blocks not blank");
            format!("{image}\n{words}{}, {named} blocks named\n", asked.told())
        }
        Case::Program { file, calls } => {
            let words: String = file.chunks(4).map(|word| hex(word) + " ").collect();
            let calls: String = calls.iter().map(|call| format!("{call:X?}\n")).collect();
            format!("a file of {} bytes: {words}\n{calls}", file.len())
        }
    }
}

#[cfg(test)]
mod tests {
    use super::*;
    use crate::disk::SIZES;
    use crate::model::READ;
    use crate::shrink::shrink;
    use crate::words::word;

    /// The calls among the requests.
    const CALLS: [u32; 5] = [AUDIT, FIND, READ, LOAD, MOVE];

    #[test]
    fn a_round_follows_from_its_seed_and_has_everything() {
        let (mut sum, mut asked) = (Tally::new(), BTreeMap::new());
        for seed in 0..24 {
            let cases = round(seed);
            cases.iter().filter_map(disks).for_each(|disks| *asked.entry(disks).or_insert(0) += 1);
            // the first few are enough for the answers
            if seed >= 6 {
                continue;
            }
            let tally = compare(&cases, &mut due, &mut due).expect("the model agrees with itself");
            tally.into_iter().for_each(|(kind, times)| *sum.entry(kind).or_default() += times);
            let told_again: Vec<String> = round(seed).iter().map(told).collect();
            assert!(cases.iter().map(told).eq(told_again), "{seed}");
        }
        for call in CALLS {
            let accepted = sum.get(&(call, 0)).copied().unwrap_or(0);
            let refused: usize = sum.range((call, 1)..(call + 1, 0)).map(|(_, times)| times).sum();
            assert!(accepted > 30 && refused > 30, "{call}: {accepted} accepted, {refused} refused");
        }
        // of each kind; of each, but by a patch of another; and of each, but by a patch of none
        let kinds_of = |[drawn, now]: [Option<Disk>; 2]| [drawn, now].map(|disk| disk.map(|disk| disk.kind));
        let times = |drawn, now| -> usize {
            asked.iter().filter(|(&disks, _)| kinds_of(disks) == [drawn, now]).map(|(_, &times)| times).sum()
        };
        for (drawn, now) in (0..4).flat_map(|drawn| (0..4).map(move |now| (drawn, now))) {
            let times = times(Some(drawn), Some(now));
            assert!(times >= if drawn == now { 200 } else { 5 }, "{drawn} {now} {times} times: {asked:?}");
        }
        assert!((0..4).all(|kind| times(Some(kind), None) > 0), "{asked:?}");
        // of each size and kind, and where that is the image's, not so for the call
        for disk in Disk::ALL {
            let [right, wrong] = [Some(disk), None].map(|now| asked.get(&[Some(disk), now]).copied().unwrap_or(0));
            assert!(right >= 100 && wrong >= 5, "{disk:?} {right} and {wrong} times: {asked:?}");
        }
    }

    /// A wrong answerer: the model, but for one kind of line.
    type Slip = fn(u32, &str) -> Option<String>;

    fn slipped(slip: Slip) -> impl Fn(&[Request]) -> Vec<String> {
        move |requests| {
            let lines = due(requests).into_iter().zip(requests);
            lines.map(|(line, (number, _))| slip(*number, &line).unwrap_or(line)).collect()
        }
    }

    /// The first case that an answerer gets wrong, made small.
    fn caught(slip: Slip) -> Case {
        caught_from(&mut slipped(slip))
    }

    fn caught_from(mut wrong: &mut Answerer) -> Case {
        let found = (200..260).find_map(|seed| {
            let cases = round(seed);
            let difference = compare(&cases, &mut due, &mut wrong).err()?;
            Some(cases[difference.case].clone())
        });
        shrink(&found.expect("a slip that is met"), &mut |case| differ(case, &mut due, &mut wrong))
    }

    /// The words in which the small case's image differs from a good one, and its blocks that are not blank.
    fn image_size(case: &Case) -> (usize, usize) {
        let Case::Image { good, patches, .. } = case else { panic!("a case about an image: {case:?}") };
        let in_use = good.chunks(BLOCK_BYTES).filter(|block| block.iter().any(|&byte| byte != 0));
        (differing_words(good, &patched(good, patches)).len(), in_use.count())
    }

    #[test]
    fn slips_of_audits_are_caught_and_made_small() {
        // a link that passes for a wrong type: the tag, the root, the bitmap block and the entry are needed, and the
        // directories above it
        let case = caught(|_, line| line.strip_prefix("refused 9 ").map(|rest| format!("refused 8 {rest}")));
        let (words, blocks) = image_size(&case);
        assert!(words <= 2 && blocks <= 8, "{}", told(&case));
        let case = caught(|number, line| (number == AUDIT && line.starts_with("refused 17 ")).then(String::new));
        let (words, blocks) = image_size(&case);
        assert!(words <= 2 && blocks <= 3, "{}", told(&case));
    }

    #[test]
    fn slips_of_lookups_and_reads_are_caught_and_made_small() {
        let case = caught(|number, line| (number == FIND && line.starts_with("refused 19 ")).then(String::new));
        assert!(image_size(&case) == (0, 2), "{}", told(&case));
        let Case::Image { asked: Asked::Find(path), .. } = case else { panic!("a lookup") };
        assert_eq!(path.len(), 1);
        let case = caught(|number, line| (number == READ && line.starts_with("bytes ")).then(String::new));
        assert!(image_size(&case).0 == 0, "{}", told(&case));
        let Case::Image { asked: Asked::Read { offset, room, .. }, .. } = case else { panic!("a read") };
        assert_eq!((offset, room), (0, 0));
    }

    /// The lines that are due if each kind in a tag were another: those of kinds 0 to 3.
    fn with_kinds(others: [u8; 4]) -> impl Fn(&[Request]) -> Vec<String> {
        let changed = move |(number, body): &Request| {
            let mut body = body.clone();
            let place = match *number {
                IMAGE => Some(3),
                PATCH => 3_usize.checked_sub(word(&body, 0) as usize).map(|within| 4 + within),
                _ => None,
            };
            if let Some(kind) = place.and_then(|place| body.get_mut(place)) {
                *kind = others.get(usize::from(*kind)).copied().unwrap_or(*kind);
            }
            (*number, body)
        };
        move |requests| due(&requests.iter().map(changed).collect::<Vec<Request>>())
    }

    /// The kind of the disk that a case asks about.
    fn kind_asked(case: &Case) -> Option<u8> {
        disks(case).and_then(|disks| disks[1]).map(|disk| disk.kind)
    }

    /// The lines that are due if each named number of blocks were another.
    fn with_names(other: fn(u32) -> u32) -> impl Fn(&[Request]) -> Vec<String> {
        move |requests| {
            let changed = |(number, body): &Request| match *number {
                DISK => (DISK, other(word(body, 0)).to_be_bytes().to_vec()),
                _ => (*number, body.clone()),
            };
            let lines = due(&requests.iter().map(changed).collect::<Vec<Request>>());
            // what is named is said as it was given
            let said = |(line, (number, body)): (String, &Request)| match *number {
                DISK => format!("disk {}", word(body, 0)),
                _ => line,
            };
            lines.into_iter().zip(requests).map(said).collect()
        }
    }

    /// A reader that takes no number for the floppy's, one that takes every number for none, one that takes whatever is
    /// no number of a disk for none, and one that knows floppies alone. The image need have nothing but its length for
    /// that, if a path of bad form is asked for; else a tag, or a root.
    #[test]
    fn slips_of_sizes_are_caught_and_made_small() {
        let slips: [(fn(u32) -> u32, fn(u32) -> bool); 4] = [
            (|named| if named == ANY { FLOPPY } else { named }, |named| named == ANY),
            (|_| ANY, |named| named != ANY),
            (|named| if SIZES.contains(&named) { named } else { ANY }, |named| NO_SIZES.contains(&named)),
            (|named| if named == HIGH_DENSITY { FLOPPY } else { named }, |named| named == HIGH_DENSITY),
        ];
        for (other, is_met) in slips {
            let case = caught_from(&mut with_names(other));
            let (words, blocks) = image_size(&case);
            assert!(words == 0 && blocks <= 3, "{}", told(&case));
            let Case::Image { named, .. } = case else { panic!("a case about an image") };
            assert!(is_met(named), "{}", told(&case));
        }
    }

    /// A reader that knows no accents is caught at an entry with one.
    #[test]
    fn slips_of_folding_are_caught_and_made_small() {
        let case = caught_from(&mut with_kinds([0, 1, 0, 1]));
        let (words, blocks) = image_size(&case);
        // the tag, the root and the entry, for an audit the bitmap block too; at most the tag and a name are patched
        assert!(words <= 4 && blocks <= 4, "{}", told(&case));
        let kind = kind_asked(&case);
        assert!([Some(2), Some(3)].contains(&kind), "{}", told(&case));
    }

    /// A reader that has one file system for the other is caught at a file, and so is one that knows one of them only.
    #[test]
    fn slips_of_the_file_system_are_caught_and_made_small() {
        for (others, caught_at) in [([0, 0, 2, 2], [1, 3]), ([1, 1, 3, 3], [0, 2])] {
            let case = caught_from(&mut with_kinds(others));
            let (words, blocks) = image_size(&case);
            // the tag, the root, the header and a table, and the directories above
            assert!(words <= 4 && blocks <= 12, "{}", told(&case));
            let kind = kind_asked(&case);
            assert!(caught_at.map(Some).contains(&kind), "{}", told(&case));
        }
        let case = caught_from(&mut with_kinds([0, 4, 2, 4]));
        // the root is enough
        assert!(image_size(&case).1 <= 2, "{}", told(&case));
        assert!([Some(1), Some(3)].contains(&kind_asked(&case)), "{}", told(&case));
    }

    #[test]
    fn slips_of_loads_and_moves_are_caught_and_made_small() {
        let case = caught(|_, line| line.strip_prefix("refused 38 ").map(|rest| format!("refused 37 {rest}")));
        let Case::Program { file, calls } = &case else { panic!("a program") };
        // header, one size, body and its length, block, count, hunk number and at most one offset
        assert!(file.len() <= 4 * 12 && calls.len() == 1, "{}", told(&case));
        // a header of one hunk, and the two bits
        let case = caught(|_, line| line.strip_prefix("refused 43 ").map(|rest| format!("refused 34 {rest}")));
        let Case::Program { file, calls } = &case else { panic!("a program") };
        assert!(file.len() == 4 * 6 && file[20..] == [0xC0, 0, 0, 0] && calls.len() == 1, "{}", told(&case));
        let case = caught(|_, line| line.strip_prefix("moved ").map(|rest| format!("loaded {rest}")));
        let Case::Program { file, calls } = &case else { panic!("a program") };
        assert!(file.len() == 4 * 9 && calls.len() == 2, "{}", told(&case));
    }

    #[test]
    fn a_missing_line_and_one_too_many_are_differences() {
        let cases = [Case::Program { file: vec![1], calls: vec![Call::Load(Room::needed(&[]), vec![])] }];
        let mut cut = |requests: &[Request]| due(requests)[..1].to_vec();
        let difference = compare(&cases, &mut due, &mut cut).expect_err("a line is missing");
        assert_eq!((difference.request, &difference.lines[1][..]), (LOAD, "no answer"));
        let mut more = |requests: &[Request]| [due(requests), vec!["ended with 1".into()]].concat();
        let difference = compare(&cases, &mut due, &mut more).expect_err("a line too many");
        assert_eq!(difference.lines, ["no answer", "ended with 1"]);
    }
}
