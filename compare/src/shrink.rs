//! Makes a case small that two answerers differ about, see [`fuzz`](crate::fuzz): what can be left out is left out, as
//! long as they still differ.

use std::collections::{BTreeMap, BTreeSet};
use std::rc::Rc;

use crate::bad_volumes::Patch;
use crate::disk::{claim_length, settled, Disk, ANY, FLOPPY};
use crate::fuzz::{differing_words, patched, told, Asked, Call, Case};
use crate::program::{BOTH, END};
use crate::programs::bytes;
use crate::words::{mend, put, slot_word, sum, word, BLOCK_BYTES, TABLE};

/// Whether a case still shows what is wrong.
pub type Fails<'a> = dyn FnMut(&Case) -> bool + 'a;

/// The same for a case about an image: as it is good, its patches, and what is asked. The number of blocks that is
/// named stays.
type ImageFails<'a> = dyn FnMut(&Rc<Vec<u8>>, &[Patch], &Asked) -> bool + 'a;

/// As few of these things as still fail: runs of them are left out, long ones first, until no single one can be.
pub fn least<T: Clone>(things: &[T], fails: &mut dyn FnMut(&[T]) -> bool) -> Vec<T> {
    let mut kept = things.to_vec();
    let mut run = kept.len();
    while run > 0 {
        let (before, mut at) = (kept.len(), 0);
        while at < kept.len() {
            let end = kept.len().min(at + run);
            let fewer = [&kept[..at], &kept[end..]].concat();
            if fails(&fewer) {
                kept = fewer;
            } else {
                at = end;
            }
        }
        if run > 1 || kept.len() == before {
            run /= 2;
        }
    }
    kept
}

/// The case with as little of it as still fails.
pub fn shrink(case: &Case, fails: &mut Fails) -> Case {
    match case {
        Case::Image { named, good, patches, asked } => {
            let named = *named;
            let fails = &mut |good: &Rc<Vec<u8>>, patches: &[Patch], asked: &Asked| {
                let (good, patches, asked) = (good.clone(), patches.to_vec(), asked.clone());
                fails(&Case::Image { named, good, patches, asked })
            };
            let asked = fewer_asked(good, patches, asked, fails);
            let patches = fewer_patches(good, patches, &asked, fails);
            let (good, patches) = fewer_links(good, &patches, &asked, fails);
            let good = fewer_blocks(&good, &patches, &asked, fails);
            let patches = fewer_patches(&good, &patches, &asked, fails);
            let asked = fewer_asked(&good, &patches, &asked, fails);
            Case::Image { named, good, patches, asked }
        }
        Case::Program { file, calls } => {
            // no program is tried twice
            let mut tried: BTreeMap<String, bool> = BTreeMap::new();
            let fails = &mut |case: &Case| *tried.entry(told(case)).or_insert_with(|| fails(case));
            let calls = least(calls, &mut |calls| fails(&program(file, calls)));
            let (file, calls) = smaller_program(file.clone(), calls, fails);
            let calls = fewer_bases(&file, calls, fails);
            let (file, calls) = smaller_program(file, calls, fails);
            Case::Program { file, calls }
        }
    }
}

fn program(file: &[u8], calls: &[Call]) -> Case {
    Case::Program { file: file.to_vec(), calls: calls.to_vec() }
}

/// A shorter path, and for a read no offset and little room.
fn fewer_asked(good: &Rc<Vec<u8>>, patches: &[Patch], asked: &Asked, fails: &mut ImageFails) -> Asked {
    let mut fails_with = |asked: Asked| fails(good, patches, &asked);
    match asked {
        Asked::Audit(claim) => {
            let least = claim_length(blocks_of(good)) as u32;
            Asked::Audit(if fails_with(Asked::Audit(least)) { least } else { *claim })
        }
        Asked::Find(path) => Asked::Find(least(path, &mut |path| fails_with(Asked::Find(path.to_vec())))),
        Asked::Read { offset, room, path } => {
            let read = |offset, room, path: &[u8]| Asked::Read { offset, room, path: path.to_vec() };
            let path = least(path, &mut |path| fails_with(read(*offset, *room, path)));
            let less = [(0, 0), (0, 1), (*offset, 0), (0, *room), (*offset, 1)];
            let found = less.into_iter().find(|&(offset, room)| fails_with(read(offset, room, &path)));
            let (offset, room) = found.unwrap_or((*offset, *room));
            read(offset, room, &path)
        }
    }
}

/// The number of blocks that fits an image, or that of a floppy if none does.
fn blocks_of(image: &[u8]) -> u32 {
    settled(ANY, image.len()).unwrap_or(FLOPPY)
}

fn block_of(image: &mut [u8], block: usize) -> Option<&mut [u8]> {
    image.get_mut(block * BLOCK_BYTES..)?.get_mut(..BLOCK_BYTES)
}

/// Makes the sums of these blocks 0 again, as far as they are whole: in word 5, or in word 0 of the bitmap block.
fn mend_blocks(image: &mut [u8], blocks: &BTreeSet<usize>) {
    let disk = Disk::OLD.with_blocks(blocks_of(image));
    let root = block_of(image, disk.root() as usize);
    let bitmap = root.map_or(0, |root| word(root, 79) as usize);
    for &block in blocks {
        if let Some(bytes) = block_of(image, block) {
            mend(bytes, if block == bitmap { 0 } else { 5 });
        }
    }
}

/// The blocks of these words of an image whose sums are 0.
fn summed(image: &mut [u8], places: impl IntoIterator<Item = usize>) -> BTreeSet<usize> {
    let blocks: BTreeSet<usize> = places.into_iter().map(|place| place / BLOCK_BYTES).collect();
    blocks.into_iter().filter(|&block| block_of(image, block).is_some_and(|block| sum(block) == 0)).collect()
}

/// Single words of the patches undone; where the sum of a block was right, it is made right again.
fn fewer_patches(good: &Rc<Vec<u8>>, patches: &[Patch], asked: &Asked, fails: &mut ImageFails) -> Vec<Patch> {
    let mut wrong = patched(good, patches);
    let words = differing_words(good, &wrong);
    let right_sums = summed(&mut wrong, words.iter().map(|&(place, _)| place));
    let mended = |words: &[Patch]| {
        let mut image = patched(good, words);
        let touched: BTreeSet<usize> = words.iter().map(|(place, _)| place / BLOCK_BYTES).collect();
        mend_blocks(&mut image, &touched.intersection(&right_sums).copied().collect());
        differing_words(good, &image)
    };
    let mut fails_with = |patches: &[Patch]| fails(good, patches, asked);
    let words = match fails_with(&mended(&words)) {
        true => mended(&least(&words, &mut |words| fails_with(&mended(words)))),
        false => words,
    };
    least(&words, &mut fails_with)
}

/// The words of an image that hold slots or chain links, and are not 0.
fn links(image: &[u8]) -> Vec<usize> {
    let of_block = |(number, block): (usize, &[u8])| {
        let is_header = block.len() == BLOCK_BYTES && word(block, 0) == 2;
        let has_slots = is_header && [1, 2].contains(&word(block, 127));
        let slots = (0..TABLE).map(slot_word).filter(|_| has_slots);
        let all = slots.chain([124].into_iter().filter(|_| is_header));
        let used: Vec<usize> = all.filter(|&index| word(block, index) != 0).collect();
        used.into_iter().map(move |index| number * BLOCK_BYTES + 4 * index)
    };
    image.chunks(BLOCK_BYTES).enumerate().flat_map(of_block).collect()
}

/// An image with these words 0; sums that were right are so again.
fn cut(image: &[u8], places: &[usize]) -> Vec<u8> {
    let mut image = image.to_vec();
    let right_sums = summed(&mut image, places.iter().copied());
    places.iter().for_each(|&place| put(&mut image, place / 4, 0));
    mend_blocks(&mut image, &right_sums);
    image
}

/// Slots and chain links of the image made 0, so that less of it is reached.
fn fewer_links(
    good: &Rc<Vec<u8>>,
    patches: &[Patch],
    asked: &Asked,
    fails: &mut ImageFails,
) -> (Rc<Vec<u8>>, Vec<Patch>) {
    let wrong = patched(good, patches);
    let all = links(good);
    let with = |kept: &[usize]| {
        let kept: BTreeSet<usize> = kept.iter().copied().collect();
        let gone: Vec<usize> = all.iter().copied().filter(|place| !kept.contains(place)).collect();
        let (good, wrong) = (cut(good, &gone), cut(&wrong, &gone));
        let patches = differing_words(&good, &wrong);
        (Rc::new(good), patches)
    };
    let kept = least(&all, &mut |kept| {
        let (good, patches) = with(kept);
        fails(&good, &patches, asked)
    });
    with(&kept)
}

/// An image with only these blocks, all others blank.
fn with_blocks(good: &[u8], kept: &[usize]) -> Rc<Vec<u8>> {
    let mut image = vec![0; good.len()];
    for &block in kept {
        let place = block * BLOCK_BYTES..good.len().min((block + 1) * BLOCK_BYTES);
        image[place.clone()].copy_from_slice(&good[place]);
    }
    Rc::new(image)
}

/// Blocks of the image made blank.
fn fewer_blocks(good: &Rc<Vec<u8>>, patches: &[Patch], asked: &Asked, fails: &mut ImageFails) -> Rc<Vec<u8>> {
    let blocks: Vec<usize> = (0..good.len().div_ceil(BLOCK_BYTES)).collect();
    let kept = least(&blocks, &mut |kept| fails(&with_blocks(good, kept), patches, asked));
    with_blocks(good, &kept)
}

fn words_of(file: &[u8]) -> Vec<u32> {
    (0..file.len() / 4).map(|index| word(file, index)).collect()
}

/// A program with less in it: words left out, whole hunks, counts lowered together with what they count, and numbers
/// made small.
fn smaller_program(file: Vec<u8>, calls: Vec<Call>, fails: &mut Fails) -> (Vec<u8>, Vec<Call>) {
    let chunks: Vec<&[u8]> = file.chunks(4).collect();
    let mut file = least(&chunks, &mut |chunks| fails(&program(&chunks.concat(), &calls))).concat();
    let mut calls = calls;
    // the rest is about whole words
    while file.len().is_multiple_of(4) {
        let before = file.clone();
        let words = smaller_words(words_of(&file), &calls, fails);
        let words = lower_counts(words, &calls, fails);
        let (words, fewer) = fewer_hunks(words, calls, fails);
        let words = fewer_runs(words, &fewer, fails);
        (file, calls) = (bytes(&words), fewer);
        if file == before {
            break;
        }
    }
    (file, calls)
}

/// Values to try in the place of a word: the smallest, the word without the bits for memory or these alone, and ever
/// less below the word, so that a limit is come near in few rounds.
fn smaller_values(old: u32) -> impl Iterator<Item = u32> {
    let below = (1..32).map(move |bit| old - (old >> bit));
    [0, 1, 2, old & !BOTH, old & BOTH].into_iter().chain(below).filter(move |&new| new < old)
}

/// Words of the file made 0, or as small as they can be.
fn smaller_words(mut words: Vec<u32>, calls: &[Call], fails: &mut Fails) -> Vec<u32> {
    for index in 0..words.len() {
        for new in smaller_values(words[index]) {
            let mut changed = words.clone();
            changed[index] = new;
            if fails(&program(&bytes(&changed), calls)) {
                words = changed;
                break;
            }
        }
    }
    words
}

/// The words with a count at this place lowered, and as many words gone that stand `after` it.
fn lowered(words: &[u32], index: usize, after: usize, by: u32) -> Option<Vec<u32>> {
    let start = index + after;
    let end = start.checked_add(by as usize).filter(|&end| by > 0 && end <= words.len())?;
    let mut fewer = [&words[..start], &words[end..]].concat();
    fewer[index] = words[index].checked_sub(by)?;
    Some(fewer)
}

/// Words left out together with the count of them, which stands before them or one word further before.
fn lower_counts(mut words: Vec<u32>, calls: &[Call], fails: &mut Fails) -> Vec<u32> {
    let mut index = 0;
    while index < words.len() {
        let count = words[index];
        let ways = [count, count / 2, 1].into_iter().flat_map(|by| [(1, by), (2, by)]);
        let fewer = ways.filter_map(|(after, by)| lowered(&words, index, after, by));
        match fewer.into_iter().find(|words| fails(&program(&bytes(words), calls))) {
            Some(fewer) => words = fewer,
            None => index += 1,
        }
    }
    words
}

/// Any run of words left out, if they are few enough to try them all.
fn fewer_runs(mut words: Vec<u32>, calls: &[Call], fails: &mut Fails) -> Vec<u32> {
    const FEW: usize = 24;
    let mut start = 0;
    while words.len() <= FEW && start < words.len() {
        let fewer = (start + 1..=words.len()).map(|end| [&words[..start], &words[end..]].concat());
        match fewer.into_iter().find(|words| fails(&program(&bytes(words), calls))) {
            Some(fewer) => words = fewer,
            None => start += 1,
        }
    }
    words
}

/// The words of a file without this hunk, as far as ends of hunks are seen.
fn without_hunk(words: &[u32], hunk: usize) -> Option<Vec<u32>> {
    let total = *words.get(2)?;
    let body = words.get(5 + total.min(64) as usize..)?;
    let mut hunks: Vec<&[u32]> = body.split_inclusive(|&word| word == END).collect();
    if hunk >= total as usize {
        return None;
    }
    if hunk < hunks.len() {
        hunks.remove(hunk);
    }
    let mut fewer = [&words[..5 + total as usize], &hunks.concat()].concat();
    fewer.remove(5 + hunk);
    (fewer[2], fewer[4]) = (total - 1, words[4].wrapping_sub(1));
    Some(fewer)
}

/// Calls with only these entries of each list of bases.
fn with_entries(calls: &[Call], kept: &[usize]) -> Vec<Call> {
    let only = |list: &[u32]| kept.iter().filter_map(|&entry| list.get(entry).copied()).collect();
    let fewer = |call: &Call| match call {
        Call::Load(room, bases) => Call::Load(*room, only(bases)),
        Call::Move(room, old, new) => Call::Move(*room, only(old), only(new)),
    };
    calls.iter().map(fewer).collect()
}

/// The entries that the longest list of bases has.
fn entries(calls: &[Call]) -> Vec<usize> {
    let longest = calls.iter().map(|call| match call {
        Call::Load(_, bases) => bases.len(),
        Call::Move(_, old, new) => old.len().max(new.len()),
    });
    (0..longest.max().unwrap_or(0)).collect()
}

/// Whole hunks left out, each with its bases or without them.
fn fewer_hunks(mut words: Vec<u32>, mut calls: Vec<Call>, fails: &mut Fails) -> (Vec<u32>, Vec<Call>) {
    let mut hunk = 0;
    while let Some(fewer) = without_hunk(&words, hunk) {
        let others: Vec<usize> = entries(&calls).into_iter().filter(|&entry| entry != hunk).collect();
        let ways = [with_entries(&calls, &others), calls.clone()];
        match ways.into_iter().find(|calls| fails(&program(&bytes(&fewer), calls))) {
            Some(way) => (words, calls) = (fewer, way),
            None => hunk += 1,
        }
    }
    (words, calls)
}

/// Fewer bases in all lists alike, and all of them 0 if that is enough.
fn fewer_bases(file: &[u8], calls: Vec<Call>, fails: &mut Fails) -> Vec<Call> {
    let kept = least(&entries(&calls), &mut |kept| fails(&program(file, &with_entries(&calls, kept))));
    let calls = with_entries(&calls, &kept);
    let zeroed = at_zero(&calls);
    if fails(&program(file, &zeroed)) {
        zeroed
    } else {
        calls
    }
}

/// The same calls with all bases 0.
fn at_zero(calls: &[Call]) -> Vec<Call> {
    let zeros = |list: &[u32]| vec![0; list.len()];
    let zeroed = |call: &Call| match call {
        Call::Load(room, bases) => Call::Load(*room, zeros(bases)),
        Call::Move(room, old, new) => Call::Move(*room, zeros(old), zeros(new)),
    };
    calls.iter().map(zeroed).collect()
}

#[cfg(test)]
mod tests {
    use super::*;
    use crate::programs::Room;
    use crate::rng::Rng;

    /// What is wanted is kept, and nothing else.
    #[test]
    fn the_least_that_fails_is_what_is_wanted() {
        let all: Vec<u32> = (0..300).collect();
        let mut rng = Rng::new(180);
        for count in 0..12 {
            let wanted: Vec<u32> = all.iter().copied().filter(|_| rng.below(300) < 3 * count).collect();
            let found = least(&all, &mut |some| wanted.iter().all(|one| some.contains(one)));
            assert_eq!(found, wanted);
        }
        assert_eq!(least(&all, &mut |some| some.len() >= 5).len(), 5);
        assert_eq!(least(&[1, 2, 3], &mut |some| some.len() == 3), [1, 2, 3]);
    }

    /// Things that can only go one after the other: the last first.
    #[test]
    fn what_can_go_later_goes() {
        let is_start = |some: &[u32]| some.iter().copied().eq(0..some.len() as u32);
        assert_eq!(least(&[0, 1, 2, 3], &mut |some| is_start(some) && !some.is_empty()), [0]);
    }

    #[test]
    fn an_image_keeps_the_words_and_blocks_that_matter() {
        let good = Rc::new(Rng::new(181).bytes(20 * BLOCK_BYTES));
        let patches = vec![(3 * BLOCK_BYTES, vec![7; 600]), (9 * BLOCK_BYTES + 2, vec![1; 4])];
        let case = Case::Image { named: 7, good: good.clone(), patches, asked: Asked::Find(b"a/path".to_vec()) };
        let byte = good[13 * BLOCK_BYTES + 5];
        let small = shrink(&case, &mut |case| {
            let Case::Image { named: 7, good, patches, asked: Asked::Find(path) } = case else { return false };
            let mut image = good.to_vec();
            crate::bad_volumes::apply(patches, &mut image);
            path.contains(&b'p') && image[4 * BLOCK_BYTES + 8] == 7 && image[13 * BLOCK_BYTES + 5] == byte
        });
        let Case::Image { named: 7, good, patches, asked } = small else {
            panic!("a case about an image: {small:?}")
        };
        assert_eq!(asked, Asked::Find(b"p".to_vec()));
        assert_eq!(patches, [(4 * BLOCK_BYTES + 8, vec![7; 4])]);
        let kept: Vec<usize> =
            (0..20).filter(|&at| good[at * BLOCK_BYTES..][..8].iter().any(|&b| b != 0)).collect();
        assert_eq!(kept, [13]);
    }

    /// A sum is made right where the bitmap block is by the root, which is elsewhere on a larger disk.
    #[test]
    fn sums_are_mended_by_the_size_of_the_image() {
        for (blocks, root) in [(1_760, 880), (3_520, 1_760)] {
            let mut image = vec![0; blocks * BLOCK_BYTES];
            put(&mut image[root * BLOCK_BYTES..], 79, 9);
            for block in [7, 9] {
                put(&mut image[block * BLOCK_BYTES..], 100, 3);
            }
            mend_blocks(&mut image, &BTreeSet::from([7, 9]));
            let mended = |block: usize, index| word(&image[block * BLOCK_BYTES..], index) == 3_u32.wrapping_neg();
            assert!(mended(7, 5) && mended(9, 0), "{blocks} blocks");
        }
    }

    /// Down to a limit, whatever the kind of memory, or to the bits for memory alone.
    #[test]
    fn a_word_becomes_as_small_as_it_can_be() {
        let smallest = |old: u32, fails: &dyn Fn(u32) -> bool| {
            let case = program(&old.to_be_bytes(), &[]);
            let small = shrink(
                &case,
                &mut |case| matches!(case, Case::Program { file, .. } if file.len() == 4 && fails(word(file, 0))),
            );
            let Case::Program { file, .. } = small else { panic!("a case about a program") };
            word(&file, 0)
        };
        for old in [0xFFFF_FFFF, 0xC001_2345, 0x8001_0001, 0x7FFF_FFFF, 0x0001_FFFF, 0x0001_0001] {
            assert_eq!(smallest(old, &|word| word & !BOTH > 65_536), 65_537, "{old:X}");
            assert_eq!(smallest(old, &|word| word & BOTH == old & BOTH), old & BOTH, "{old:X}");
        }
    }

    #[test]
    fn a_program_keeps_the_words_and_calls_that_matter() {
        let (room, file) = (Room::needed(&[]), Rng::new(182).bytes(204));
        let word = file[40..44].to_vec();
        let calls = [1, 2, 3].map(|count| Call::Load(room, vec![0x77; count])).to_vec();
        let case = Case::Program { file, calls };
        let small = shrink(&case, &mut |case| {
            let Case::Program { file, calls } = case else { return false };
            let long = |call: &Call| matches!(call, Call::Load(_, bases) if bases.len() >= 2);
            file.len() >= 8 && file.chunks(4).any(|one| one == word) && calls.iter().any(long)
        });
        let Case::Program { file, calls } = small else { panic!("a case about a program") };
        assert_eq!(calls, [Call::Load(room, vec![0, 0])]);
        assert!(file == [&word[..], &[0; 4]].concat() || file == [&[0; 4], &word[..]].concat(), "{file:?}");
    }
}
