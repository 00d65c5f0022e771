//! Blocks, their words and their sum; what is tested of a block by itself.

use core::hint::black_box;

use crate::name::Name;

/// The bytes of a block.
pub(crate) const BLOCK_BYTES: usize = 512;

/// A block of an image.
pub(crate) type Block = [u8; BLOCK_BYTES];

/// Slots of a directory, or data keys of a header or a list block.
pub(crate) const TABLE: u32 = 72;

/// The first word of these.
pub(crate) const TABLE_START: usize = 6;

/// The word of a block's last slot and first data key.
const TABLE_END: usize = TABLE_START + TABLE as usize - 1;

/// The words that have names.
pub(crate) const TYPE: usize = 0;
pub(crate) const OWN_KEY: usize = 1;
pub(crate) const COUNT: usize = 2;
pub(crate) const FIRST_DATA: usize = 4;
pub(crate) const SIZE: usize = 81;
pub(crate) const NEXT: usize = 124;
pub(crate) const PARENT: usize = 125;
pub(crate) const LIST: usize = 126;
pub(crate) const KIND: usize = 127;

/// A number as a block stores it. Words are compared in this form, so that few of them have to be turned.
pub(crate) const fn stored(number: u32) -> u32 {
    number.to_be()
}

/// Types and kinds as they are stored.
pub(crate) const HEADER_TYPE: u32 = stored(2);
pub(crate) const LIST_TYPE: u32 = stored(16);
pub(crate) const DATA_TYPE: u32 = stored(8);
pub(crate) const ROOT_KIND: u32 = stored(1);
pub(crate) const DIRECTORY: u32 = stored(jufferdeeg::DIRECTORY);
pub(crate) const FILE: u32 = stored(jufferdeeg::FILE);
const LINKS: [u32; 3] = [stored(3), stored(4), stored(0xFFFF_FFFC)];

/// A refusal: its number and its place.
#[derive(Clone, Copy, Debug, PartialEq, Eq)]
pub(crate) struct Refusal {
    pub(crate) number: u32,
    pub(crate) place: u32,
}

#[cold]
pub(crate) fn refused<T>(number: u32, place: u32) -> Result<T, Refusal> {
    Err(Refusal { number, place })
}

/// A word just as it is stored.
#[inline(always)]
pub(crate) fn raw(block: &Block, index: usize) -> u32 {
    u32::from_ne_bytes(block.as_chunks().0[index])
}

/// A word.
#[inline(always)]
pub(crate) fn word(block: &Block, index: usize) -> u32 {
    u32::from_be(raw(block, index))
}

/// Data key `index`, counted from 0 and at most 71, as it is stored.
#[inline(always)]
pub(crate) fn raw_key(block: &Block, index: u32) -> u32 {
    raw(block, TABLE_END - index as usize)
}

/// The sum of the words, in the form that suits the processor: those of x86-64 turn the bytes of a word in many steps.
#[inline(always)]
pub fn sum(block: &Block) -> u32 {
    if cfg!(target_arch = "x86_64") {
        sum_unturned(block)
    } else {
        sum_turned(block)
    }
}

/// The words turned and added, where vectors of words are turned in one step.
#[inline(never)]
fn sum_turned(block: &Block) -> u32 {
    block.as_chunks().0.iter().fold(0, |sum, &four| sum.wrapping_add(u32::from_be_bytes(four)))
}

/// The words added without turning a byte.
///
/// They are added as if their lowest byte came first, and the second and fourth bytes of all are added by themselves,
/// in halves of 16 bits that do not run over. From the two sums follow the sums of all first, second, third and fourth
/// bytes. In vectors this is a load, a shift and two additions.
#[inline(always)]
fn sum_unturned(block: &Block) -> u32 {
    // a byte from everywhere, so that all of the block is on its way at once if it is not in the cache
    black_box(block.as_chunks::<64>().0.iter().fold(0, |seen, line| seen | line[0]));
    let (all, odd) = block.as_chunks().0.iter().fold((0, 0), add_half);
    let even = all.wrapping_sub(odd << 8);
    (even << 24).wrapping_add(odd << 16).wrapping_add(even >> 16 << 8).wrapping_add(odd >> 16)
}

/// The same for half a block. Were it the whole, the compiler would begin to read at its end.
#[inline(never)]
fn add_half((mut all, mut odd): (u32, u32), half: &[u8; BLOCK_BYTES / 2]) -> (u32, u32) {
    for &four in half.as_chunks().0 {
        let low_first = u32::from_le_bytes(four);
        all = all.wrapping_add(low_first);
        odd = odd.wrapping_add(low_first >> 8 & 0x00FF_00FF);
    }
    (all, odd)
}

/// The number by which a root is refused, up to its name; 0 if it passes.
pub(crate) fn root_fault(block: &Block) -> u32 {
    let zeros = [OWN_KEY, COUNT, FIRST_DATA, NEXT, PARENT, LIST];
    if sum(block) != 0 {
        7
    } else if raw(block, TYPE) != HEADER_TYPE || raw(block, KIND) != ROOT_KIND {
        8
    } else if raw(block, 3) != stored(TABLE) || zeros.iter().any(|&index| raw(block, index) != 0) {
        4
    } else if Name::of(block, false).is_none() {
        11
    } else {
        0
    }
}

/// An entry that has passed.
pub(crate) struct Entry {
    pub(crate) is_directory: bool,
    pub(crate) name: Name,
}

/// Where an entry hangs: its key, its directory's key, both as they are stored, and its slot.
#[derive(Clone, Copy)]
pub(crate) struct Hangs {
    pub(crate) key: u32,
    pub(crate) directory: u32,
    pub(crate) slot: u32,
}

/// Tests an entry by 7 to 12; the number if it is refused. The sum is that of its words.
#[inline(always)]
pub(crate) fn entry(block: &Block, sum: u32, at: Hangs, accents: bool) -> Result<Entry, u32> {
    let (kind, name) = (raw(block, KIND), Name::of(block, accents));
    let is_directory = kind == DIRECTORY;
    let list = if is_directory { raw(block, LIST) } else { 0 };
    let keys = raw(block, OWN_KEY) ^ at.key | raw(block, PARENT) ^ at.directory | list;
    let wrong = sum | raw(block, TYPE) ^ HEADER_TYPE | keys;
    match name {
        Some(name) if wrong == 0 && (is_directory || kind == FILE) && name.slot() == at.slot => {
            Ok(Entry { is_directory, name })
        }
        _ => Err(entry_fault(block, sum, keys, name.is_some())),
    }
}

/// The first number by which an entry is refused that did not pass. `keys` is 0 if its keys are right.
#[cold]
#[inline(never)]
fn entry_fault(block: &Block, sum: u32, keys: u32, is_named: bool) -> u32 {
    let kind = raw(block, KIND);
    if sum != 0 {
        7
    } else if raw(block, TYPE) != HEADER_TYPE {
        8
    } else if LINKS.contains(&kind) {
        9
    } else if kind != DIRECTORY && kind != FILE {
        8
    } else if keys != 0 {
        10
    } else if !is_named {
        11
    } else {
        12
    }
}

#[cfg(test)]
mod tests {
    use super::*;

    /// Both forms against the words one by one.
    fn tried(block: &Block) -> u32 {
        let sum = (0..128).fold(0, |sum: u32, index| sum.wrapping_add(word(block, index)));
        assert_eq!([sum_turned(block), sum_unturned(block)], [sum; 2]);
        sum
    }

    #[test]
    fn the_sum_is_that_of_the_words() {
        let mut block = [0xFF; BLOCK_BYTES];
        assert_eq!(tried(&block), 128u32.wrapping_neg());
        let mut drawn = 1u32;
        for place in 0..20_000 {
            drawn = drawn.wrapping_mul(1_664_525).wrapping_add(1_013_904_223);
            block[place % BLOCK_BYTES] = (drawn >> 24) as u8;
            tried(&block);
        }
        for (place, byte) in (0..BLOCK_BYTES).flat_map(|place| [1, 0x80, 0xFF].map(|byte| (place, byte))) {
            let mut block = [0; BLOCK_BYTES];
            block[place] = byte;
            assert_eq!(tried(&block), u32::from(byte) << (24 - 8 * (place % 4)));
        }
    }
}
