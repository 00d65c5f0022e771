//! The blocks of a file, tested in their order.

use crate::block::{
    raw, raw_key, refused, stored, sum, word, Block, Refusal, COUNT, DATA_TYPE, FILE, FIRST_DATA, LIST, LIST_TYPE,
    OWN_KEY, PARENT, SIZE, TABLE, TYPE,
};

/// The words of a data block in the old file system.
const HEADER: usize = 1;
const NUMBER: usize = 2;
const HELD: usize = 3;
const FOLLOWING: usize = 4;

/// Where the bytes of a file begin in its data blocks.
pub(crate) const fn data_start(is_old: bool) -> usize {
    if is_old {
        24
    } else {
        0
    }
}

/// How many bytes of a file its data blocks hold.
pub(crate) const fn data_bytes(is_old: bool) -> u32 {
    512 - data_start(is_old) as u32
}

/// A block that a reference leads to, and its sum; it may be known that this is 0.
pub(crate) struct Met<'a> {
    pub(crate) block: &'a Block,
    pub(crate) has_sum: bool,
}

impl Met<'_> {
    #[inline(always)]
    pub(crate) fn sum(&self) -> u32 {
        if self.has_sum {
            0
        } else {
            sum(self.block)
        }
    }
}

/// Where the blocks of a file come from.
pub(crate) trait Source<'a> {
    /// The block of a key, unless that is refused.
    fn meet(&mut self, key: u32) -> Result<Met<'a>, Refusal>;

    /// What is known of a data block's words, see [`Note`].
    fn note(&self, key: u32) -> Note;
}

/// The words of a data block whose sum is 0, in 16 bits each: its header, its number, the bytes that it holds and the
/// key of the following one. 0 is for any other block, and fits no file.
#[derive(Clone, Copy, PartialEq, Eq)]
pub(crate) struct Note(u64);

impl Note {
    pub(crate) const NONE: Note = Note(0);

    #[inline(always)]
    pub(crate) fn of(block: &Block) -> Note {
        let [header, number, held, following] = [HEADER, NUMBER, HELD, FOLLOWING].map(|index| word(block, index));
        let fits =
            raw(block, TYPE) == DATA_TYPE && header | number | held | following < 1 << 16 && sum(block) == 0;
        if fits {
            Note(Note::due(header, number, held) | u64::from(following) << 48)
        } else {
            Note::NONE
        }
    }

    #[inline(always)]
    fn due(header: u32, number: u32, held: u32) -> u64 {
        u64::from(header) | u64::from(number) << 16 | u64::from(held) << 32
    }
}

/// How many list and data blocks a file has.
#[derive(Clone, Copy, Default)]
pub(crate) struct Counts {
    pub(crate) lists: u32,
    pub(crate) data: u32,
}

/// Tests a file's header by 14, and then all its blocks, on a disk of so many.
#[inline(always)]
pub(crate) fn test_file<'a, const OLD: bool>(
    disk_blocks: u32,
    header: u32,
    block: &'a Block,
    source: &mut impl Source<'a>,
) -> Result<Counts, Refusal> {
    let size = word(block, SIZE);
    let data = size.div_ceil(data_bytes(OLD));
    let fits = size <= (disk_blocks - 5) * data_bytes(OLD);
    if !fits || !counts_fit(block, data) || OLD && data == 0 && raw(block, FIRST_DATA) != 0 {
        return refused(14, header);
    }
    let last_held = size.wrapping_sub(data.wrapping_sub(1).wrapping_mul(data_bytes(OLD)));
    let raw_header = stored(header);
    let (mut table, mut number, mut following, mut lists) = (block, 0, word(block, FIRST_DATA), 0);
    let mut key = 0;
    loop {
        let here = (data - number).min(TABLE);
        for index in 0..here {
            key = u32::from_be(raw_key(table, index));
            let met = source.meet(key)?;
            if OLD {
                number += 1;
                let held = if number == data { last_held } else { data_bytes(OLD) };
                let note = source.note(key).0;
                if (note ^ Note::due(header, number, held)) << 16 == 0 && key == following {
                    following = (note >> 48) as u32;
                    continue;
                }
                let block = met.block;
                let words = (raw(block, HEADER) ^ raw_header)
                    | (raw(block, NUMBER) ^ stored(number))
                    | (raw(block, HELD) ^ stored(held))
                    | (key ^ following);
                let wrong_type = raw(block, TYPE) ^ DATA_TYPE;
                let sum = met.sum();
                if sum | wrong_type | words != 0 {
                    return refused(data_fault(sum, wrong_type), key);
                }
                following = word(block, FOLLOWING);
            }
        }
        if !OLD {
            number += here;
        }
        if number == data {
            break;
        }
        key = word(table, LIST);
        let met = source.meet(key)?;
        table = met.block;
        let fault = list_fault(&met, key, raw_header, data - number);
        if fault != 0 {
            return refused(fault, key);
        }
        lists += 1;
    }
    if OLD && data > 0 && following != 0 {
        return refused(15, key);
    }
    Ok(Counts { lists, data })
}

/// The first number by which a data block is refused that did not pass.
#[cold]
fn data_fault(sum: u32, wrong_type: u32) -> u32 {
    if sum != 0 {
        7
    } else if wrong_type != 0 {
        8
    } else {
        15
    }
}

/// Whether a header or list block has the counts for so many keys that are still to come.
#[inline(always)]
fn counts_fit(block: &Block, keys: u32) -> bool {
    word(block, COUNT) == keys.min(TABLE) && (raw(block, LIST) != 0) == (keys > TABLE)
}

/// The number by which a list block is refused, or 0, where so many keys are still to come.
#[inline(always)]
fn list_fault(met: &Met, key: u32, raw_header: u32, keys: u32) -> u32 {
    let block = met.block;
    if met.sum() != 0 {
        7
    } else if raw(block, TYPE) != LIST_TYPE || raw(block, crate::block::KIND) != FILE {
        8
    } else if raw(block, OWN_KEY) != stored(key) || raw(block, PARENT) != raw_header {
        10
    } else if !counts_fit(block, keys) {
        14
    } else {
        0
    }
}
