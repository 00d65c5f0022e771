//! The audit of a volume.
//!
//! The walk goes through directories without calling itself: the way back is in the blocks. What it has to remember
//! besides stands in arrays, as long as a disk has blocks.

use jufferdeeg::AuditNumbers;

use crate::block::{
    entry, raw, refused, root_fault, stored, sum, word, Block, Hangs, Refusal, DATA_TYPE, NEXT, PARENT, TABLE,
    TABLE_START, TYPE,
};
use crate::disk::{blocks_of, Kind};
use crate::file::{test_file, Met, Note, Source};
use crate::name::Name;

/// The words of the root about the bitmap.
const MAP_VALID: usize = 78;
const MAP_KEY: usize = 79;
const MAP_REST: core::ops::RangeInclusive<usize> = 80..=104;

/// What is in the claim area: nothing is known of a block, it is reached, or its sum is 0.
const NOTHING: u8 = 0;
const REACHED: u8 = 1;
const SUMMED: u8 = 2;

/// Audits an image, as `jufferdeeg::audit` does: each block is tested where the walk meets it.
pub fn audit(disk_blocks: u32, image: &[u8], claim: &mut [u8]) -> AuditNumbers {
    answer::<false>(disk_blocks, image, claim)
}

/// Answers the same as [`audit`]. Where data blocks have sums, all blocks that the bitmap has for used are added up
/// first, in the order in which they lie, and what the walk asks of data blocks is noted; so memory is read from its
/// beginning to its end. Blocks that the bitmap has for free are added up where the walk meets them.
///
/// Without such sums this is [`audit`]: the walk passes by most blocks, and to look for the others takes longer.
pub fn audit_sums_first(disk_blocks: u32, image: &[u8], claim: &mut [u8]) -> AuditNumbers {
    answer::<true>(disk_blocks, image, claim)
}

fn answer<const AHEAD: bool>(disk_blocks: u32, image: &[u8], claim: &mut [u8]) -> AuditNumbers {
    claim.fill(NOTHING);
    audited::<AHEAD>(disk_blocks, image, claim).unwrap_or_else(|Refusal { number, place }| {
        claim.fill(NOTHING);
        AuditNumbers { number, place: place as usize, ..AuditNumbers::default() }
    })
}

fn audited<const AHEAD: bool>(named: u32, image: &[u8], claim: &mut [u8]) -> Result<AuditNumbers, Refusal> {
    let Some(blocks) = blocks_of(named, image) else { return refused(1, 0) };
    match blocks.first_chunk() {
        Some(blocks) => sized::<3520, AHEAD>(blocks, claim),
        None => match blocks.first_chunk() {
            Some(blocks) => sized::<1760, AHEAD>(blocks, claim),
            None => refused(1, 0),
        },
    }
}

fn sized<const N: usize, const AHEAD: bool>(
    blocks: &[Block; N],
    claim: &mut [u8],
) -> Result<AuditNumbers, Refusal> {
    let Some(claims) = claim.first_chunk_mut() else { return refused(2, 0) };
    match Kind::of(&blocks[0]) {
        Some(Kind { is_old: true, accents }) => walk::<N, true, AHEAD>(blocks, claims, accents),
        Some(Kind { is_old: false, accents }) => walk::<N, false, AHEAD>(blocks, claims, accents),
        None => refused(3, 0),
    }
}

/// The blocks of an image, each of which may be reached once.
struct Reached<'a, 'c, const N: usize, const AHEAD: bool> {
    blocks: &'a [Block; N],
    claims: &'c mut [u8; N],
    notes: &'c [Note; N],
}

impl<'a, const N: usize, const AHEAD: bool> Source<'a> for Reached<'a, '_, N, AHEAD> {
    #[inline(always)]
    fn meet(&mut self, key: u32) -> Result<Met<'a>, Refusal> {
        if key < 2 || key >= N as u32 {
            return refused(5, key);
        }
        let claim = &mut self.claims[key as usize];
        let known = *claim;
        if known == REACHED || !AHEAD && known != NOTHING {
            return refused(6, key);
        }
        *claim = REACHED;
        Ok(Met { block: &self.blocks[key as usize], has_sum: AHEAD && known == SUMMED })
    }

    #[inline(always)]
    fn note(&self, key: u32) -> Note {
        if AHEAD {
            self.notes[key as usize % N]
        } else {
            Note::NONE
        }
    }
}

/// Where the walk goes on in a directory when it comes back from one in it.
#[derive(Clone, Copy)]
struct Frame {
    /// How many slots are begun.
    slots: u16,
    /// The place of its chain's first entry.
    start: u16,
}

fn walk<const N: usize, const OLD: bool, const AHEAD: bool>(
    blocks: &[Block; N],
    claims: &mut [u8; N],
    accents: bool,
) -> Result<AuditNumbers, Refusal> {
    let root = N as u32 / 2;
    let block = &blocks[root as usize];
    claims[root as usize] = REACHED;
    let number = root_fault(block);
    if number != 0 {
        return refused(number, root);
    }
    if raw(block, MAP_VALID) != u32::MAX || MAP_REST.into_iter().any(|index| raw(block, index) != 0) {
        return refused(16, root);
    }
    let map_key = word(block, MAP_KEY);
    let mut reached = Reached::<N, AHEAD> { blocks, claims, notes: &[Note::NONE; N] };
    let map = reached.meet(map_key)?;
    if map.sum() != 0 {
        return refused(7, map_key);
    }
    let map = map.block;
    let mut notes;
    if AHEAD && OLD {
        notes = [Note::NONE; N];
        add_up(blocks, reached.claims, &mut notes, map);
        reached.notes = &notes;
    }

    // prints of the names on all chains that are not at their end, and where to go on
    let (mut prints, mut frames) = ([0; N], [Frame { slots: 0, start: 0 }; N]);
    let (mut depth, mut start, mut end) = (0, 0, 0);
    let (mut directory, mut table, mut slots, mut next) = (root, block, 0, 0);
    let mut counted = AuditNumbers::default();
    loop {
        // a chain is at its end: the next one, or back from the directory
        while next == 0 {
            end = start;
            if let Some(slot) = next_slot(table, slots) {
                next = raw(table, TABLE_START + slot);
                slots = slot + 1;
            } else if depth == 0 {
                return conclude(reached.claims, map, counted);
            } else {
                depth -= 1;
                slots = usize::from(frames[depth].slots);
                start = usize::from(frames[depth].start);
                next = raw(table, NEXT);
                directory = word(table, PARENT);
                table = &blocks[directory as usize];
            }
        }
        let key = u32::from_be(next);
        let met = reached.meet(key)?;
        let at = Hangs { key: next, directory: stored(directory), slot: slots as u32 - 1 };
        next = raw(met.block, NEXT);
        let entry = match entry(met.block, met.sum(), at, accents) {
            Ok(entry) => entry,
            Err(number) => return refused(number, key),
        };
        let print = entry.name.print();
        if prints[start..end].contains(&print) && is_twin(blocks, table, at, &entry.name, accents) {
            return refused(13, key);
        }
        prints[end] = print;
        end += 1;
        if entry.is_directory {
            counted.directories += 1;
            frames[depth] = Frame { slots: slots as u16, start: start as u16 };
            depth += 1;
            (directory, table, slots, next, start) = (key, met.block, 0, 0, end);
        } else {
            counted.files += 1;
            let counts = test_file::<OLD>(N as u32, key, met.block, &mut reached)?;
            counted.list_blocks += counts.lists;
            counted.data_blocks += counts.data;
        }
    }
}

/// The first slot from this one on that is not empty.
#[inline(always)]
fn next_slot(directory: &Block, from: usize) -> Option<usize> {
    let mut slot = from;
    while slot < TABLE as usize {
        // eight at once, where they are empty
        if slot.is_multiple_of(8)
            && (0..8).fold(0, |all, more| all | raw(directory, TABLE_START + slot + more)) == 0
        {
            slot += 8;
        } else if raw(directory, TABLE_START + slot) == 0 {
            slot += 1;
        } else {
            return Some(slot);
        }
    }
    None
}

/// Adds up the blocks that the bitmap has for used: takes note of data blocks, and marks others whose sum is 0.
fn add_up<const N: usize>(blocks: &[Block; N], claims: &mut [u8; N], notes: &mut [Note; N], map: &Block) {
    for key in 2..N {
        let (index, bit) = ((key - 2) / 32, (key - 2) % 32);
        if word(map, 1 + index) >> bit & 1 == 0 && claims[key] == NOTHING {
            let block = &blocks[key];
            if raw(block, TYPE) == DATA_TYPE {
                notes[key] = Note::of(block);
            } else if sum(block) == 0 {
                claims[key] = SUMMED;
            }
        }
    }
}

/// Whether an entry before this one on its chain has its name.
#[cold]
#[inline(never)]
fn is_twin(blocks: &[Block], directory: &Block, at: Hangs, name: &Name, accents: bool) -> bool {
    let mut before = raw(directory, TABLE_START + at.slot as usize);
    while before != at.key {
        let block = &blocks[u32::from_be(before) as usize];
        if Name::of(block, accents).as_ref() == Some(name) {
            return true;
        }
        before = raw(block, NEXT);
    }
    false
}

/// Holds the bitmap to the blocks that were reached.
fn conclude<const N: usize>(
    claims: &[u8; N],
    map: &Block,
    counted: AuditNumbers,
) -> Result<AuditNumbers, Refusal> {
    for (index, claims) in claims[2..].chunks(32).enumerate() {
        let mut used = 0;
        let (eights, rest) = claims.as_chunks::<8>();
        for (place, &eight) in eights.iter().enumerate() {
            used |= bits(u64::from_le_bytes(eight)) << (8 * place);
        }
        for (place, &claim) in rest.iter().enumerate() {
            used |= u32::from(claim & REACHED) << (8 * eights.len() + place);
        }
        let wrong = !(used ^ word(map, 1 + index)) & (u32::MAX >> (32 - claims.len()));
        if wrong != 0 {
            return refused(17, 2 + 32 * index as u32 + wrong.trailing_zeros());
        }
    }
    let AuditNumbers { directories, files, list_blocks, data_blocks, .. } = counted;
    let used = 2 + directories + files + list_blocks + data_blocks;
    Ok(AuditNumbers { used, free: N as u32 - 2 - used, ..counted })
}

/// Eight claims as eight bits, the first the lowest.
fn bits(claims: u64) -> u32 {
    const LOWEST: u64 = 0x0101_0101_0101_0101;
    ((claims & LOWEST).wrapping_mul(0x0102_0408_1020_4080) >> 56) as u32
}
