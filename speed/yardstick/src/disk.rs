//! What size and kind of disk an image is.

use jufferdeeg::{ANY_SIZE, DOUBLE_DENSITY, HIGH_DENSITY};

use crate::block::{Block, BLOCK_BYTES};

/// The blocks of an image that has the size that is named, or either if none is.
pub(crate) fn blocks_of(named: u32, image: &[u8]) -> Option<&[Block]> {
    let (blocks, []) = image.as_chunks::<BLOCK_BYTES>() else { return None };
    let size = [DOUBLE_DENSITY, HIGH_DENSITY].into_iter().find(|&size| size as usize == blocks.len())?;
    (named == ANY_SIZE || named == size).then_some(blocks)
}

/// What a boot tag decides.
#[derive(Clone, Copy)]
pub(crate) struct Kind {
    /// Whether data blocks have words, as in the old file system.
    pub(crate) is_old: bool,
    /// Whether letters with accents are folded.
    pub(crate) accents: bool,
}

impl Kind {
    /// The kind of an image with this first block.
    pub(crate) fn of(boot: &Block) -> Option<Kind> {
        let &[b'D', b'O', b'S', kind @ 0..=3, ..] = boot else { return None };
        Some(Kind { is_old: kind & 1 == 0, accents: kind & 2 != 0 })
    }
}
