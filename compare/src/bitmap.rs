//! The bitmap block: one bit for each block of the volume, set while the block is free (docs/FORMAT.md,
//! "Blocks of a volume", Bitmap block).

use crate::disk::Disk;
use crate::words::word;

/// The word of the bitmap block in which a block's bit stands, and the bit, counted from the lowest. The first
/// word is taken by the sum.
pub fn place(key: u32) -> (usize, u32) {
    let index = key - Disk::FIRST_KEY;
    (1 + (index / u32::BITS) as usize, index % u32::BITS)
}

/// Whether the bitmap block calls a block free.
pub fn is_free(bitmap: &[u8], key: u32) -> bool {
    let (index, bit) = place(key);
    word(bitmap, index) & 1 << bit != 0
}

#[cfg(test)]
mod tests {
    use super::*;
    use crate::disk::{FLOPPY, HIGH_DENSITY};
    use crate::words::{put, BLOCK_BYTES};

    #[test]
    fn every_block_has_a_bit_of_its_own_in_rising_order() {
        for (blocks, last) in [(FLOPPY, (55, 29)), (HIGH_DENSITY, (110, 29))] {
            let places: Vec<_> = Disk::OLD.with_blocks(blocks).keys().map(place).collect();
            assert_eq!(places[..3], [(1, 0), (1, 1), (1, 2)]);
            assert_eq!(places.last(), Some(&last));
            assert!(places.windows(2).all(|pair| pair[0] < pair[1]));
            assert!(places.iter().all(|&(_, bit)| bit < 32));
        }
    }

    #[test]
    fn a_block_is_free_by_its_bit_alone() {
        for key in [2, 3, 33, 34, 65, 66, 880, 1759, 1760, 1761, 3519] {
            let (index, bit) = place(key);
            let mut bitmap = [0; BLOCK_BYTES];
            put(&mut bitmap, index, 1 << bit);
            for other in Disk::OLD.with_blocks(HIGH_DENSITY).keys() {
                assert_eq!(is_free(&bitmap, other), other == key, "{other} of {key}");
            }
        }
    }
}
