//! How a file's size decides its blocks (docs/FORMAT.md, "Blocks of a volume", File, List block and Data
//! block).

use crate::disk::Disk;
use crate::words::TABLE;

/// The data blocks that a file of this size has.
pub fn data_blocks(disk: &Disk, size: u32) -> u32 {
    size.div_ceil(disk.data_bytes())
}

/// How many of `keys` keys fit into one block's table. They are those that a header lists of all, and those that
/// a list block lists of the ones still to come.
pub fn keys_here(keys: u32) -> u32 {
    keys.min(TABLE)
}

/// How many of `keys` keys are left for later blocks once one table is full.
pub fn keys_left(keys: u32) -> u32 {
    keys - keys_here(keys)
}

/// The data keys that the header of a file of this size lists.
pub fn header_keys(disk: &Disk, size: u32) -> u32 {
    keys_here(data_blocks(disk, size))
}

/// The list blocks that a file of this size has.
pub fn list_blocks(disk: &Disk, size: u32) -> u32 {
    keys_left(data_blocks(disk, size)).div_ceil(TABLE)
}

/// The data keys in the last list block of a file of this size; 0 if it has no list block.
pub fn last_list_keys(disk: &Disk, size: u32) -> u32 {
    match list_blocks(disk, size) {
        0 => 0,
        lists => data_blocks(disk, size) - lists * TABLE,
    }
}

/// The bytes that data block `number`, counted from 1, holds of a file of this size; 0 if the file has no such
/// block.
pub fn held(disk: &Disk, size: u32, number: u32) -> u32 {
    let before = |blocks: u32| u64::from(blocks) * u64::from(disk.data_bytes());
    let end = before(number).min(u64::from(size));
    let start = before(number.saturating_sub(1)).min(end);
    (end - start) as u32
}

/// The size of the largest file for which a disk has room, with its header and its list blocks.
pub fn largest_file(disk: &Disk) -> u32 {
    let sizes = (0..=disk.file_limit() / disk.data_bytes()).map(|blocks| blocks * disk.data_bytes());
    let fits = |&size: &u32| 1 + list_blocks(disk, size) + data_blocks(disk, size) <= disk.chain_limit();
    sizes.filter(fits).last().unwrap_or(0)
}

#[cfg(test)]
mod tests {
    use super::*;

    /// Sizes around every place where something changes, up to the limit.
    fn telling_sizes(disk: &Disk) -> Vec<u32> {
        let full = disk.data_bytes();
        let mut sizes = vec![0];
        for blocks in 1..=disk.file_limit() / full {
            let whole = blocks * full;
            sizes.extend([whole - full + 1, whole - 1, whole]);
        }
        sizes
    }

    #[test]
    fn the_blocks_together_hold_the_file_and_none_is_empty() {
        for (disk, full) in [(Disk::OLD, 488), (Disk::FAST, 512), (Disk::FAST.with_blocks(3_520), 512)] {
            for size in telling_sizes(&disk) {
                let blocks = data_blocks(&disk, size);
                let bytes: Vec<u32> = (1..=blocks).map(|n| held(&disk, size, n)).collect();
                assert_eq!(bytes.iter().sum::<u32>(), size, "size {size}");
                if let Some((last, others)) = bytes.split_last() {
                    assert!((1..=full).contains(last), "size {size}");
                    assert!(others.iter().all(|&held| held == full), "size {size}");
                }
            }
        }
    }

    #[test]
    fn header_and_lists_together_list_every_block_once() {
        for disk in Disk::ALL {
            for size in telling_sizes(&disk) {
                let lists = list_blocks(&disk, size);
                let listed = match lists {
                    0 => header_keys(&disk, size),
                    _ => 72 + (lists - 1) * 72 + last_list_keys(&disk, size),
                };
                assert_eq!(listed, data_blocks(&disk, size), "size {size}");
                let last = last_list_keys(&disk, size);
                assert_eq!(last == 0, lists == 0, "size {size}");
                assert!(last <= 72, "size {size}");
                if lists > 0 {
                    assert_eq!(header_keys(&disk, size), 72, "size {size}");
                }
            }
        }
    }

    #[test]
    fn keys_that_come_and_keys_that_remain() {
        for (keys, here, left) in
            [(0, 0, 0), (1, 1, 0), (71, 71, 0), (72, 72, 0), (73, 72, 1), (1755, 72, 1683), (3515, 72, 3443)]
        {
            assert_eq!((keys_here(keys), keys_left(keys)), (here, left));
        }
    }

    #[test]
    fn blocks_that_a_file_lacks_hold_nothing() {
        for (disk, full) in [(Disk::OLD_INTERNATIONAL, 488), (Disk::FAST_INTERNATIONAL, 512)] {
            assert_eq!(held(&disk, 0, 1), 0);
            assert_eq!(held(&disk, full, 0), 0);
            assert_eq!(held(&disk, full, 2), 0);
            assert_eq!(held(&disk, u32::MAX, u32::MAX), 0);
            assert_eq!(held(&disk, full + 1, 2), 1);
        }
    }

    /// With one byte more, header, lists and data would take a block more than there is.
    #[test]
    fn the_largest_file_fills_a_disk() {
        for disk in Disk::ALL.into_iter().flat_map(|disk| [disk, disk.with_blocks(300)]) {
            let size = largest_file(&disk);
            let taken = |size: u32| 1 + list_blocks(&disk, size) + data_blocks(&disk, size);
            assert_eq!([taken(size), taken(size + 1)].map(|blocks| blocks <= disk.chain_limit()), [true, false]);
        }
        let [small, large] = [[844_728, 886_272], [1_691_896, 1_775_104]];
        assert_eq!(Disk::ALL.map(|disk| largest_file(&disk))[..], [small, small, large, large].concat());
    }
}
