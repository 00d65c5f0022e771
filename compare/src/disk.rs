//! What follows from how many blocks a disk has and what kind it is.
//!
//! docs/FORMAT.md gives most of these as plain numbers, scattered over its sections. Here each is said once, as
//! a consequence of the block count; outside of tests no other module writes one of them down. The size follows from
//! the number of blocks that a call names and from the image's length, see [`settled`]; the kind is read off the image
//! by [`Disk::of`].

use crate::words::BLOCK_BYTES;
use std::ops::Range;

/// How many blocks the 880 KB floppy has.
pub const FLOPPY: u32 = 1760;

/// How many blocks a high-density disk has.
pub const HIGH_DENSITY: u32 = 3520;

/// The numbers of blocks that a disk can have.
pub const SIZES: [u32; 2] = [FLOPPY, HIGH_DENSITY];

/// What a call names if it names no number of blocks.
pub const ANY: u32 = 0;

/// How many blocks an image of this length has for a call that names this number of them. `None` is for refusal 1: such
/// an image fits no number that a disk can have, or not the one that is named.
pub fn settled(named: u32, length: usize) -> Option<u32> {
    let fitting = SIZES.into_iter().find(|&blocks| image_length(blocks) == length)?;
    [ANY, fitting].contains(&named).then_some(fitting)
}

/// The length in bytes of an image of so many blocks. It is asked for before the kind of the disk is.
pub const fn image_length(blocks: u32) -> usize {
    blocks as usize * BLOCK_BYTES
}

/// The bytes that the claim area of an audit needs, one for each block; these too come before the kind.
pub const fn claim_length(blocks: u32) -> usize {
    blocks as usize
}

/// A size and kind of disk.
#[derive(Clone, Copy, Debug, PartialEq, Eq, PartialOrd, Ord)]
pub struct Disk {
    /// How many blocks its image has.
    pub blocks: u32,
    /// The last byte of its boot tag.
    pub kind: u8,
}

impl Disk {
    /// The floppy in the old file system, where only the 26 letters have two cases.
    pub const OLD: Disk = Disk { blocks: FLOPPY, kind: 0 };

    /// The same in the Fast File System, whose data blocks have no words of their own.
    pub const FAST: Disk = Disk { blocks: FLOPPY, kind: 1 };

    /// The floppy in the old file system for names with accents: letters with accents have two cases as well.
    pub const OLD_INTERNATIONAL: Disk = Disk { blocks: FLOPPY, kind: 2 };

    /// The floppy in the Fast File System for names with accents.
    pub const FAST_INTERNATIONAL: Disk = Disk { blocks: FLOPPY, kind: 3 };

    /// The floppies of all kinds, by their kind.
    pub const FLOPPIES: [Disk; 4] = [Disk::OLD, Disk::FAST, Disk::OLD_INTERNATIONAL, Disk::FAST_INTERNATIONAL];

    /// The disks of all sizes and kinds, by size and then by kind.
    pub const ALL: [Disk; 8] = {
        let [old, fast, old_international, fast_international] = Disk::FLOPPIES;
        [
            old,
            fast,
            old_international,
            fast_international,
            old.with_blocks(HIGH_DENSITY),
            fast.with_blocks(HIGH_DENSITY),
            old_international.with_blocks(HIGH_DENSITY),
            fast_international.with_blocks(HIGH_DENSITY),
        ]
    };

    /// The first block that belongs to the volume; those below it are for booting and have no bit.
    pub const FIRST_KEY: u32 = 2;

    /// The disk of the same kind that has so many blocks.
    pub const fn with_blocks(self, blocks: u32) -> Disk {
        Disk { blocks, ..self }
    }

    /// The disks of so many blocks, by their kind.
    pub fn of_blocks(blocks: u32) -> [Disk; 4] {
        Disk::FLOPPIES.map(|floppy| floppy.with_blocks(blocks))
    }

    /// The disk of so many blocks that an image is of, by its boot tag; `None` if that is the tag of no kind.
    pub fn of(blocks: u32, image: &[u8]) -> Option<Disk> {
        Disk::of_blocks(blocks).into_iter().find(|disk| image.starts_with(&disk.boot_tag()))
    }

    /// The disk that an image is for a call that names this number of blocks; `None` if the call has to refuse it by 1
    /// or by 3.
    pub fn named(named: u32, image: &[u8]) -> Option<Disk> {
        Disk::of(settled(named, image.len())?, image)
    }

    /// The disks of the same size and of other kinds.
    pub fn others(self) -> impl Iterator<Item = Disk> {
        Disk::of_blocks(self.blocks).into_iter().filter(move |&disk| disk != self)
    }

    /// The disks of the same kind and of other sizes.
    pub fn other_sizes(self) -> impl Iterator<Item = Disk> {
        SIZES.into_iter().filter(move |&blocks| blocks != self.blocks).map(move |blocks| self.with_blocks(blocks))
    }

    /// The disk in the old file system that folds names as this one does.
    pub const fn old(self) -> Disk {
        let old = if self.is_international() { Disk::OLD_INTERNATIONAL } else { Disk::OLD };
        old.with_blocks(self.blocks)
    }

    /// Whether letters with accents have two cases.
    pub const fn is_international(&self) -> bool {
        self.kind == Disk::OLD_INTERNATIONAL.kind || self.kind == Disk::FAST_INTERNATIONAL.kind
    }

    /// Whether a data block has words of its own, among them its sum, and whether w4 of a header is asked for. In the
    /// Fast File System it is bytes of its file and nothing else.
    pub const fn has_data_words(&self) -> bool {
        !(self.kind == Disk::FAST.kind || self.kind == Disk::FAST_INTERNATIONAL.kind)
    }

    /// Where the bytes of a file begin in a data block; if it has words of its own, six stand before.
    pub const fn data_start(&self) -> usize {
        if self.has_data_words() {
            24
        } else {
            0
        }
    }

    /// The key of its root block, in the middle.
    pub const fn root(&self) -> u32 {
        self.blocks / 2
    }

    /// The keys that a reference may hold.
    pub const fn keys(&self) -> Range<u32> {
        Self::FIRST_KEY..self.blocks
    }

    /// How many entries one chain can have: every block of the volume but the root and the bitmap block.
    pub const fn chain_limit(&self) -> u32 {
        self.bitmap_span() - 2
    }

    /// How many bytes of a file one data block takes.
    pub const fn data_bytes(&self) -> u32 {
        (BLOCK_BYTES - self.data_start()) as u32
    }

    /// The largest size that a file header may state: every block that root, bitmap block and the header itself
    /// leave over, filled with data.
    pub const fn file_limit(&self) -> u32 {
        (self.chain_limit() - 1) * self.data_bytes()
    }

    /// The first four bytes of its image.
    pub const fn boot_tag(&self) -> [u8; 4] {
        [b'D', b'O', b'S', self.kind]
    }

    /// How many blocks the bitmap speaks of.
    pub const fn bitmap_span(&self) -> u32 {
        self.blocks - Self::FIRST_KEY
    }
}

#[cfg(test)]
mod tests {
    use super::*;

    /// A made-up disk, so that no function can pass by knowing the floppy's number.
    #[test]
    fn every_number_follows_the_block_count() {
        let disk = Disk { blocks: 100, kind: 7 };
        let fast = Disk { blocks: 100, kind: 3 };
        assert_eq!(image_length(disk.blocks), 51_200);
        assert_eq!(claim_length(disk.blocks), 100);
        assert_eq!(disk.root(), 50);
        assert_eq!(disk.keys(), 2..100);
        assert_eq!(disk.chain_limit(), 96);
        assert_eq!([disk.file_limit(), fast.file_limit()], [95 * 488, 95 * 512]);
        assert_eq!(disk.boot_tag(), [0x44, 0x4F, 0x53, 7]);
        assert_eq!(disk.bitmap_span(), 98);
    }

    /// Every named number of interest with every length of interest: an image has a size for a call in four cases.
    #[test]
    fn the_named_number_and_the_length_settle_the_size() {
        let numbers =
            [1, 2, 512, 880, 1_759, 1_761, 3_519, 3_521, 5_280, 901_120, 1 << 31, (1 << 31) + 1_760, u32::MAX];
        let bytes = [0, 1, 3, 512, 450_560, 900_608, 901_119, 901_121, 901_632, 1_801_728, 1_802_239, 1_802_241];
        for named in [0, 1_760, 3_520].into_iter().chain(numbers) {
            for length in [901_120, 1_802_240, 1_802_752, 3_604_480, usize::MAX].into_iter().chain(bytes) {
                let wanted = match (named, length) {
                    (0 | 1_760, 901_120) => Some(1_760),
                    (0 | 3_520, 1_802_240) => Some(3_520),
                    _ => None,
                };
                assert_eq!(settled(named, length), wanted, "{length} bytes, {named} named");
            }
        }
        // a length that is right in its low 32 bits alone
        assert_eq!([0, 1_760, 3_520].map(|named| settled(named, (1 << 32) + 901_120)), [None; 3]);
    }

    #[test]
    fn the_disk_of_an_image_by_size_and_tag() {
        let image = |length: usize, kind: u8| [&[0x44, 0x4F, 0x53, kind][..], &vec![0; length - 4]].concat();
        for kind in 0..=4 {
            let [floppy, high] = [FLOPPY, HIGH_DENSITY].map(|blocks| image(image_length(blocks), kind));
            let [small, large] = [1_760, 3_520].map(|blocks| (kind < 4).then_some(Disk { blocks, kind }));
            assert_eq!(
                [0, 1_760, 3_520, 1_761].map(|named| Disk::named(named, &floppy)),
                [small, small, None, None]
            );
            assert_eq!(
                [0, 3_520, 1_760, 3_519].map(|named| Disk::named(named, &high)),
                [large, large, None, None]
            );
            assert_eq!([0, 1_760].map(|named| Disk::named(named, &floppy[..901_119])), [None; 2]);
        }
    }

    /// All tags that are the letters DOS and one byte, and all that differ from one of them in one bit of a letter.
    #[test]
    fn the_boot_tag_says_the_kind() {
        for blocks in [100, FLOPPY, HIGH_DENSITY] {
            for kind in 0..=255 {
                let wanted = (kind < 4).then_some(Disk { blocks, kind });
                assert_eq!(Disk::of(blocks, &[0x44, 0x4F, 0x53, kind, 1, 2, 3]), wanted, "{kind}");
                for (place, bit) in (0..3).flat_map(|place| (0..8).map(move |bit| (place, bit))) {
                    let mut tag = [0x44, 0x4F, 0x53, kind];
                    tag[place] ^= 1 << bit;
                    assert_eq!(Disk::of(blocks, &tag), None, "{tag:?}");
                }
            }
        }
        for short in [&b""[..], b"D", b"DOS"] {
            assert_eq!(Disk::of(FLOPPY, short), None);
        }
    }

    /// Which kinds fold accents, which have words in their data blocks, and what follows from that.
    #[test]
    fn what_each_kind_is() {
        let found = Disk::FLOPPIES.map(|disk| (disk.kind, disk.is_international(), disk.has_data_words()));
        assert_eq!(found, [(0, false, true), (1, false, false), (2, true, true), (3, true, false)]);
        let found = Disk::FLOPPIES.map(|disk| (disk.data_start(), disk.data_bytes(), disk.file_limit()));
        let [old, fast] = [(24, 488, 856_440), (0, 512, 898_560)];
        assert_eq!(found, [old, fast, old, fast]);
        let found = Disk::ALL.map(|disk| (disk.blocks, disk.kind));
        assert_eq!(found[..4], [(1_760, 0), (1_760, 1), (1_760, 2), (1_760, 3)]);
        assert_eq!(found[4..], [(3_520, 0), (3_520, 1), (3_520, 2), (3_520, 3)]);
        assert_eq!(Disk::of_blocks(HIGH_DENSITY), Disk::ALL[4..]);
        assert_eq!(
            Disk::ALL[4..].iter().map(Disk::file_limit).collect::<Vec<_>>(),
            [1_715_320, 1_799_680].repeat(2)
        );
        assert!(Disk::ALL[2].other_sizes().eq([Disk::ALL[6]]) && Disk::ALL[7].other_sizes().eq([Disk::ALL[3]]));
        let small = Disk { blocks: 9, kind: 2 };
        assert!(small.others().eq([0, 1, 3].map(|kind| Disk { blocks: 9, kind })));
        let old = [0, 1, 2, 3].map(|kind| Disk { blocks: 9, kind }.old());
        assert_eq!(old, [0, 0, 2, 2].map(|kind| Disk { blocks: 9, kind }));
    }
}
