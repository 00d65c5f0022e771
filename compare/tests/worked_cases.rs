//! The cases that docs/FORMAT.md works out ("Worked cases"), and the numbers that it gives for each size of disk; and
//! slots of names with accents, worked out by hand for each kind of disk.

use compare::audit::{audit, Report};
use compare::bitmap::place;
use compare::disk::{claim_length, image_length, Disk, ANY, FLOPPY, HIGH_DENSITY, SIZES};
use compare::names::{same, slot};
use compare::rng::Rng;
use compare::sizes::{data_blocks, header_keys, held, largest_file, last_list_keys, list_blocks};
use compare::volumes::{any_style, empty, Volume};

#[test]
fn slots() {
    let worked = [("a", 6), ("A", 6), ("c", 8), ("s", 24), ("MARY", 65)];
    for (name, wanted) in worked {
        for disk in Disk::ALL {
            assert_eq!(slot(&disk, name.as_bytes()), wanted, "{name}");
        }
    }
}

/// The hash of a name of one byte b is 13 + b: E0 is 224, and 237 is 3 times 72 and 21. An international disk folds it
/// to C0, which is 192, and 205 is 2 times 72 and 61.
#[test]
fn slots_of_one_byte_with_an_accent() {
    let worked = [
        (0xE0, 21, 61),
        (0xC0, 61, 61),
        (0xF7, 44, 44),
        (0xD7, 12, 12),
        (0xFE, 51, 19),
        (0xDE, 19, 19),
        (0xFF, 52, 52),
        (0xDF, 20, 20),
        (0xE9, 30, 70),
        (0xC9, 70, 70),
    ];
    for (byte, plain, international) in worked {
        let found = Disk::FLOPPIES.map(|disk| slot(&disk, &[byte]));
        assert_eq!(found, [plain, plain, international, international], "{byte:02X}");
    }
}

/// Longer names, with what the hash is after each byte and the slot, for a plain disk and for an international one. The
/// last of them is of the signs and letters that no disk folds.
#[test]
fn slots_of_longer_names_with_accents() {
    let worked: [(&[u8], [(&[u32], u32); 2]); 5] = [
        (b"M\xE9t\xE9o", [(&[142, 31, 487, 420, 1443], 3), (&[142, 2047, 71, 1124, 355], 67)]),
        (b"M\xC9T\xC9O", [(&[142, 2047, 71, 1124, 355], 67); 2]),
        (b"\xC9t\xE9", [(&[240, 1156, 925], 61), (&[240, 1156, 893], 29)]),
        (
            b"\xC5ngstr\xF6m",
            [
                (&[301, 1943, 754, 1693, 1613, 571, 1525, 1470], 30),
                (&[301, 1943, 754, 1693, 1613, 571, 1493, 1054], 46),
            ],
        ),
        (b"\xF7\xD7\xFF\xDF", [(&[299, 6, 333, 456], 24); 2]),
    ];
    for (name, by_kind) in worked {
        for disk in &Disk::FLOPPIES {
            let (steps, wanted) = by_kind[usize::from(disk.is_international())];
            assert_eq!(steps.last().map(|hash| hash % 72), Some(wanted), "{name:?}");
            assert_eq!(slot(disk, name), wanted, "{name:?}");
        }
    }
}

/// The pairs of bytes that are one name on an international disk, and those that are two on either.
#[test]
fn names_that_are_one_or_two() {
    for (one, other, international) in [
        (0xE0, 0xC0, true),
        (0xE9, 0xC9, true),
        (0xFE, 0xDE, true),
        (0xF7, 0xD7, false),
        (0xFF, 0xDF, false),
        (0xFF, 0x9F, false),
        (0xDF, 0xBF, false),
    ] {
        let found = Disk::FLOPPIES.map(|disk| same(&disk, &[one], &[other]));
        assert_eq!(found, [false, false, international, international], "{one:02X} {other:02X}");
    }
}

#[test]
fn bits() {
    assert_eq!(place(2), (1, 0));
    assert_eq!(place(880), (28, 14));
    assert_eq!(place(1759), (55, 29));
    // the middle and the last of a high-density disk; one word after the last would still be in the block
    assert_eq!(place(1760), (55, 30));
    assert_eq!(place(3519), (110, 29));
    assert_eq!(place(4065), (127, 31));
}

#[test]
fn sizes() {
    // size: data blocks, keys in the header, list blocks, keys in the last of them
    let old = [
        (0, [0, 0, 0, 0]),
        (488, [1, 1, 0, 0]),
        (489, [2, 2, 0, 0]),
        (35_136, [72, 72, 0, 0]),
        (35_137, [73, 72, 1, 1]),
    ];
    let fast = [
        (0, [0, 0, 0, 0]),
        (512, [1, 1, 0, 0]),
        (513, [2, 2, 0, 0]),
        (36_864, [72, 72, 0, 0]),
        (36_865, [73, 72, 1, 1]),
    ];
    for disk in &Disk::ALL {
        let worked = if [0, 2].contains(&disk.kind) { old } else { fast };
        for (size, wanted) in worked {
            let got = [
                data_blocks(disk, size),
                header_keys(disk, size),
                list_blocks(disk, size),
                last_list_keys(disk, size),
            ];
            assert_eq!(got, wanted, "size {size}");
        }
    }
    let [old, fast] = [Disk::OLD, Disk::FAST];
    assert_eq!([held(&old, 489, 1), held(&old, 489, 2)], [488, 1]);
    assert_eq!([held(&fast, 513, 1), held(&fast, 513, 2)], [512, 1]);
    assert_eq!([held(&old, 35_137, 73), held(&fast, 36_865, 73)], [1, 1]);
}

#[test]
fn an_empty_volume() {
    let mut rng = Rng::new(1);
    for disk in Disk::ALL {
        let style = any_style(&mut rng);
        let volume = Volume::new(&mut rng, &empty(&disk), style);
        let free = if disk.blocks == FLOPPY { 1756 } else { 3516 };
        for named in [disk.blocks, ANY] {
            let report = audit(named, &volume.image, &mut vec![0xAA; disk.blocks as usize]);
            assert_eq!(report, Ok(Report { used: 2, free, ..Report::default() }));
        }
        let other = disk.other_sizes().next().expect("another size").blocks;
        let refused = audit(other, &volume.image, &mut [0xAA; 3520]).expect_err("another number of blocks");
        assert_eq!((refused.number, refused.place), (1, 0));
    }
}

#[test]
fn the_largest_size_stated_and_the_largest_that_fits() {
    // 1,755 data blocks leave no block for lists; with 1,731 of them there is room for the 24 list blocks, and
    // header, lists and data fill the volume
    for (disk, largest) in Disk::FLOPPIES.iter().zip([844_728, 886_272, 844_728, 886_272]) {
        assert_eq!(data_blocks(disk, disk.file_limit()), 1755);
        assert_eq!(largest_file(disk), largest);
        assert_eq!([data_blocks(disk, largest), list_blocks(disk, largest)], [1731, 24]);
        assert_eq!(1 + 1731 + 24, disk.chain_limit());
        assert_eq!([data_blocks(disk, largest + 1), list_blocks(disk, largest + 1)], [1732, 24]);
    }
    // on a high-density disk 3,515 of them leave none; with 3,467 there is room for the 48 list blocks
    let larger = Disk::of_blocks(HIGH_DENSITY);
    for (disk, largest) in larger.iter().zip([1_691_896, 1_775_104, 1_691_896, 1_775_104]) {
        assert_eq!(data_blocks(disk, disk.file_limit()), 3515);
        assert_eq!(largest_file(disk), largest);
        assert_eq!([data_blocks(disk, largest), list_blocks(disk, largest)], [3467, 48]);
        assert_eq!(1 + 3467 + 48, disk.chain_limit());
        assert_eq!([data_blocks(disk, largest + 1), list_blocks(disk, largest + 1)], [3468, 48]);
    }
}

#[test]
fn the_disks() {
    assert_eq!(FLOPPY, 1760);
    assert_eq!(image_length(FLOPPY), 901_120);
    assert_eq!(claim_length(FLOPPY), 1760);
    for disk in Disk::FLOPPIES {
        assert_eq!(disk.blocks, 1760);
        assert_eq!(disk.root(), 880);
        assert_eq!(disk.keys(), 2..1760);
        assert_eq!(disk.chain_limit(), 1756);
        assert_eq!(disk.bitmap_span(), 1758);
    }
    for disk in [Disk::OLD, Disk::OLD_INTERNATIONAL] {
        assert_eq!((disk.data_start(), disk.data_bytes(), disk.file_limit()), (24, 488, 856_440));
    }
    for disk in [Disk::FAST, Disk::FAST_INTERNATIONAL] {
        assert_eq!((disk.data_start(), disk.data_bytes(), disk.file_limit()), (0, 512, 898_560));
    }
    assert_eq!(SIZES, [1760, 3520]);
    assert_eq!((HIGH_DENSITY, ANY), (3520, 0));
    assert_eq!(image_length(HIGH_DENSITY), 1_802_240);
    assert_eq!(claim_length(HIGH_DENSITY), 3520);
    for disk in Disk::of_blocks(HIGH_DENSITY) {
        assert_eq!(disk.root(), 1760);
        assert_eq!(disk.keys(), 2..3520);
        assert_eq!(disk.chain_limit(), 3516);
        assert_eq!(disk.bitmap_span(), 3518);
        let limit = if [0, 2].contains(&disk.kind) { 1_715_320 } else { 1_799_680 };
        assert_eq!(disk.file_limit(), limit);
    }
    assert_eq!(Disk::OLD.boot_tag(), [0x44, 0x4F, 0x53, 0x00]);
    assert_eq!(Disk::FAST.boot_tag(), [0x44, 0x4F, 0x53, 0x01]);
    assert_eq!(Disk::OLD_INTERNATIONAL.boot_tag(), [0x44, 0x4F, 0x53, 0x02]);
    assert_eq!(Disk::FAST_INTERNATIONAL.boot_tag(), [0x44, 0x4F, 0x53, 0x03]);
}
