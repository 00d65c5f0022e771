//! Names of entries: which are allowed, when two are the same, and in which slot one hangs (docs/FORMAT.md,
//! section "Blocks of a volume", Name, Folding and Hash). The last two are for the kind of disk to say.

use crate::disk::Disk;
use crate::words::TABLE;

/// Where a header's name stands, in bytes: its length, then its letters.
const PLACE: usize = 432;

/// The longest name.
pub const LONGEST: usize = 30;

/// A byte as comparing and hashing see it: the 26 small letters become capitals, on an international disk those with
/// accents too, and all else is itself.
pub fn fold(disk: &Disk, byte: u8) -> u8 {
    // a sign for division stands among the small letters with accents, and one for multiplying among the capitals
    let is_accented = (0xE0..0xFF).contains(&byte) && byte != 0xF7;
    if byte.is_ascii_lowercase() || is_accented && disk.is_international() {
        byte - 0x20
    } else {
        byte
    }
}

/// A name as comparing and hashing see it.
pub fn folded(disk: &Disk, name: &[u8]) -> Vec<u8> {
    name.iter().map(|&byte| fold(disk, byte)).collect()
}

/// Whether an entry may be called this.
pub fn valid(name: &[u8]) -> bool {
    (1..=LONGEST).contains(&name.len()) && !name.iter().any(|byte| b"/:".contains(byte))
}

/// The name in a header or root block, if it is a valid one.
pub fn name(block: &[u8]) -> Option<&[u8]> {
    let length = usize::from(block[PLACE]);
    let name = block[PLACE + 1..].get(..length)?;
    valid(name).then_some(name)
}

/// Whether two names are the same once folded.
pub fn same(disk: &Disk, one: &[u8], other: &[u8]) -> bool {
    one.len() == other.len() && one.iter().zip(other).all(|(&a, &b)| fold(disk, a) == fold(disk, b))
}

/// A name's hash, below 2048.
///
/// The recipe of docs/FORMAT.md multiplies by 13 and cuts at every letter. Seen as a whole it is a number in base 13
/// whose digits are the length and the letters, so it is added up here from its last digit on. Letting 64 bits
/// overflow does no harm, for 2048 divides 2^64, and one cut at the end is enough.
pub fn hash(disk: &Disk, name: &[u8]) -> u32 {
    let digits = name.iter().rev().map(|&byte| u64::from(fold(disk, byte)));
    let (total, _) = digits.chain([name.len() as u64]).fold((0u64, 1u64), |(total, weight), digit| {
        (total.wrapping_add(digit.wrapping_mul(weight)), weight.wrapping_mul(13))
    });
    (total % 2048) as u32
}

/// The slot in which an entry of this name hangs.
pub fn slot(disk: &Disk, name: &[u8]) -> u32 {
    hash(disk, name) % TABLE
}

/// Writes a name into a header or root block; an invalid one too, if its length fits in a byte and its letters
/// in the block. What stands after the name stays.
pub fn put_name(block: &mut [u8], name: &[u8]) {
    block[PLACE] = u8::try_from(name.len()).expect("a length of one byte");
    block[PLACE + 1..][..name.len()].copy_from_slice(name);
}

#[cfg(test)]
mod tests {
    use super::*;
    use crate::rng::Rng;
    use crate::words::BLOCK_BYTES;

    const INTERNATIONAL: Disk = Disk::OLD_INTERNATIONAL;

    #[test]
    fn folding_moves_the_small_letters_of_the_kind_and_nothing_else() {
        for byte in 0..=255 {
            let (plain, international) = match byte {
                0x61..=0x7A => (byte - 0x20, byte - 0x20),
                0xE0..=0xF6 | 0xF8..=0xFE => (byte, byte - 0x20),
                _ => (byte, byte),
            };
            let found = Disk::FLOPPIES.map(|disk| fold(&disk, byte));
            assert_eq!(found, [plain, plain, international, international], "byte {byte:02X}");
        }
    }

    /// The bytes stand for the first 256 characters of Unicode, and Rust knows the capitals of these. Where a capital
    /// is no such character, or is two of them, the byte is itself.
    #[test]
    fn international_folding_makes_the_capitals_that_are_bytes() {
        for byte in 0..=255 {
            let capital: Vec<char> = char::from(byte).to_uppercase().collect();
            let wanted = match capital[..] {
                [one] => u8::try_from(one).unwrap_or(byte),
                _ => byte,
            };
            assert_eq!(fold(&INTERNATIONAL, byte), wanted, "byte {byte:02X}");
        }
    }

    /// What holds of either folding, on disks of all kinds.
    #[test]
    fn folding_twice_is_folding_once() {
        for disk in Disk::FLOPPIES {
            for byte in 0..=255 {
                let once = fold(&disk, byte);
                assert_eq!(fold(&disk, once), once, "byte {byte:02X}");
                assert_eq!(b"/:".contains(&once), b"/:".contains(&byte), "byte {byte:02X}");
            }
        }
    }

    #[test]
    fn names_have_1_to_30_bytes_without_slash_and_colon() {
        for length in 0..=40 {
            assert_eq!(valid(&vec![b'x'; length]), (1..=30).contains(&length));
        }
        for byte in 0..=255 {
            for place in 0..3 {
                let mut name = *b"abc";
                name[place] = byte;
                assert_eq!(valid(&name), byte != b'/' && byte != b':', "{name:?}");
            }
        }
    }

    #[test]
    fn a_name_is_read_from_its_place_in_a_block() {
        let mut block = [b'/'; BLOCK_BYTES];
        block[432..436].copy_from_slice(b"\x03Box");
        assert_eq!(name(&block), Some(&b"Box"[..]));
        block[432] = 4;
        assert_eq!(name(&block), None, "the byte after it belongs to it now");
        block[432..].fill(b'n');
        for length in 0..=255 {
            block[432] = length;
            let wanted = (1..=30).contains(&length).then(|| usize::from(length));
            assert_eq!(name(&block).map(<[u8]>::len), wanted, "length {length}");
        }
    }

    #[test]
    fn a_name_put_is_the_name_read() {
        let mut block = [0xEE; BLOCK_BYTES];
        put_name(&mut block, b"Mary");
        assert_eq!(&block[431..438], b"\xEE\x04Mary\xEE");
        assert_eq!(name(&block), Some(&b"Mary"[..]));
    }

    #[test]
    fn names_are_the_same_if_folded_bytes_are() {
        for disk in Disk::FLOPPIES {
            assert!(same(&disk, b"Mary", b"mARY"));
            assert!(same(&disk, b"", b""));
            assert!(!same(&disk, b"Mary", b"Mar"));
            assert!(!same(&disk, b"Mar", b"Mary"));
            assert!(!same(&disk, b"Mary", b"Mara"));
            assert!(!same(&disk, b"[", b"{"), "20 hex apart, but no letters");
            assert!(!same(&disk, b"\xF7", b"\xD7"), "signs");
            assert!(!same(&disk, b"\xFF", b"\xDF"), "letters, but not one and the same");
            assert_eq!(same(&disk, b"\xE4rger", b"\xC4RGER"), disk.is_international());
            assert_eq!(same(&disk, b"\xFE", b"\xDE"), disk.is_international());
            assert_eq!(folded(&disk, b"\xE4rger") == folded(&disk, b"\xC4RGER"), disk.is_international());
        }
    }

    /// The recipe, letter by letter, beside the sum of digits above.
    #[test]
    fn the_hash_is_that_of_the_recipe() {
        let mut rng = Rng::new(2);
        for _ in 0..10_000 {
            let length = rng.below(LONGEST as u64 + 1) as usize;
            let name = rng.bytes(length);
            for disk in Disk::FLOPPIES {
                let mut h = length as u32;
                for &byte in &name {
                    h = (13 * h + u32::from(fold(&disk, byte))) & 0x7FF;
                }
                assert_eq!(hash(&disk, &name), h, "{name:?}");
                assert_eq!(slot(&disk, &name), h % 72, "{name:?}");
            }
        }
    }

    #[test]
    fn the_same_names_hang_in_the_same_slot() {
        let mut rng = Rng::new(3);
        for _ in 0..1_000 {
            let length = 1 + rng.below(LONGEST as u64) as usize;
            let one = rng.bytes(length);
            for disk in Disk::FLOPPIES {
                let other = folded(&disk, &one);
                assert!(same(&disk, &one, &other), "{one:?}");
                assert_eq!(slot(&disk, &one), slot(&disk, &other), "{one:?}");
            }
            let lower: Vec<u8> = one.iter().map(|byte| byte.to_ascii_lowercase()).collect();
            assert!(Disk::FLOPPIES.iter().all(|disk| slot(disk, &one) == slot(disk, &lower)), "{one:?}");
        }
    }
}
