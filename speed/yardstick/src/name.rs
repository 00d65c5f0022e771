//! Names: which are allowed, how they are folded, and the slot in which one hangs.
//!
//! A name is held as the 32 bytes from its length on, folded, with zeros after its end. So all names take the same
//! steps, whatever their length, and these are steps of vectors.

use crate::block::{Block, TABLE};

/// The longest name.
pub(crate) const LONGEST: usize = 30;

/// The byte of a block with the length of its name.
const PLACE: usize = 432;

/// The length of a name and its bytes, and a byte more.
const BYTES: usize = 32;

/// What one step of the hash multiplies by.
const FACTOR: u32 = 13;

/// The number by which [`FACTOR`] gives 1, in 32 bits.
const INVERSE: u32 = 0xC4EC_4EC5;

const fn power(base: u32, exponent: usize) -> u32 {
    let (mut power, mut count) = (1u32, 0);
    while count < exponent {
        power = power.wrapping_mul(base);
        count += 1;
    }
    power
}

/// For each length what takes back the steps of the hash that were made over the zeros after the name.
const SHARES: [u32; BYTES] = {
    let mut shares = [0; BYTES];
    let mut length = 0;
    while length < BYTES {
        shares[length] = power(INVERSE, BYTES - 1 - length);
        length += 1;
    }
    shares
};

/// For each length, the bytes that belong to a name: its length and what follows.
const MASKS: [[u8; BYTES]; BYTES] = {
    let mut masks = [[0; BYTES]; BYTES];
    let mut length = 0;
    while length < BYTES {
        let mut place = 0;
        while place <= length {
            masks[length][place] = 0xFF;
            place += 1;
        }
        length += 1;
    }
    masks
};

/// A name, folded.
#[derive(Clone, Copy, PartialEq, Eq)]
pub(crate) struct Name {
    /// Its bytes, eight in each, the first ones lowest.
    eights: [u64; BYTES / 8],
}

impl Name {
    /// The name of a block; none if it is not allowed. Letters with accents are folded if `accents` says so.
    #[inline(always)]
    pub(crate) fn of(block: &Block, accents: bool) -> Option<Name> {
        let bytes: &[u8; BYTES] = block[PLACE..PLACE + BYTES].try_into().ok()?;
        Name::folded(bytes, accents)
    }

    /// A name that stands alone.
    pub(crate) fn new(name: &[u8], accents: bool) -> Option<Name> {
        let mut bytes = [0; BYTES];
        bytes[0] = u8::try_from(name.len()).ok()?;
        bytes.get_mut(1..=name.len())?.copy_from_slice(name);
        Name::folded(&bytes, accents)
    }

    #[inline(always)]
    fn folded(given: &[u8; BYTES], accents: bool) -> Option<Name> {
        let length = usize::from(given[0]);
        let mask = &MASKS[length % BYTES];
        let accents = if accents { 0x1F } else { 0 };
        let mut bytes = [0; BYTES];
        let mut bad = 0;
        for place in 0..BYTES {
            let byte = given[place] & mask[place];
            let is_letter = byte.wrapping_sub(b'a') < 26;
            let is_accented = (byte.wrapping_sub(0xE0) < accents) & (byte != 0xF7);
            bytes[place] = byte.wrapping_sub(if is_letter | is_accented { 0x20 } else { 0 });
            bad |= u8::from((byte == b'/') | (byte == b':'));
        }
        let mut eights = [0; BYTES / 8];
        for (eight, &bytes) in eights.iter_mut().zip(bytes.as_chunks().0) {
            *eight = u64::from_le_bytes(bytes);
        }
        (length.wrapping_sub(1) < LONGEST && bad == 0).then_some(Name { eights })
    }

    /// A number that equal names share and hardly any others do.
    #[inline(always)]
    pub(crate) fn print(&self) -> u32 {
        const ODD: u64 = 0x9E37_79B9_7F4A_7C15;
        let mix = |mixed: u64, &eight: &u64| mixed.wrapping_add(eight).wrapping_mul(ODD);
        (self.eights.iter().fold(0, mix) >> 32) as u32
    }

    /// The slot in which it hangs.
    #[inline(always)]
    pub(crate) fn slot(&self) -> u32 {
        let steps = |hash: u32, &eight: &u64| hash.wrapping_mul(power(FACTOR, 8)).wrapping_add(eight_steps(eight));
        let hash = self.eights.iter().fold(0, steps);
        let length = self.eights[0] as usize % BYTES;
        hash.wrapping_mul(SHARES[length]) % 2048 % TABLE
    }
}

/// Eight steps of the hash at once: those of two bytes in each 16 bits, then of four in each 32, then of all.
#[inline(always)]
const fn eight_steps(eight: u64) -> u32 {
    const BYTE: u64 = 0x00FF_00FF_00FF_00FF;
    const PAIR: u64 = 0x0000_FFFF_0000_FFFF;
    let pairs = (eight & BYTE) * power(FACTOR, 1) as u64 + (eight >> 8 & BYTE);
    let fours = (pairs & PAIR) * power(FACTOR, 2) as u64 + (pairs >> 16 & PAIR);
    (fours as u32).wrapping_mul(power(FACTOR, 4)).wrapping_add((fours >> 32) as u32)
}

#[cfg(test)]
mod tests {
    use super::*;

    /// The slot by the rule, step by step.
    fn plain(name: &[u8], accents: bool) -> u32 {
        let fold = |byte: u8| match byte {
            b'a'..=b'z' => byte - 0x20,
            0xF7 => byte,
            0xE0..=0xFE if accents => byte - 0x20,
            _ => byte,
        };
        let step = |hash: u32, &byte: &u8| (13 * hash + u32::from(fold(byte))) % 2048;
        name.iter().fold(name.len() as u32, step) % 72
    }

    #[test]
    fn slots_by_the_rule() {
        assert_eq!(FACTOR.wrapping_mul(INVERSE), 1);
        for (name, slot) in [(&b"a"[..], 6), (b"A", 6), (b"c", 8), (b"s", 24), (b"MARY", 65)] {
            assert_eq!(Name::new(name, false).map(|name| name.slot()), Some(slot));
        }
        let mut drawn = 1u32;
        for turn in 0..10_000 {
            let mut name = [0; LONGEST];
            for byte in &mut name {
                drawn = drawn.wrapping_mul(1_664_525).wrapping_add(1_013_904_223);
                *byte = (drawn >> 24) as u8;
            }
            let (name, accents) = (&name[..1 + turn % LONGEST], turn % 2 == 0);
            let allowed = !name.iter().any(|byte| b"/:".contains(byte));
            let slot = allowed.then(|| plain(name, accents));
            assert_eq!(Name::new(name, accents).map(|name| name.slot()), slot, "{name:?}");
        }
    }

    #[test]
    fn folded_bytes_and_lengths() {
        for byte in 0..=255u8 {
            let letter = byte.is_ascii_lowercase();
            let accented = (0xE0..=0xFE).contains(&byte) && byte != 0xF7;
            for accents in [false, true] {
                let folded = if letter || accents && accented { byte - 0x20 } else { byte };
                let name = Name::new(&[b'X', byte], accents)
                    .map(|name| name.eights[0].to_le_bytes()[..4] == [2, b'X', folded, 0]);
                assert_eq!(name, (!b"/:".contains(&byte)).then_some(true), "{byte}");
            }
        }
        let long = [b'a'; 300];
        let allowed = |length: &usize| Name::new(&long[..*length], false).is_some();
        assert!((0..300).filter(allowed).eq(1..=30));
    }
}
