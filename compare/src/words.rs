//! The words of a block: 128 numbers of 32 bits, highest byte first (docs/FORMAT.md, "What is built").
//!
//! Words are counted as docs/FORMAT.md counts them: `word(block, 3)` is its w3.

/// Words in a block.
pub const BLOCK_WORDS: usize = 128;

/// Bytes in a block.
pub const BLOCK_BYTES: usize = 4 * BLOCK_WORDS;

/// Places in the table that headers and list blocks carry: hash slots, or data keys.
pub const TABLE: u32 = 72;

/// The word at which that table begins.
const TABLE_START: usize = 6;

/// The word that holds hash slot `slot`; slots are counted from 0 and rise.
pub fn slot_word(slot: u32) -> usize {
    TABLE_START + slot as usize
}

/// The word that holds a block's data key number `index`, counted from 0; keys fill the table from its end.
pub fn key_word(index: u32) -> usize {
    slot_word(TABLE - 1 - index)
}

/// Word `index` of some bytes.
pub fn word(bytes: &[u8], index: usize) -> u32 {
    bytes[4 * index..4 * index + 4].iter().fold(0, |high, &low| high << 8 | u32::from(low))
}

/// Stores `value` as word `index`.
pub fn put(bytes: &mut [u8], index: usize, value: u32) {
    bytes[4 * index..4 * index + 4].copy_from_slice(&value.to_be_bytes());
}

/// The sum of a block's words, of which only the low 32 bits are kept. 128 words cannot overflow 64 bits, so
/// the total is cut once, at the end.
pub fn sum(block: &[u8]) -> u32 {
    assert_eq!(block.len(), BLOCK_BYTES, "a block's length");
    let total: u64 = (0..BLOCK_WORDS).map(|i| u64::from(word(block, i))).sum();
    total as u32
}

/// Gives word `index` the one value with which the block's sum is 0.
pub fn mend(block: &mut [u8], index: usize) {
    put(block, index, 0);
    let rest = sum(block);
    put(block, index, rest.wrapping_neg());
}

#[cfg(test)]
mod tests {
    use super::*;
    use crate::rng::Rng;

    #[test]
    fn the_highest_byte_comes_first() {
        let bytes = [0, 0, 0, 0, 0x12, 0x34, 0x56, 0x78, 0xFF, 0xFF, 0xFF, 0xFD];
        assert_eq!(word(&bytes, 0), 0);
        assert_eq!(word(&bytes, 1), 0x1234_5678);
        assert_eq!(word(&bytes, 2), 0xFFFF_FFFD);
    }

    #[test]
    fn a_stored_word_is_read_back_and_its_neighbours_stay() {
        let mut bytes = [0xEE; 12];
        put(&mut bytes, 1, 0x0102_0304);
        let wanted = [0xEE, 0xEE, 0xEE, 0xEE, 1, 2, 3, 4, 0xEE, 0xEE, 0xEE, 0xEE];
        assert_eq!(bytes, wanted);
        assert_eq!(word(&bytes, 1), 0x0102_0304);
    }

    #[test]
    fn the_sum_takes_every_word_and_wraps() {
        let mut block = [0; BLOCK_BYTES];
        for index in 0..BLOCK_WORDS {
            put(&mut block, index, 1 << (index % 20));
            let words: u32 = (0..=index).map(|i| 1 << (i % 20)).sum();
            assert_eq!(sum(&block), words, "words up to w{index}");
        }
        assert_eq!(sum(&[0xFF; BLOCK_BYTES]), 0u32.wrapping_sub(128));
    }

    #[test]
    fn mending_changes_the_given_word_alone_and_makes_the_sum_zero() {
        let mut rng = Rng::new(1);
        for index in 0..BLOCK_WORDS {
            let found = rng.bytes(BLOCK_BYTES);
            let mut block = found.clone();
            mend(&mut block, index);
            assert_eq!(sum(&block), 0, "mended by w{index}");
            for other in (0..BLOCK_WORDS).filter(|&other| other != index) {
                assert_eq!(word(&block, other), word(&found, other), "w{other}");
            }
        }
    }

    #[test]
    fn slots_rise_and_keys_fall() {
        assert_eq!((slot_word(0), slot_word(71)), (6, 77));
        assert_eq!((key_word(0), key_word(1), key_word(71)), (77, 76, 6));
    }
}
