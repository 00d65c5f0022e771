//! The sentences of refusals.
use jufferdeeg::{fault, reason, reason_into, REASON_BYTES};

#[test]
fn every_refusal_has_a_sentence() {
    for number in 0..100 {
        let has = (fault::IMAGE_LENGTH..=fault::WRONG_KIND).contains(&number)
            || (fault::FILE_LENGTH..=fault::BOTH_MEMORIES).contains(&number);
        let sentence = reason(number);
        assert_eq!(!sentence.is_empty(), has, "{number}");
        assert!(sentence.len() <= REASON_BYTES, "{number}");
    }
    assert_eq!(reason(u32::MAX), "");
}

#[test]
fn a_short_output_gets_what_fits() {
    let whole = reason(fault::LINK);
    let mut room = [b'#'; 6];
    assert_eq!(reason_into(fault::LINK, &mut room[..4]), whole.len());
    assert_eq!(room[..4], whole.as_bytes()[..4]);
    assert_eq!(room[4..], *b"##");
    assert_eq!(reason_into(fault::LINK, &mut []), whole.len());
}
