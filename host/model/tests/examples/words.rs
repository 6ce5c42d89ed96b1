//! Words and rows.

use crate::*;

#[test]
fn fixed_words() {
    assert_eq!(encode(&[12, 0, 0, 0, 0, 0, 0, 0, 0]), Some(0x252c_9000));
    assert_eq!(encode(&[12, 1, 0, 0, 0, 0, 0, 0, 0]), None);
    assert_eq!(encode(&[WRFFR, 5, 0, 0, 0, 0, 0, 0, 0]), Some(0x2528_9000 + 5 * 32));
    assert_eq!(encode(&[RDFFR, 5, 0, 0, 0, 0, 0, 0, 0]), Some(0x2519_f000 + 5));
    assert_eq!(encode(&[RDFFR_PG, 3, 5, 0, 0, 0, 0, 0, 0]), Some(0x2518_f000 + 3 * 32 + 5));
    assert_eq!(encode(&[RDFFRS_PG, 3, 5, 0, 0, 0, 0, 0, 0]), Some(0x2558_f000 + 3 * 32 + 5));
    assert_eq!(encode(&[RDFFRS_PG, 3, 16, 0, 0, 0, 0, 0, 0]), None);
    assert_eq!(encode(&[8, 3, 5, 0, 0, 0, 0, 0, 0]), Some(0x2558_c000 + 3 * 32 + 5));
    assert_eq!(encode(&[9, 3, 5, 0, 0, 0, 0, 0, 0]), Some(0x2550_c000 + 3 * 1024 + 5 * 32));
    assert_eq!(encode(&[10, 5, 0, 0, 0, 0, 0, 0, 0]), Some(0x2518_e400 + 5));
    assert_eq!(encode(&[10, 16, 0, 0, 0, 0, 0, 0, 0]), None);
    assert_eq!(encode(&[10, 5, 0, 0, 0, 0, 0, 0, 1]), None);
    assert_eq!(encode(&[17, 0, 0, 0, 0, 0, 0, 0, 0]), None);
}

/// Every word that decodes is written back as itself, and there are as many as the forms' fields have values. All others are
/// of an unsupported form.
#[test]
fn decode_and_encode_agree() {
    let mut known = [0; 17];
    for word in 0x2500_0000..=0x25ff_ffff {
        if let Some(row) = decode(word) {
            assert_eq!(encode(&row), Some(word));
            known[usize::from(row[0])] += 1;
        } else {
            assert_eq!(decode_refusal(word), 13, "{word:08x}");
        }
    }
    let field_bits = [20, 18, 19, 14, 12, 15, 12, 10, 8, 8, 4, 20, 0, 4, 4, 8, 8];
    let mut values = field_bits.map(|bits| 1 << bits);
    values[11] -= 1 << 16; // SEL with S = 1 and any four registers
    assert_eq!(known, values);
}
