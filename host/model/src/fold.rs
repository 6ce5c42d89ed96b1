//! The folder, by its table alone: request K8.

use crate::reply::*;
use crate::state::is_length;

/// "A title of at most 4,096 16-bit units".
const LONGEST: usize = 4096;

/// Folds a title in place. "A bad length of vector is refused with 4, then a longer title with 11, both untouched." The outcome is
/// "the table applied to every unit".
pub fn fold(title: &mut [u16], vl: u64) -> u8 {
    if !is_length(vl) {
        return ILLEGAL_STATE;
    }
    if title.len() > LONGEST {
        return LIST_TOO_SHORT;
    }
    for unit in title {
        *unit = folded(*unit);
    }
    DONE
}

/// The table: "A to Z become small", then its rows. "All else stays."
fn folded(unit: u16) -> u16 {
    let letter = match unit {
        0x41..=0x5A => return unit + 0x20,
        0xC0..=0xC5 | 0xE0..=0xE5 => b'a',
        0xC7 | 0xE7 => b'c',
        0xC8..=0xCB | 0xE8..=0xEB => b'e',
        0xCC..=0xCF | 0xEC..=0xEF => b'i',
        0xD1 | 0xF1 => b'n',
        0xD2..=0xD6 | 0xF2..=0xF6 => b'o',
        0xD9..=0xDC | 0xF9..=0xFC => b'u',
        0xDD | 0xFD | 0xFF => b'y',
        _ => return unit,
    };
    u16::from(letter)
}

#[cfg(test)]
mod tests {
    use super::*;

    const LENGTHS: [u64; 5] = [128, 256, 512, 1024, 2048];

    /// The paper's rows as text: Latin-1 has the numbers of Unicode.
    const ROWS: [(&str, &str); 8] = [
        ("ÀÁÂÃÄÅàáâãäå", "a"),
        ("Çç", "c"),
        ("ÈÉÊËèéêë", "e"),
        ("ÌÍÎÏìíîï", "i"),
        ("Ññ", "n"),
        ("ÒÓÔÕÖòóôõö", "o"),
        ("ÙÚÛÜùúûü", "u"),
        ("Ýýÿ", "y"),
    ];

    /// C6, D0, D7, D8, DE, DF, E6, F0, F7, F8 and FE.
    const KEPT: &str = "ÆÐ×ØÞßæð÷øþ";

    fn units(text: &str) -> Vec<u16> {
        text.encode_utf16().collect()
    }

    fn fold_of(mut title: Vec<u16>, vl: u64) -> (u8, Vec<u16>) {
        let reply = fold(&mut title, vl);
        (reply, title)
    }

    #[test]
    fn rows_of_the_paper() {
        for (from, to) in ROWS {
            let letters = units(&to.repeat(from.chars().count()));
            assert_eq!(fold_of(units(from), 512), (DONE, letters), "{from}");
        }
        let (large, small) = ("ABCDEFGHIJKLMNOPQRSTUVWXYZ", "abcdefghijklmnopqrstuvwxyz");
        assert_eq!(fold_of(units(large), 512), (DONE, units(small)));
        let kept = [0xC6, 0xD0, 0xD7, 0xD8, 0xDE, 0xDF, 0xE6, 0xF0, 0xF7, 0xF8, 0xFE];
        assert_eq!(units(KEPT), kept);
        assert_eq!(fold_of(kept.to_vec(), 512), (DONE, kept.to_vec()));
    }

    /// The units of no row, at each length; and so what is folded is folded no further.
    #[test]
    fn all_else_stays() {
        let is_in_row = |unit: &u16| ROWS.iter().any(|(from, _)| units(from).contains(unit));
        let others = (0..=u16::MAX).filter(|unit| !is_in_row(unit) && !(0x41..=0x5A).contains(unit));
        let others: Vec<u16> = others.collect();
        assert_eq!(others.len(), 0x1_0000 - 26 - 53);
        for (title, vl) in others.chunks(LONGEST).zip(LENGTHS.into_iter().cycle()) {
            assert_eq!(fold_of(title.to_vec(), vl), (DONE, title.to_vec()));
        }
        for (from, to) in ROWS {
            assert!(units(to).iter().all(|letter| others.contains(letter)), "{from}");
        }
    }

    /// 4, then 11, and the title as it was.
    #[test]
    fn refusals() {
        for vl in [0, 64, 127, 129, 192, 384, 2049, 4096, u64::MAX, (1 << 32) + 128] {
            for length in [0, 1, LONGEST, LONGEST + 1] {
                assert_eq!(fold_of(vec![0x41; length], vl), (ILLEGAL_STATE, vec![0x41; length]), "{length} at {vl}");
            }
        }
        for vl in LENGTHS {
            assert_eq!(fold_of(vec![0x41; LONGEST + 1], vl), (LIST_TOO_SHORT, vec![0x41; LONGEST + 1]), "{vl}");
            assert_eq!(fold_of(vec![0x41; LONGEST], vl), (DONE, vec![0x61; LONGEST]), "{vl}");
            assert_eq!(fold_of(Vec::new(), vl), (DONE, Vec::new()), "{vl}");
        }
    }
}
