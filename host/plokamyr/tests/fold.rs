//! Titles folded in place: the table, unit by unit and at each length; both refusals in their order, and that they leave the title.

use plokamyr::{fold, Reply, TITLE_MAX};

const LENGTHS: [u64; 5] = [128, 256, 512, 1024, 2048];

/// The letters with accents, written again from the paper.
const LETTERS: [(&str, char); 8] = [
    ("ÀÁÂÃÄÅàáâãäå", 'a'),
    ("Çç", 'c'),
    ("ÈÉÊËèéêë", 'e'),
    ("ÌÍÎÏìíîï", 'i'),
    ("Ññ", 'n'),
    ("ÒÓÔÕÖòóôõö", 'o'),
    ("ÙÚÛÜùúûü", 'u'),
    ("Ýýÿ", 'y'),
];

/// What a unit becomes. Half of a surrogate pair is no character, and stays.
fn folded(unit: u16) -> u16 {
    let letter = |c: char| LETTERS.iter().find(|(accented, _)| accented.contains(c)).map_or(c, |&(_, letter)| letter);
    char::from_u32(unit.into()).map_or(unit, |c| letter(c).to_ascii_lowercase() as u16)
}

fn units(text: &str) -> Vec<u16> {
    text.encode_utf16().collect()
}

/// A title of any number of units, each another.
fn title(length: usize) -> Vec<u16> {
    (0..length).map(|i| (i * 37 % 0x140) as u16).collect()
}

/// A call that is refused leaves the title.
fn expect_refused(length: usize, vl: u64, reply: Reply) {
    let mut kept = title(length);
    assert_eq!(fold(&mut kept, vl), reply, "{length} units at {vl}");
    assert_eq!(kept, title(length));
}

#[test]
fn texts() {
    for vl in LENGTHS {
        for (text, wanted) in [
            ("", ""),
            ("À LA RECHERCHE DU TEMPS PERDU", "a la recherche du temps perdu"),
            ("Señor Muñoz, Übergröße", "senor munoz, ubergroße"),
            ("ÆÐ×ØÞß æð÷øþ Ÿ Ā ﬁ Ａ", "ÆÐ×ØÞß æð÷øþ Ÿ Ā ﬁ Ａ"),
            ("Ç\u{1F600}Ç", "c\u{1F600}c"),
        ] {
            let mut title = units(text);
            assert_eq!(fold(&mut title, vl), Reply::Done);
            assert_eq!(String::from_utf16(&title).expect("what was text is text"), wanted);
        }
    }
}

/// Every unit there is, at every length; and once more at the next.
#[test]
fn units_by_the_table() {
    let all: Vec<u16> = (0..=u16::MAX).collect();
    for (vl, other) in LENGTHS.into_iter().zip(LENGTHS.into_iter().cycle().skip(1)) {
        for given in all.chunks(TITLE_MAX) {
            let wanted: Vec<u16> = given.iter().copied().map(folded).collect();
            let mut title = given.to_vec();
            assert_eq!((fold(&mut title, vl), &title), (Reply::Done, &wanted));
            assert_eq!((fold(&mut title, other), &title), (Reply::Done, &wanted));
        }
    }
}

/// Up to a unit past the longest vector, and the most; what stands beside a title stays.
#[test]
fn titles_of_every_length() {
    for (vl, length) in
        LENGTHS.into_iter().flat_map(|vl| (0..=129).chain([TITLE_MAX - 1, TITLE_MAX]).map(move |n| (vl, n)))
    {
        let given = title(length + 2);
        let mut after = given.clone();
        assert_eq!(fold(&mut after[1..=length], vl), Reply::Done);
        assert_eq!((after[0], after[length + 1]), (given[0], given[length + 1]));
        assert!(
            after[1..=length].iter().zip(&given[1..]).all(|(&after, &given)| after == folded(given)),
            "{length} at {vl}"
        );
    }
}

#[test]
fn refusals() {
    for length in [0, 1, 64, 65, TITLE_MAX, TITLE_MAX + 1, 2 * TITLE_MAX] {
        for vl in [0, 1, 127, 129, 384, 2049, 4096, 1 << 32 | 128, u64::MAX] {
            expect_refused(length, vl, Reply::IllegalState);
        }
    }
    for vl in LENGTHS {
        expect_refused(TITLE_MAX + 1, vl, Reply::ListTooShort);
        expect_refused(2 * TITLE_MAX, vl, Reply::ListTooShort);
    }
}
