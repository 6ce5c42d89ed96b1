//! Every word: its text is read as that word, and no other word has a text.

use cli::{assemble, disassemble, level, Aliases};

/// All words that the library may accept: the others are foreign by their bits 31:24.
fn words() -> impl Iterator<Item = u32> {
    0x2500_0000..=0x25FF_FFFF
}

#[test]
fn each_text_is_read_as_its_word() {
    let mut accepted = 0;
    for word in words() {
        let decoded = plokamyr::decode(word);
        let text = disassemble(word, Aliases::Off);
        assert_eq!(text.clone().map(|_| ()), decoded.map(|_| ()), "{word:08x}");
        let Ok(text) = text else { continue };
        assert_eq!(assemble(&text), Ok(word), "{text}");
        let alias = disassemble(word, Aliases::On).unwrap();
        assert!(alias == text || assemble(&alias) == Ok(word), "{alias}");
        accepted += 1;
    }
    assert_eq!(accepted, 2_877_489);
}

#[test]
fn foreign_words_have_no_text() {
    for word in (0..=u32::MAX).step_by(4_099).filter(|word| word >> 24 != 0x25) {
        assert_eq!(disassemble(word, Aliases::Off), Err(plokamyr::Reply::ForeignWord), "{word:08x}");
    }
}

/// The levels of docs/FORMAT.md's table.
#[test]
fn levels() {
    let levels = [
        ("whilelo p0.s, x1, x2", 1),
        ("whilege p0.s, w1, w2", 2),
        ("whilelo { p0.s, p1.s }, x1, x2", 3),
        ("whilehi pn8.d, x1, x2, vlx4", 3),
        ("uqdecp w0, p1.h", 1),
        ("decp x0, p1.h", 1),
        ("cntp x0, p1, p2.b", 1),
        ("cntp x0, pn1.b, vlx2", 3),
        ("pnext p0.b, p1, p0.b", 1),
        ("nands p0.b, p1/z, p2.b, p3.b", 1),
        ("setffr", 1),
    ];
    for (text, asked) in levels {
        assert_eq!(level(assemble(text).unwrap()), asked, "{text}");
    }
}

/// LLVM's aliases, with what LLVM 19 makes of them.
#[test]
fn aliases() {
    let aliases = [
        ("mov p5.b, p6/z, p7.b", 0x2507_58E5, "and p5.b, p6/z, p7.b, p7.b"),
        ("movs p5.b, p6/z, p7.b", 0x2547_58E5, "ands p5.b, p6/z, p7.b, p7.b"),
        ("not p5.b, p6/z, p7.b", 0x2506_5AE5, "eor p5.b, p6/z, p7.b, p6.b"),
        ("nots p5.b, p6/z, p7.b", 0x2546_5AE5, "eors p5.b, p6/z, p7.b, p6.b"),
        ("mov p5.b, p7.b", 0x2587_5CE5, "orr p5.b, p7/z, p7.b, p7.b"),
        ("movs p5.b, p7.b", 0x25C7_5CE5, "orrs p5.b, p7/z, p7.b, p7.b"),
        ("mov p5.b, p6/m, p7.b", 0x2505_5AF5, "sel p5.b, p6, p7.b, p5.b"),
    ];
    for (alias, word, text) in aliases {
        assert_eq!(assemble(alias), Ok(word), "{alias}");
        assert_eq!(disassemble(word, Aliases::Off).as_deref(), Ok(text));
        assert_eq!(disassemble(word, Aliases::On).as_deref(), Ok(alias));
    }
}
