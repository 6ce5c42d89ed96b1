//! Words in hexadecimal digits, as `asm` prints them.

use crate::failure::Failure;

/// A word of up to eight hexadecimal digits, with or without 0x.
pub fn word(text: &str) -> Option<u32> {
    let digits = digits(text);
    let plain = digits.len() <= 8 && digits.chars().all(|digit| digit.is_ascii_hexdigit());
    u32::from_str_radix(digits, 16).ok().filter(|_| plain)
}

fn digits(text: &str) -> &str {
    text.strip_prefix("0x").or_else(|| text.strip_prefix("0X")).unwrap_or(text)
}

/// Whether bytes are a text and no image, which begins with byte 3: no text has such.
pub fn is_text(bytes: &[u8]) -> bool {
    let of_text = |byte: &u8| !byte.is_ascii_control() || byte.is_ascii_whitespace();
    !bytes.is_empty() && bytes.iter().all(of_text)
}

/// Whether a text begins with a word of a list. No instruction has such a name.
pub fn is_list(text: &str) -> bool {
    text.split_whitespace().next().and_then(whole).is_some()
}

/// The words of a list called `name`: blanks or lines stand between them.
pub fn words(name: &str, text: &str) -> Result<Vec<u32>, Failure> {
    let lines = (1..).zip(text.lines());
    let tokens = lines.flat_map(|(line, text)| text.split_whitespace().map(move |token| (line, token)));
    tokens.map(|(line, token)| whole(token).ok_or_else(|| no_word(name, line, token))).collect()
}

/// A word of eight digits, so that no name is taken for one.
fn whole(text: &str) -> Option<u32> {
    word(text).filter(|_| digits(text).len() == 8)
}

/// How many characters of what is no word are shown.
const SHOWN: usize = 40;

fn no_word(name: &str, line: usize, token: &str) -> Failure {
    let shown: String = token.chars().take(SHOWN).collect();
    let dots = if shown.len() < token.len() { ".." } else { "" };
    format!("{name}:{line}: '{shown}{dots}' is no word of eight hexadecimal digits").into()
}

#[cfg(test)]
mod tests {
    use super::*;

    #[test]
    fn lists() {
        assert_eq!(words("list", "25a21c20 0x2519C401\r\n\n\t00000000\n"), Ok(vec![0x25A2_1C20, 0x2519_C401, 0]));
        assert_eq!(words("list", ""), Ok(vec![]));
        let fault = words("list", "25a21c20\n25a21c2\n").unwrap_err();
        assert_eq!(fault.text, "list:2: '25a21c2' is no word of eight hexadecimal digits");
    }

    #[test]
    fn told_apart() {
        let begins =
            ["25a21c20", "  0X25a21c20 and", "add x0", "fade", "25a21c200", "", "setffr", "// 25a21c20"].map(is_list);
        assert_eq!(begins, [true, true, false, false, false, false, false, false]);
        assert_eq!(
            [&b"25a21c20\n"[..], b"\xef\xbb\xbf2", b"", b"\x03\0\0\0", b"25\0"].map(is_text),
            [true, true, false, false, false]
        );
    }
}
