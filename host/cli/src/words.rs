//! Lists, ranges and numbers in words, and what they are read from.

use std::ops::RangeInclusive;

/// `a`, `a or b`, `a, b or c`.
pub fn listed<T: AsRef<str>>(items: &[T]) -> String {
    let items: Vec<&str> = items.iter().map(AsRef::as_ref).collect();
    match items.split_last() {
        Some((last, [])) => last.to_string(),
        Some((last, rest)) => format!("{} or {last}", rest.join(", ")),
        None => "nothing".to_string(),
    }
}

/// A text with its invisible characters escaped: one of control or of format, as one that turns the direction of what follows,
/// a line separator, a byte order mark, one that nobody has assigned.
pub fn plain(text: &str) -> String {
    let shown = |c: char| match is_invisible(c) {
        true => c.escape_default().collect(),
        false => vec![c],
    };
    text.chars().flat_map(shown).collect()
}

/// Whether Rust escapes a character in a text, after a letter: an accent of its own is then none.
pub fn is_invisible(c: char) -> bool {
    !matches!(c, ' '..='~') && format!("e{c}").escape_debug().count() > 2
}

/// A text in lines of at most `width` characters, those after the first set in.
pub fn folded(text: &str, indent: usize, width: usize) -> String {
    let (mut lines, mut line) = (Vec::new(), String::new());
    for word in text.split_whitespace() {
        if !line.is_empty() && indent + line.chars().count() + 1 + word.chars().count() > width {
            lines.push(std::mem::take(&mut line));
        }
        if !line.is_empty() {
            line.push(' ');
        }
        line += word;
    }
    lines.push(line);
    lines.join(&format!("\n{}", " ".repeat(indent)))
}

/// Ascending numbers as the runs that they make up.
pub fn runs(numbers: impl IntoIterator<Item = u64>) -> Vec<RangeInclusive<u64>> {
    let mut all: Vec<RangeInclusive<u64>> = Vec::new();
    for number in numbers {
        match all.last_mut() {
            Some(run) if run.end().checked_add(1) == Some(number) => *run = *run.start()..=number,
            _ => all.push(number..=number),
        }
    }
    all
}

/// Runs as `0-4,7`; `none` if there are none.
pub fn shortened(runs: &[RangeInclusive<u64>]) -> String {
    let one = |run: &RangeInclusive<u64>| match run.start() == run.end() {
        true => run.start().to_string(),
        false => format!("{}-{}", run.start(), run.end()),
    };
    match runs {
        [] => "none".to_string(),
        _ => runs.iter().map(one).collect::<Vec<_>>().join(","),
    }
}

/// Ascending numbers for people: three or more in a row as `0 to 3`, others one by one.
pub fn numbers(numbers: &[u32]) -> String {
    let pieces =
        runs(numbers.iter().copied().map(u64::from)).into_iter().flat_map(|run| match run.end() - run.start() {
            0 | 1 => run.map(|number| number.to_string()).collect::<Vec<_>>(),
            _ => vec![format!("{} to {}", run.start(), run.end())],
        });
    listed(&pieces.collect::<Vec<_>>())
}

/// A number with its thousands set apart.
pub fn grouped(number: u64) -> String {
    let digits = number.to_string();
    let mut text = String::new();
    for (place, digit) in digits.chars().enumerate() {
        if place > 0 && (digits.len() - place) % 3 == 0 {
            text.push(',');
        }
        text.push(digit);
    }
    text
}

/// `1 word`, `2 words`.
pub fn counted(number: u64, noun: &str) -> String {
    format!("{} {noun}{}", grouped(number), if number == 1 { "" } else { "s" })
}

/// A number of digits alone, or of hexadecimal ones after `0x`.
pub fn natural(text: &str) -> Option<u64> {
    let (digits, radix) = match text.strip_prefix("0x").or_else(|| text.strip_prefix("0X")) {
        Some(digits) => (digits, 16),
        None => (text, 10),
    };
    // from_str_radix would take a sign
    let plain = digits.chars().all(|digit| digit.is_digit(radix));
    u64::from_str_radix(digits, radix).ok().filter(|_| plain)
}

/// The value of a register: as [`natural`], or one below zero, as it wraps around.
pub fn wrapping(text: &str) -> Option<u64> {
    match text.strip_prefix('-') {
        Some(digits) => natural(digits).filter(|value| *value <= 1 << 63).map(u64::wrapping_neg),
        None => natural(text),
    }
}

#[cfg(test)]
mod tests {
    use super::*;

    #[test]
    fn lists() {
        assert_eq!([listed(&["a"]), listed(&["a", "b"]), listed(&["a", "b", "c"])], ["a", "a or b", "a, b or c"]);
    }

    #[test]
    fn invisible_characters() {
        let text = "é e\u{301} '\"\\ █\u{202e}\u{feff}\u{200b}\u{2028}\u{1b}\u{e0001}\n";
        assert_eq!(plain(text), "é e\u{301} '\"\\ █\\u{202e}\\u{feff}\\u{200b}\\u{2028}\\u{1b}\\u{e0001}\\n");
    }

    #[test]
    fn lines_break_between_words() {
        assert_eq!(folded("one two  three", 0, 7), "one two\nthree");
        assert_eq!(folded("one two three", 2, 7), "one\n  two\n  three");
        assert_eq!(folded("longer than that", 0, 3), "longer\nthan\nthat");
    }

    #[test]
    fn ranges() {
        assert_eq!(shortened(&runs([0, 1, 2, 3, 4, 7])), "0-4,7");
        assert_eq!(shortened(&runs([u64::MAX - 1, u64::MAX])), "18446744073709551614-18446744073709551615");
        assert_eq!(shortened(&runs([])), "none");
    }

    #[test]
    fn numbers_read_and_shown() {
        assert_eq!(
            ["7", "0x2A", "+7", "-7", "", "0x", "7 ", "0x+7"].map(natural),
            [Some(7), Some(42), None, None, None, None, None, None]
        );
        assert_eq!(
            ["-1", "-0x8000000000000000", "-0x8000000000000001", "--1"].map(wrapping),
            [Some(u64::MAX), Some(1 << 63), None, None]
        );
        assert_eq!([0, 999, 1000, 1_234_567].map(grouped), ["0", "999", "1,000", "1,234,567"]);
        assert_eq!([counted(1, "word"), counted(4096, "word")], ["1 word", "4,096 words"]);
    }

    #[test]
    fn numbers_in_words() {
        let cases: [(&[u32], &str); 8] = [
            (&[], "nothing"),
            (&[31], "31"),
            (&[0, 1], "0 or 1"),
            (&[0, 1, 2], "0 to 2"),
            (&[1, 2, 4, 8, 16], "1, 2, 4, 8 or 16"),
            (&[0, 2, 3, 4, 6, 7], "0, 2 to 4, 6 or 7"),
            (&[1, 5, 6, 7], "1 or 5 to 7"),
            (&[u32::MAX - 2, u32::MAX - 1, u32::MAX], "4294967293 to 4294967295"),
        ];
        cases.iter().for_each(|(list, text)| assert_eq!(numbers(list), *text));
    }
}
