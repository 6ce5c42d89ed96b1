//! Texts that are damaged at random: each is refused with a place within it, or is an instruction that only blanks, large
//! letters and the name of register 31 set apart from what is shown for its word. None panics.

mod common;

use cli::{answer, assemble, disassemble, Aliases, Style};
use common::Random;

/// One of some.
fn of<'a, T>(items: &'a [T], random: &mut Random) -> &'a T {
    &items[random.below(items.len() as u64) as usize]
}

const STRANGE: [char; 24] = [
    'p', 'x', 'w', 'n', 'z', 'm', 'b', 's', 'q', '0', '1', '9', '.', ',', '/', '{', '}', ' ', '\t', '-', ';', '\0',
    'é', '█',
];

fn texts(random: &mut Random) -> Vec<String> {
    let mut texts = Vec::new();
    while texts.len() < 2_000 {
        let word = 0x2500_0000 | random.below(1 << 24) as u32;
        let aliases = *of(&[Aliases::Off, Aliases::On], random);
        texts.extend(disassemble(word, aliases));
    }
    texts
}

fn damaged(text: &str, other: &str, random: &mut Random) -> String {
    let mut chars: Vec<char> = text.chars().collect();
    for _ in 0..=random.below(3) {
        let at = random.below(chars.len() as u64 + 1) as usize;
        match random.below(7) {
            0 => chars.insert(at, *of(&STRANGE, random)),
            1 => chars.truncate(at),
            2 => chars.extend(other.chars().skip(at)),
            _ if at == chars.len() => chars.push(' '),
            3 => drop(chars.remove(at)),
            4 => chars[at] = *of(&STRANGE, random),
            5 => chars.swap(at, 0),
            _ => chars[at] = chars[at].to_ascii_uppercase(),
        }
    }
    chars.into_iter().collect()
}

/// Without blanks and in small letters, and with one name for register 31.
fn bare(text: &str) -> String {
    let text = text.chars().filter(|c| !c.is_whitespace()).collect::<String>().to_ascii_lowercase();
    text.replace("x31", "xzr").replace("w31", "wzr")
}

/// The command refuses the line too, and marks a place below it. With `;` or `/` a line may have more than one instruction, or
/// none; a blank one, and a single word, which may be a file's name, are refused without a mark.
fn refused_with_a_mark(line: &str) {
    let given = ["asm", "--", line].map(String::from);
    let answer = answer(&given, Style::PLAIN);
    if line.contains([';', '/']) || !line.trim().contains(char::is_whitespace) {
        return;
    }
    let failure = answer.unwrap_err();
    assert!(failure.status == 3 && failure.text.ends_with('^'), "{line:?}: {}", failure.text);
}

#[test]
fn damaged_lines() {
    let mut random = Random(2026);
    let texts = texts(&mut random);
    let (mut taken, mut refused) = (0, 0);
    for _ in 0..200_000 {
        let (text, other) = (of(&texts, &mut random).clone(), of(&texts, &mut random).clone());
        let line = damaged(&text, &other, &mut random);
        match assemble(&line) {
            Ok(word) => {
                let shown = [Aliases::Off, Aliases::On].map(|aliases| bare(&disassemble(word, aliases).unwrap()));
                assert!(shown.contains(&bare(&line)), "{line:?} is taken for {shown:?}");
                taken += 1;
            }
            Err(fault) => {
                assert!(line.is_char_boundary(fault.at), "{line:?}: {fault:?}");
                assert!(!fault.found.is_empty());
                let elsewhere = fault.to_string().ends_with(" is an SVE instruction that is not executed here");
                assert!(fault.expected.is_empty() == elsewhere, "{line:?}: {fault}");
                refused += 1;
                if refused % 10 == 0 {
                    refused_with_a_mark(&line);
                }
            }
        }
    }
    // most are damaged for good, and some are not
    assert!(taken > 10_000 && refused > 100_000, "{taken} {refused}");
}
