use crate::args::Args;
use crate::change::{changes, Change, View};
use crate::commands::dis;
use crate::failure::{Failure, Outcome, DONE, REFUSED};
use crate::image::{accepted, bytes};
use crate::json::Json;
use crate::style::Style;

pub fn command(args: &Args, style: Style) -> Result<Outcome, Failure> {
    let (one, other) = match args.operands.as_slice() {
        [one, other] if one == "-" && other == "-" => return Err("standard input has one image (try --help)".into()),
        [one, other] => {
            let read = [bytes(one)?, bytes(other)?]; // both, before the library is asked
            (accepted(one, &read[0])?, accepted(other, &read[1])?)
        }
        _ => return Err("two images are compared (try --help)".into()),
    };
    let registers = changes(&one.state, &other.state, View::Elements(0));
    let words = differing(&one.words, &other.words);
    let alike = registers.is_empty() && words.is_empty();
    let status = if alike { DONE } else { REFUSED };
    let lines = registers.iter().map(|change| format!("{change}\n")).chain(words.iter().map(|word| word.line(style)));
    Ok(Outcome::either(args, status, || json(&registers, &words), || lines.collect()))
}

/// A word of the part in which the images differ.
#[derive(Clone, Debug, PartialEq, Eq)]
struct Word {
    added: bool,
    number: usize,
    word: u32,
}

impl Word {
    fn line(&self, style: Style) -> String {
        let line = format!("word {} {:08x}  {}", self.number, self.word, dis::text(self.word));
        let line = if self.added { style.green(&format!("+ {line}")) } else { style.red(&format!("- {line}")) };
        line + "\n"
    }

    fn json(&self) -> Json {
        Json::Object(vec![
            ("in", Json::text(if self.added { "second" } else { "first" })),
            ("number", Json::Number(self.number as u32)),
            ("word", Json::text(format!("{:08x}", self.word))),
            ("text", dis::text_json(self.word)),
        ])
    }
}

/// The words between those that both lists begin with and those that both end in.
fn differing(one: &[u32], other: &[u32]) -> Vec<Word> {
    let before = one.iter().zip(other).take_while(|(a, b)| a == b).count();
    let (one, other) = (&one[before..], &other[before..]);
    let after = one.iter().rev().zip(other.iter().rev()).take_while(|(a, b)| a == b).count();
    let words = |list: &[u32], added| {
        let middle = list[..list.len() - after].iter().enumerate();
        middle.map(|(place, word)| Word { added, number: before + place, word: *word }).collect::<Vec<_>>()
    };
    [words(one, false), words(other, true)].concat()
}

fn json(registers: &[Change], words: &[Word]) -> Json {
    Json::Object(vec![
        ("registers", Json::list(registers.iter().map(Change::json))),
        ("words", Json::list(words.iter().map(Word::json))),
    ])
}
