use crate::args::Args;
use crate::commands::explain::said;
use crate::disassemble::{disassemble, level, Aliases};
use crate::failure::{Failure, Outcome, DONE, REFUSED};
use crate::image::{accepted, bytes, named, text as text_of, MOST};
use crate::json::Json;
use crate::list::{self, word};
use crate::style::Style;
use crate::words::counted;
use plokamyr::Reply;
use std::path::Path;

pub fn command(args: &Args, style: Style) -> Result<Outcome, Failure> {
    let words = words(args)?;
    let aliases = if args.has("aliases") { Aliases::On } else { Aliases::Off };
    let all_ours = words.iter().all(|word| disassemble(*word, aliases).is_ok());
    let json = || Json::list(words.iter().map(|word| json(*word, aliases)));
    let status = if all_ours { DONE } else { REFUSED };
    Ok(Outcome::either(args, status, json, || lines(&words, aliases, style)))
}

const WORD: &str = "word of up to eight hexadecimal digits";

/// The words of an image, or of a text that lists them.
fn of_file(path: &str) -> Result<Vec<u32>, Failure> {
    let bytes = bytes(path)?;
    if !list::is_text(&bytes) {
        return Ok(accepted(path, &bytes)?.words);
    }
    if bytes.len() == MOST {
        return Err(format!("{} is a text of {} or more", named(path), counted(MOST as u64, "byte")).into());
    }
    let text = text_of(&bytes);
    if !list::is_list(&text) {
        return Err(format!("{} is a text, and no list of words of eight hexadecimal digits", named(path)).into());
    }
    list::words(&named(path), &text)
}

fn words(args: &Args) -> Result<Vec<u32>, Failure> {
    match args.operands.as_slice() {
        [] => Err("WORD or FILE is missing (try --help)".into()),
        [path] if word(path).is_none() && (path == "-" || Path::new(path).exists()) => of_file(path),
        [text] => Ok(vec![word(text).ok_or_else(|| format!("'{text}' is no file, and no {WORD}"))?]),
        texts => {
            let no_word = |text| format!("several operands are words, and '{text}' is no {WORD}").into();
            texts.iter().map(|text| word(text).ok_or_else(|| no_word(text))).collect()
        }
    }
}

fn lines(words: &[u32], aliases: Aliases, style: Style) -> String {
    let texts: Vec<_> = words.iter().map(|word| disassemble(*word, aliases)).collect();
    let width = texts.iter().flatten().map(String::len).max().unwrap_or(0);
    let line = |(word, text): (&u32, &Result<String, Reply>)| match text {
        Ok(text) => format!("{word:08x}  {text:<width$}   level {}\n", level(*word)),
        Err(refusal) => format!("{word:08x}  {}\n", style.red(&stranger(*refusal))),
    };
    words.iter().zip(&texts).map(line).collect()
}

/// What a word is that is none of ours, and why.
fn stranger(refusal: Reply) -> String {
    match refusal {
        Reply::UnsupportedForm => format!("undefined here: {}", said(refusal)),
        _ => said(refusal).trim_start_matches("word is ").to_string(),
    }
}

/// A word's instruction, or what it is if it has none.
pub fn text(word: u32) -> String {
    match disassemble(word, Aliases::Off) {
        Ok(text) => text,
        Err(Reply::ForeignWord) => "foreign".to_string(),
        Err(_) => "undefined here".to_string(),
    }
}

/// A word's instruction; null if it has none.
pub fn text_json(word: u32) -> Json {
    disassemble(word, Aliases::Off).map_or(Json::Null, Json::text)
}

fn json(word: u32, aliases: Aliases) -> Json {
    let mut fields = vec![("word", Json::text(format!("{word:08x}")))];
    match disassemble(word, aliases) {
        Ok(text) => fields.extend([("text", Json::text(text)), ("level", Json::Number(level(word).into()))]),
        Err(refusal) => fields.extend([("text", Json::Null), ("reply", Json::Number(refusal.number()))]),
    }
    Json::Object(fields)
}
