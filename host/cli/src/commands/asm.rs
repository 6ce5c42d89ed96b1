use crate::args::Args;
use crate::assemble::{begins_any, begins_instruction};
use crate::failure::{Failure, Outcome, DONE, FAILED};
use crate::image::{contents, named, text};
use crate::source::{instructions, report, words, Problems};
use crate::style::Style;
use crate::words::grouped;
use std::io;
use std::path::Path;

pub fn command(args: &Args, _: Style) -> Result<Outcome, Failure> {
    let words = match args.operands.as_slice() {
        [] => return Err("TEXT or FILE.s is missing (try --help)".into()),
        [path] if is_file(path) => assembled(&named(path), &source(path)?)?,
        texts => of_texts(texts)?,
    };
    let lines: String = words.iter().map(|word| format!("{word:08x}\n")).collect();
    Ok(Outcome::new(lines, DONE))
}

/// The words of a source called `name`.
pub fn assembled(name: &str, source: &str) -> Result<Vec<u32>, Failure> {
    words(source).map_err(|problems| reported(name, &problems))
}

/// How many words it has, without the library.
pub fn length(name: &str, source: &str) -> Result<usize, Failure> {
    instructions(source).map_err(|problems| reported(name, &problems))
}

fn reported(name: &str, problems: &Problems) -> Failure {
    Failure { text: report(name, problems, Style::of(&io::stderr())), status: FAILED, json: None }
}

/// One word that ends in `.s` names a file, which no instruction does; what begins no instruction names one if it is there;
/// `-` is standard input.
fn is_file(text: &str) -> bool {
    let named = text.ends_with(".s") && !text.contains(char::is_whitespace);
    text == "-" || named || !begins_instruction(text) && Path::new(text).exists()
}

/// More than any source needs: all words that there are, with their texts, take less.
const MOST: usize = 1 << 28;

/// A file's text. Bytes that are no UTF-8 are no instruction, and are refused in their place.
pub fn source(path: &str) -> Result<String, Failure> {
    let bytes = contents(path, MOST)?;
    if bytes.len() == MOST {
        return Err(format!("{} has {} bytes or more", named(path), grouped(MOST as u64)).into());
    }
    Ok(text(&bytes))
}

/// The words of arguments. Each that begins an instruction has one.
fn of_texts(texts: &[String]) -> Result<Vec<u32>, Failure> {
    let lines = joined(texts);
    for (place, line) in (1..).zip(&lines) {
        if instructions(line) == Ok(0) {
            return Err(format!("text {place} is '{line}': an instruction would do (try --help)").into());
        }
    }
    assembled("text", &lines.join("\n"))
}

/// Arguments as lines. An instruction that a shell has taken apart at its blanks is put together again: what is one word and
/// begins no instruction goes on with the argument before.
fn joined(texts: &[String]) -> Vec<String> {
    let mut lines: Vec<String> = Vec::new();
    for text in texts {
        let goes_on = !text.is_empty() && !text.contains(char::is_whitespace) && !begins_any(text);
        match lines.last_mut() {
            Some(line) if goes_on => *line += &format!(" {text}"),
            _ => lines.push(text.clone()),
        }
    }
    lines
}
