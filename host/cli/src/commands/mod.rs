//! A module for each command: its arguments, and what it prints.

pub mod asm;
pub mod diff;
pub mod dis;
pub mod explain;
pub mod fold;
pub mod new;
pub mod run;
pub mod show;
pub mod walk;

use crate::args::Args;
use crate::failure::Failure;
use crate::help::dashed;
use crate::lanes::size_of;
use crate::words::natural;

/// The one operand of a command, called `what`.
fn only<'a>(args: &'a Args, what: &str) -> Result<&'a str, Failure> {
    match args.operands.as_slice() {
        [operand] => Ok(operand),
        [] => Err(format!("{what} is missing (try --help)").into()),
        [_, second, ..] => Err(format!("one {what} is taken, and '{second}' is a second one (try --help)").into()),
    }
}

/// The size that an option gives, bytes without it.
fn size(args: &Args) -> Result<u32, Failure> {
    let letter = args.value("size").unwrap_or("b");
    size_of(letter).ok_or_else(|| format!("--size is '{letter}': b, h, s or d would do").into())
}

/// The number of a register, with its letter or without; 31 for `xzr`.
fn register(text: &str, letter: char) -> Option<u64> {
    if letter == 'x' && text.eq_ignore_ascii_case("xzr") {
        return Some(31);
    }
    natural(text.strip_prefix([letter, letter.to_ascii_uppercase()]).unwrap_or(text))
}

/// The number that an option gives; `what` says what would do.
fn number(args: &Args, key: &str, what: &str) -> Result<Option<u64>, Failure> {
    let wrong = |text| format!("{} is '{text}': {what} would do", dashed(key)).into();
    let read = |text| natural(text).ok_or_else(|| wrong(text));
    args.value(key).map(read).transpose()
}
