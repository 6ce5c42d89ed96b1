//! Writes the answer to standard output, or why there is none to standard error.

mod descriptors;

use cli::{answer, why, Failure, Filter, Log, Outcome, Style, Trouble};
use std::env::args_os;
use std::ffi::OsString;
use std::io::{self, ErrorKind, IsTerminal, Write};
use std::process::ExitCode;

/// What a shell tells of a command that SIGPIPE has ended.
const READER_GONE: u8 = 141;

fn main() -> ExitCode {
    let status = match outcome() {
        Ok(outcome) => deliver(&outcome),
        Err(failure) => say(&failure),
    };
    ExitCode::from(status)
}

fn outcome() -> Result<Outcome, Failure> {
    if descriptors::output_was_closed() {
        return Err("standard output is closed".into());
    }
    answer(&given()?, Style::of(&io::stdout()))
}

fn given() -> Result<Vec<String>, Failure> {
    let not_text = |text: OsString| format!("'{}' is not UTF-8: another name would do", text.to_string_lossy()).into();
    args_os().skip(1).map(|text| text.into_string().map_err(not_text)).collect()
}

/// If the reader goes away early nothing is said, as with any command.
fn deliver(outcome: &Outcome) -> u8 {
    match outcome.filter.map_or_else(|| print(outcome), filter) {
        Ok(status) => status,
        Err(Trouble::Output(error)) if error.kind() == ErrorKind::BrokenPipe => READER_GONE,
        Err(Trouble::Output(error)) => say(&format!("standard output cannot be written: {}", why(&error)).into()),
        Err(Trouble::Input(error)) => say(&format!("fold: standard input cannot be read: {}", why(&error)).into()),
    }
}

fn print(outcome: &Outcome) -> Result<u8, Trouble> {
    let mut out = io::stdout().lock();
    let written = out.write_all(&outcome.text).and_then(|()| out.flush());
    written.map(|()| outcome.status).map_err(Trouble::Output)
}

/// Progress has a line of the terminal to itself: there is none where titles are typed or shown.
fn filter(filter: Filter) -> Result<u8, Trouble> {
    let (input, out, mut err) = (io::stdin(), io::stdout(), io::stderr());
    let style = Style::of(&err);
    let progress = err.is_terminal() && !input.is_terminal() && !out.is_terminal();
    filter.run(&mut input.lock(), &mut out.lock(), &mut Log::new(&mut err, style, progress))
}

/// A closed standard error changes no exit status.
fn say(failure: &Failure) -> u8 {
    let _ = writeln!(io::stderr(), "{} {}", Style::of(&io::stderr()).red("plokamyr:"), failure.text);
    failure.status
}
