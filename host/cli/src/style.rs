//! Colour, on a terminal alone, and how wide lines are.

use crate::terminal;
use std::env;
use std::io::IsTerminal;
use std::os::fd::AsRawFd;

/// Whether what is written is coloured, and how many columns there are for it.
#[derive(Clone, Copy, Debug)]
pub struct Style {
    pub colour: bool,
    /// None if nothing says how many, as where a file is written.
    pub columns: Option<usize>,
}

/// The most columns of prose: longer lines are hard to read.
const PROSE: usize = 100;

impl Style {
    pub const PLAIN: Style = Style { colour: false, columns: None };

    /// Colour if `stream` is a terminal that has it, and nobody asks for none (no-color.org). `COLUMNS` goes before what the
    /// terminal says of its width.
    pub fn of(stream: &(impl IsTerminal + AsRawFd)) -> Style {
        let asked_not = env::var_os("NO_COLOR").is_some_and(|value| !value.is_empty());
        let dumb = env::var_os("TERM").map_or(true, |term| term == "dumb");
        let asked = env::var("COLUMNS").ok().and_then(|text| text.parse().ok()).filter(|columns| *columns > 0);
        Style {
            colour: stream.is_terminal() && !asked_not && !dumb,
            columns: asked.or_else(|| terminal::columns(stream.as_raw_fd())),
        }
    }

    /// How many columns prose has.
    pub fn prose(self) -> usize {
        self.columns.map_or(PROSE, |columns| columns.min(PROSE))
    }

    pub fn green(self, text: &str) -> String {
        self.coded("32", text)
    }

    pub fn red(self, text: &str) -> String {
        self.coded("31", text)
    }

    pub fn dim(self, text: &str) -> String {
        self.coded("2", text)
    }

    fn coded(self, code: &str, text: &str) -> String {
        match self.colour && !text.is_empty() {
            true => format!("\x1b[{code}m{text}\x1b[0m"),
            false => text.to_string(),
        }
    }
}
