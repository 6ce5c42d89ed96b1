//! How a command ends. The statuses are those of `./run`.

use crate::args::Args;
use crate::filter::Filter;
use crate::json::Json;
use crate::words::plain;
use plokamyr::Reply;
use std::io;

/// All is done, and two things are alike.
pub const DONE: u8 = 0;
/// A word, a walk or a title was refused; two images differ.
pub const REFUSED: u8 = 1;
/// An image was refused.
pub const IMAGE_REFUSED: u8 = 2;
/// Anything else, with a line on standard error.
pub const FAILED: u8 = 3;

/// The status of what a word or a walk was answered.
pub fn status_of(reply: Reply) -> u8 {
    if reply == Reply::Done {
        DONE
    } else {
        REFUSED
    }
}

/// What a command prints, and its exit status.
#[derive(Debug, PartialEq, Eq)]
pub struct Outcome {
    pub text: Vec<u8>,
    pub status: u8,
    /// What has all of that instead: it prints while it reads standard input, and then has a status.
    pub filter: Option<Filter>,
}

impl Outcome {
    pub fn new(text: impl Into<Vec<u8>>, status: u8) -> Outcome {
        Outcome { text: text.into(), status, filter: None }
    }

    /// JSON if that is asked for, else text.
    pub fn either(args: &Args, status: u8, json: impl FnOnce() -> Json, text: impl FnOnce() -> String) -> Outcome {
        Outcome::new(if args.has("json") { json().line() } else { text() }, status)
    }
}

/// What a command says on standard error in place of an answer, and its exit status.
#[derive(Debug, PartialEq, Eq)]
pub struct Failure {
    pub text: String,
    pub status: u8,
    /// What it answers instead if JSON is asked for.
    pub json: Option<Json>,
}

/// What the system says of an error, without the number that Rust adds.
pub fn why(error: &io::Error) -> String {
    let text = error.to_string();
    text.split(" (os error").next().unwrap_or("").to_string()
}

impl From<String> for Failure {
    /// One line, whatever was given.
    fn from(text: String) -> Failure {
        Failure { text: plain(&text), status: FAILED, json: None }
    }
}

impl From<&str> for Failure {
    fn from(text: &str) -> Failure {
        text.to_string().into()
    }
}
