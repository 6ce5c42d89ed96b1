//! What the program writes for an image.

use crate::image::sections;
use crate::reply::DONE;
use crate::state::{Flags, State};
use crate::step::step;

/// The whole text.
pub fn text(image: &[u8]) -> Vec<u8> {
    lines(image).concat().into_bytes()
}

/// The text in a buffer, and how many bytes it took.
/// A line that has no room is left out whole; a shorter one after it may still fit.
pub fn text_in(image: &[u8], buffer: &mut [u8]) -> usize {
    let mut length = 0;
    for line in lines(image) {
        let end = length + line.len();
        if end <= buffer.len() {
            buffer[length..end].copy_from_slice(line.as_bytes());
            length = end;
        }
    }
    length
}

fn lines(image: &[u8]) -> Vec<String> {
    match sections(image) {
        Err(reply) => vec![format!("image {reply}\n")],
        Ok((state, words)) => step_lines(state, &words),
    }
}

/// "Steps its words until one is refused": a line for each, the refused one too, and one that counts the words done.
fn step_lines(mut state: State, words: &[u32]) -> Vec<String> {
    let mut lines = Vec::new();
    let mut done = 0;
    for (number, &word) in words.iter().enumerate() {
        let reply = step(&mut state, word);
        lines.push(format!("{number} {word:08x} {reply} {}\n", nzcv(state.flags)));
        if reply != DONE {
            break;
        }
        done += 1;
    }
    lines.push(format!("end {done}\n"));
    lines
}

fn nzcv(flags: Flags) -> String {
    [flags.n, flags.z, flags.c, flags.v].map(|flag| if flag { '1' } else { '0' }).iter().collect()
}
