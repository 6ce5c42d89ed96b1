//! The image: six sections, each after its 4-byte little-endian count. An old image has five: it is without FFR's.

use crate::reply::*;
use crate::state::{Flags, State};

const SETTINGS: u32 = 3;
const X: u32 = 31;
const P: u32 = 16;
const FFR: u32 = 1;
const FLAGS: u32 = 4;
const WORDS_MAX: usize = 4096;

#[derive(Clone, PartialEq, Eq, Debug)]
pub struct Reading {
    pub reply: u8,
    pub count: usize,
    pub state: State,
}

#[derive(Clone, PartialEq, Eq, Debug)]
pub struct Written {
    pub reply: u8,
    pub length: usize,
}

/// Reads an image, and puts its words at the front of `words`.
pub fn read(image: &[u8], words: &mut [u32]) -> Reading {
    let refused = |reply| Reading { reply, count: 0, state: State::zero() };
    match sections(image) {
        Err(reply) => refused(reply),
        // "One shorter than their count gets 8, after 7".
        Ok((_, read)) if words.len() < read.len() => refused(BUFFER_TOO_SMALL),
        Ok((state, read)) => {
            words[..read.len()].copy_from_slice(&read);
            Reading { reply: DONE, count: read.len(), state }
        }
    }
}

/// Writes the image of a state and words at the front of `image`.
/// "Image writer: 4, then a word count above 4,096 (6), then 8".
pub fn write(state: &State, words: &[u32], image: &mut [u8]) -> Written {
    let refused = |reply| Written { reply, length: 0 };
    if !state.legal() {
        return refused(ILLEGAL_STATE);
    }
    if words.len() > WORDS_MAX {
        return refused(NOT_ALLOWED);
    }
    let bytes = image_of(state, words);
    if image.len() < bytes.len() {
        return refused(BUFFER_TOO_SMALL);
    }
    image[..bytes.len()].copy_from_slice(&bytes);
    Written { reply: DONE, length: bytes.len() }
}

/// The state and the words of a whole image, or the reply of the first section at fault.
pub fn sections(image: &[u8]) -> Result<(State, Vec<u32>), u8> {
    let mut reader = Reader { rest: image };
    let mut state = State::zero();
    read_settings(&mut reader, &mut state)?;
    read_x(&mut reader, &mut state)?;
    read_p(&mut reader, &mut state)?;
    read_ffr(&mut reader, &mut state)?;
    read_flags(&mut reader, &mut state)?;
    let words = read_words(&mut reader)?;
    if reader.rest.is_empty() {
        // "The image doesn't carry them; the reader works them out."
        Ok((state.counted(), words))
    } else {
        Err(TRAILING_BYTES)
    }
}

/// The part of an image that is still to be read.
struct Reader<'a> {
    rest: &'a [u8],
}

impl<'a> Reader<'a> {
    fn take(&mut self, length: usize) -> Result<&'a [u8], u8> {
        if self.rest.len() < length {
            return Err(IMAGE_CUT);
        }
        let (taken, rest) = self.rest.split_at(length);
        self.rest = rest;
        Ok(taken)
    }

    fn count(&mut self) -> Result<u32, u8> {
        Ok(little_endian(self.take(4)?) as u32)
    }

    /// A section's content, of `length` bytes, that must have the count `expected` before it.
    fn section(&mut self, expected: u32, length: usize) -> Result<&'a [u8], u8> {
        if self.count()? != expected {
            return Err(NOT_ALLOWED);
        }
        self.take(length)
    }
}

fn little_endian(bytes: &[u8]) -> u64 {
    let mut number = 0;
    for (i, &byte) in bytes.iter().enumerate() {
        number |= u64::from(byte) << (8 * i);
    }
    number
}

fn truth(byte: u8) -> Result<bool, u8> {
    match byte {
        0 => Ok(false),
        1 => Ok(true),
        _ => Err(NOT_ALLOWED),
    }
}

fn read_settings(reader: &mut Reader, state: &mut State) -> Result<(), u8> {
    let content = reader.section(SETTINGS, 3)?;
    let (length, level, access) = (content[0], content[1], content[2]);
    if !matches!(length, 1 | 2 | 4 | 8 | 16) || level > 3 {
        return Err(NOT_ALLOWED);
    }
    state.vl = 128 * u64::from(length);
    state.level = level;
    state.access = truth(access)?;
    Ok(())
}

fn read_x(reader: &mut Reader, state: &mut State) -> Result<(), u8> {
    let content = reader.section(X, 31 * 8)?;
    for (x, bytes) in state.x.iter_mut().zip(content.chunks(8)) {
        *x = little_endian(bytes);
    }
    Ok(())
}

/// VL/64 bytes are PL bits: an image has no room for a bit at or above PL.
fn read_p(reader: &mut Reader, state: &mut State) -> Result<(), u8> {
    let each = state.pl() / 8;
    let content = reader.section(P, 16 * each)?;
    for (predicate, bytes) in state.p.iter_mut().zip(content.chunks(each)) {
        for (word, part) in predicate.iter_mut().zip(bytes.chunks(8)) {
            *word = little_endian(part);
        }
    }
    Ok(())
}

/// "An image where the count there is 4 is an old one and reads with FFR all false; any other count is 6." That 4 is then the
/// count of the flags, so that it is looked at here and read there.
fn read_ffr(reader: &mut Reader, state: &mut State) -> Result<(), u8> {
    let count = Reader { rest: reader.rest }.count()?;
    if count == FLAGS {
        state.ffr = [0; 4];
        return Ok(());
    }
    let content = reader.section(FFR, state.pl() / 8)?;
    for (word, part) in state.ffr.iter_mut().zip(content.chunks(8)) {
        *word = little_endian(part);
    }
    Ok(())
}

fn read_flags(reader: &mut Reader, state: &mut State) -> Result<(), u8> {
    let content = reader.section(FLAGS, 4)?;
    let (n, z, c, v) = (truth(content[0])?, truth(content[1])?, truth(content[2])?, truth(content[3])?);
    state.flags = Flags { n, z, c, v };
    Ok(())
}

fn read_words(reader: &mut Reader) -> Result<Vec<u32>, u8> {
    let count = reader.count()? as usize;
    if count > WORDS_MAX {
        return Err(NOT_ALLOWED);
    }
    let content = reader.take(4 * count)?;
    Ok(content.chunks(4).map(|bytes| little_endian(bytes) as u32).collect())
}

/// The image of a legal state: "the writer writes the new kind only", and no counts.
fn image_of(state: &State, words: &[u32]) -> Vec<u8> {
    let mut image = Vec::new();
    image.extend(SETTINGS.to_le_bytes());
    image.extend([(state.vl / 128) as u8, state.level, u8::from(state.access)]);
    image.extend(X.to_le_bytes());
    for x in state.x {
        image.extend(x.to_le_bytes());
    }
    image.extend(P.to_le_bytes());
    for predicate in &state.p {
        image.extend(predicate_bytes(state, predicate));
    }
    image.extend(FFR.to_le_bytes());
    image.extend(predicate_bytes(state, &state.ffr));
    image.extend(FLAGS.to_le_bytes());
    image.extend([state.flags.n, state.flags.z, state.flags.c, state.flags.v].map(u8::from));
    image.extend((words.len() as u32).to_le_bytes());
    for word in words {
        image.extend(word.to_le_bytes());
    }
    image
}

/// VL/64 bytes, "lowest bits first".
fn predicate_bytes(state: &State, predicate: &[u64; 4]) -> Vec<u8> {
    predicate.iter().flat_map(|word| word.to_le_bytes()).take(state.pl() / 8).collect()
}
