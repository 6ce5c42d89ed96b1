//! Images in files.

use crate::failure::{why, Failure, IMAGE_REFUSED};
use crate::faults::fault;
use crate::json::Json;
use plokamyr::{read, Reply, State, WORDS_MAX};
use std::fs::File;
use std::io::{self, Read};

/// An image that the library accepts.
#[derive(Clone, Debug)]
pub struct Image {
    pub state: State,
    pub words: Vec<u32>,
}

/// More than any image has, as in `./run`.
pub const MOST: usize = 1 << 20;

/// The bytes of a file, or of standard input for `-`; no more of them than tell what an image is answered.
pub fn bytes(path: &str) -> Result<Vec<u8>, Failure> {
    contents(path, MOST)
}

/// The bytes of a file, or of standard input for `-`, at most so many.
pub fn contents(path: &str, most: usize) -> Result<Vec<u8>, Failure> {
    let mut bytes = Vec::new();
    let read = match path {
        "-" => io::stdin().lock().take(most as u64).read_to_end(&mut bytes),
        _ => File::open(path).and_then(|file| file.take(most as u64).read_to_end(&mut bytes)),
    };
    match read {
        Ok(_) => Ok(bytes),
        Err(error) => Err(format!("{} cannot be read: {}", named(path), why(&error)).into()),
    }
}

/// A file as messages name it.
pub fn named(path: &str) -> String {
    match path {
        "-" => "standard input".to_string(),
        "" => "''".to_string(),
        _ => path.to_string(),
    }
}

/// The text of some bytes, without a byte order mark. Bytes that are no UTF-8 are told by a character that nothing has.
pub fn text(bytes: &[u8]) -> String {
    let text = String::from_utf8_lossy(bytes);
    text.strip_prefix('\u{feff}').unwrap_or(&text).to_string()
}

/// Reads an image; a refusal is told with its place.
pub fn load(path: &str) -> Result<Image, Failure> {
    accepted(path, &bytes(path)?)
}

/// The image of a file's bytes.
pub fn accepted(path: &str, bytes: &[u8]) -> Result<Image, Failure> {
    image(bytes).map_err(|reply| {
        let fault = fault(bytes);
        let place = fault.as_ref().map_or(reply.to_string(), ToString::to_string);
        let json = fault.map(|fault| fault.json(&[("file", Json::text(path))]));
        Failure { status: IMAGE_REFUSED, json, ..format!("{} is refused: {place}", named(path)).into() }
    })
}

/// The image of some bytes, or the library's refusal.
pub fn image(bytes: &[u8]) -> Result<Image, Reply> {
    let mut words = vec![0; WORDS_MAX];
    let reading = read(bytes, &mut words);
    match reading.reply {
        Reply::Done => {
            words.truncate(reading.count);
            Ok(Image { state: reading.state, words })
        }
        refusal => Err(refusal),
    }
}
