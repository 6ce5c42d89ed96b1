use crate::{ffi, Reply, State};

/// What [`walk`] answers: `count` instructions were executed, `visited` positions stand at the front of the list, and
/// `state` is what they left. For a refusal other than 12: 0, 0 and the given state.
#[derive(Clone, Debug, PartialEq, Eq)]
#[non_exhaustive]
#[must_use]
pub struct Walked {
    pub reply: Reply,
    pub count: u64,
    pub visited: usize,
    pub state: State,
}

/// PFALSE Pk; then WHILELO Pd from Xn to Xm, PNEXT Pk through Pd, INCP Xn by Pd, repeated until no lane is left.
/// `size` is 0 to 3 for B, H, S, D. Each position visited goes to the next place of `list`; other places stay.
///
/// With D = Xm - Xn (0 if Xn is at or above Xm), E elements in a vector and R = D / E rounded up, the walk ends exactly
/// if `budget` is at least D + 3R + 2. Refusals, the first that applies: 4, 10, 2 (level 0), 3, 11, 12.
///
/// ```
/// use plokamyr::{walk, Reply, State};
///
/// let mut state = State::new(128, 1);
/// state.x[0] = 10;
/// state.x[1] = 13;
/// let mut list = [0; 4];
/// let walked = walk(&state, 0, 0, 1, 0, 1, &mut list, 100);
/// assert_eq!((walked.reply, walked.count, walked.visited), (Reply::Done, 3 + 3 + 2, 3));
/// assert_eq!(list, [10, 11, 12, 0]);
/// ```
#[allow(clippy::too_many_arguments)] // as in C
pub fn walk(state: &State, size: u32, n: u32, m: u32, d: u32, k: u32, list: &mut [u64], budget: u64) -> Walked {
    let route = ffi::Route { size, n, m, d, k };
    let ffi::Walked { reply, count, visited, state } = ffi::walk(state, route, list, budget);
    let reply = Reply::from_number(reply);
    Walked { reply, count, visited, state }
}

/// The most units that a title has.
pub const TITLE_MAX: usize = 4096;

/// Folds a title where it stands: a walk of halfwords lists the positions of its units, and the unit at each is folded, once.
/// A to Z become small. Of the letters with accents in Latin-1 ÀÁÂÃÄÅ and àáâãäå become a, Çç c, ÈÉÊË and èéêë e, ÌÍÎÏ and
/// ìíîï i, Ññ n, ÒÓÔÕÖ and òóôõö o, ÙÚÛÜ and ùúûü u, Ýýÿ y. All else stays, and so does every unit from 256 on: what was
/// UTF-16 still is.
///
/// The title comes out the same at every vector length, `vl`, and a second folding changes nothing. Titles do not depend on
/// each other.
///
/// Refusals, which leave the title as it was, the first that applies: 4 (`vl` is none of the five), 11 (more than
/// [`TITLE_MAX`] units).
///
/// ```
/// use plokamyr::{fold, Reply, TITLE_MAX};
///
/// let mut title: Vec<u16> = "Ça Ira, Œuvre Nº 7".encode_utf16().collect();
/// assert_eq!(fold(&mut title, 512), Reply::Done);
/// assert_eq!(String::from_utf16_lossy(&title), "ca ira, Œuvre nº 7");
/// assert_eq!(fold(&mut title, 100), Reply::IllegalState);
/// assert_eq!(fold(&mut [0x41; TITLE_MAX + 1], 512), Reply::ListTooShort);
/// ```
pub fn fold(title: &mut [u16], vl: u64) -> Reply {
    ffi::fold(title, vl)
}

/// The most words that an image holds.
pub const WORDS_MAX: usize = 4096;
/// The most bytes that an image has.
pub const IMAGE_MAX: usize = 17207;
/// Room for the text of any image, in bytes.
pub const TEXT_MAX: usize = 86026;

/// What [`read`] answers: `count` words stand at the front of the list.
/// For a refusal: 0, and a state of `vl` 128 with all else zero.
#[derive(Clone, Debug, PartialEq, Eq)]
#[non_exhaustive]
#[must_use]
pub struct Reading {
    pub reply: Reply,
    pub count: usize,
    pub state: State,
}

/// Reads an image, and puts its words at the front of `words`; other places stay. An image has no counts: those of the state
/// are worked out. One of the older kind, without FFR, gives one that is all false.
/// Refusals: 5 and 6 by the first section at fault, then 7, then 8.
///
/// ```
/// use plokamyr::{read, write, Reply, State, IMAGE_MAX, WORDS_MAX};
///
/// let (mut image, mut words) = ([0; IMAGE_MAX], [0; WORDS_MAX]);
/// let length = write(&State::new(256, 2), &[7, 8], &mut image).length;
/// let reading = read(&image[..length], &mut words);
/// assert_eq!((reading.reply, reading.count, &words[..2]), (Reply::Done, 2, &[7, 8][..]));
/// assert_eq!(reading.state, State::new(256, 2));
/// ```
pub fn read(image: &[u8], words: &mut [u32]) -> Reading {
    let ffi::Reading { reply, count, state } = ffi::read(image, words);
    let reply = Reply::from_number(reply);
    Reading { reply, count, state }
}

/// What [`write()`] answers: `length` bytes were written; for a refusal 0.
#[derive(Clone, Copy, Debug, PartialEq, Eq)]
#[non_exhaustive]
#[must_use]
pub struct Written {
    pub reply: Reply,
    pub length: usize,
}

/// Writes the image of a state, with its FFR and without its counts, and of words at the front of `image`; other bytes stay.
/// Refusals: 4, then 6 (more than 4,096 words), then 8.
///
/// ```
/// use plokamyr::{write, Reply, State};
///
/// let written = write(&State::new(128, 1), &[], &mut [0; 400]);
/// assert_eq!((written.reply, written.length), (Reply::Done, 313));
/// assert_eq!(write(&State::new(128, 1), &[], &mut [0; 312]).reply, Reply::BufferTooSmall);
/// ```
pub fn write(state: &State, words: &[u32], image: &mut [u8]) -> Written {
    let ffi::Written { reply, length } = ffi::write(state, words, image);
    let reply = Reply::from_number(reply);
    Written { reply, length }
}

/// What the program prints for an image: a line for each word stepped and `end`, or `image` and the reply alone.
///
/// ```
/// assert_eq!(plokamyr::text(b"too short"), b"image 6\n");
/// ```
pub fn text(image: &[u8]) -> Vec<u8> {
    let mut text = vec![0; TEXT_MAX];
    let length = text_in(image, &mut text);
    text.truncate(length);
    text
}

/// Writes the [`text`] of an image at the front of `text` and answers how many bytes that took.
/// A line that has no room is left out whole.
///
/// ```
/// let mut text = [0; 10];
/// let length = plokamyr::text_in(&[], &mut text);
/// assert_eq!(&text[..length], b"image 5\n");
/// ```
pub fn text_in(image: &[u8], text: &mut [u8]) -> usize {
    ffi::text(image, text)
}
