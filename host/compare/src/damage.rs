//! Images, and what can be wrong with them.

use crate::random::Random;
use model::{write, State};
use std::ops::Range;

/// An old image has no section for FFR.
#[derive(Clone, Copy, PartialEq, Eq, Hash, Debug)]
pub enum Age {
    New,
    Old,
}

pub const AGES: [Age; 2] = [Age::New, Age::Old];

#[derive(Clone, Copy, PartialEq, Eq, Debug)]
pub enum Damage {
    None,
    /// Ends before this byte.
    Cut(usize),
    /// This byte has another value.
    Set(usize, u8),
    /// The count at this byte has another value.
    Count(usize, u32),
    /// So many bytes of this value follow.
    Append(usize, u8),
}

/// The image of a legal state, as the second program writes it.
pub fn image(state: &State, words: &[u32]) -> Vec<u8> {
    let mut image = vec![0; 1000 + 4 * words.len()];
    let written = write(state, words, &mut image);
    assert_eq!(written.reply, 0, "the second program refuses to write a legal state");
    image.truncate(written.length);
    image
}

/// An image of either kind. What FFR holds has no place in an old one.
pub fn image_of(age: Age, state: &State, words: &[u32]) -> Vec<u8> {
    let image = image(state, words);
    match age {
        Age::New => image,
        Age::Old => {
            let ffr = ffr_section(state.vl);
            [&image[..ffr.start], &image[ffr.end..]].concat()
        }
    }
}

/// An image whose section of FFR has another count, and as many times its bytes: but for that it is whole.
pub fn with_ffrs(state: &State, words: &[u32], count: u32) -> Vec<u8> {
    let image = image(state, words);
    let ffr = ffr_section(state.vl);
    let bytes = image[ffr.start + 4..ffr.end].repeat(count as usize);
    [&image[..ffr.start], &count.to_le_bytes(), &bytes, &image[ffr.end..]].concat()
}

/// The length of an image, by document 01 and request K5.
pub fn length(age: Age, vl: u64, words: usize) -> usize {
    let old = 275 + vl as usize / 4 + 4 * words;
    match age {
        Age::New => old + ffr_section(vl).len(),
        Age::Old => old,
    }
}

/// Where FFR's count and bytes stand in a new image. In an old one the count of the flags begins at the same byte.
pub fn ffr_section(vl: u64) -> Range<usize> {
    let vl = vl as usize;
    let start = 263 + vl / 4;
    start..start + 4 + vl / 64
}

/// The count at FFR's place, by which an image is new or old; none if it has no such place.
pub fn count_at_ffr(image: &[u8]) -> Option<u32> {
    let at = ffr_section(128 * u64::from(*image.get(4)?)).start;
    let count = image.get(at..at + 4)?;
    Some(u32::from_le_bytes([count[0], count[1], count[2], count[3]]))
}

/// What an image that is read comes back as: an old one gets FFR's section, with no bit true.
pub fn renewed(image: &[u8]) -> Vec<u8> {
    let ffr = ffr_section(128 * u64::from(image[4]));
    if count_at_ffr(image) != Some(4) {
        return image.to_vec();
    }
    let mut section = vec![0; ffr.len()];
    section[0] = 1;
    [&image[..ffr.start], &section, &image[ffr.start..]].concat()
}

pub fn damaged(image: &[u8], damage: Damage) -> Vec<u8> {
    let mut image = image.to_vec();
    match damage {
        Damage::None => {}
        Damage::Cut(end) => image.truncate(end),
        Damage::Set(at, value) => image[at] = value,
        Damage::Count(at, count) => image[at..at + 4].copy_from_slice(&count.to_le_bytes()),
        Damage::Append(count, value) => image.extend(vec![value; count]),
    }
    image
}

/// The bytes of counts, settings and flags.
pub fn ruled(age: Age, vl: u64) -> [Range<usize>; 4] {
    let ffr = ffr_section(vl);
    let flags = if age == Age::New { ffr.end } else { ffr.start };
    [0..11, 259..263, ffr.start..ffr.start + 4, flags..flags + 12]
}

/// Counts at FFR's place: an old image's, a new one's, those beside them, and some whose lowest byte or highest bytes are
/// those of one.
pub const COUNTS: [u32; 12] = [0, 1, 2, 3, 4, 5, 0x101, 0x104, 0x1_0001, 0x400_0000, (1 << 31) + 4, u32::MAX];

/// One damage, often of a byte that a rule holds for, or of the count at FFR's place.
pub fn any(random: &mut Random, image: &[u8], age: Age, vl: u64) -> Damage {
    match random.below(9) {
        0 => Damage::None,
        1 | 2 => Damage::Cut(random.index(image.len())),
        3 => Damage::Append(1 + random.index(8), random.next() as u8),
        4 => Damage::Set(random.index(image.len()), random.next() as u8),
        5 => Damage::Count(ffr_section(vl).start, random.pick(&COUNTS)),
        _ => {
            let ranges = ruled(age, vl);
            let range = &ranges[random.index(ranges.len())];
            let at = range.start + random.index(range.len());
            let value = if random.one_in(2) { random.below(20) } else { random.next() };
            Damage::Set(at, value as u8)
        }
    }
}

/// An image that can be read either way, by the count at FFR's place alone, and is of this kind. None at 128 bits: what an old
/// one would have as flags has FFR's two bytes and then the 4 of the flags' count, which is no flag.
pub fn either_way(random: &mut Random, age: Age, vl: u64) -> Vec<u8> {
    let state = crate::states::legal(random, vl);
    let inside = (vl as usize / 64).saturating_sub(8) / 4; // words of the old one that are bytes of FFR in the new one
    let rest = if vl == 256 { 2 } else { random.below(6) as u32 };
    let flags = random.next() as u32 & 0x0101_0101;
    // at 256 bits FFR is as long as the flags, so that the old one's count of words is the new one's count of flags
    let counted = if vl == 256 { vec![flags, rest] } else { vec![4, flags, rest] };
    let drawn = (0..inside + rest as usize).map(|_| random.next() as u32);
    let mut words: Vec<u32> = drawn.collect();
    words.splice(inside..inside, counted);
    let count = if age == Age::New { 1 } else { 4 };
    damaged(&image_of(Age::Old, &state, &words), Damage::Count(ffr_section(vl).start, count))
}
