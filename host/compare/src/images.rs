//! Images read: whole, cut, damaged, followed by other bytes.

use crate::boundary;
use crate::differences::{show_bytes, Differences, Outcome};
use crate::kind::{Forms, Kind};
use crate::lent::{byte, word, Lent};
use crate::seen::Seen;
use compare::damage::{self, Age, Damage, AGES, COUNTS};
use compare::instructions;
use compare::random::Random;
use compare::states::{self, LENGTHS};
use model::Reading;

/// An image, and the list lent for its words.
pub struct Image {
    bytes: Vec<u8>,
    list: Lent<u32>,
    places: usize,
}

const READ_KIND: u64 = 14;
const CUT_KIND: u64 = 15;
const DAMAGE_KIND: u64 = 16;
const BASE_KIND: u64 = 17;

impl Image {
    /// A list of fewer places than the words, as many, or more.
    fn new(random: &mut Random, bytes: Vec<u8>, words: usize) -> Image {
        let places = match random.below(8) {
            0 => 0,
            1 => words.saturating_sub(1),
            2 => words + 1,
            3 => words + random.index(40),
            4 => random.index(words + 1),
            _ => words,
        };
        Image { bytes, list: Lent::new(places, random, word), places }
    }
}

fn show(image: &Image) -> String {
    format!("a list of {} places, an image of {}", image.places, show_bytes(&image.bytes))
}

fn compare(image: &Image, seen: &mut Seen) -> Outcome {
    let lent = Lent::holding(&image.bytes, &mut Random::new(0, READ_KIND, 0), byte);
    let before = lent.clone();
    let (mut ours, mut theirs) = (image.list.clone(), image.list.clone());
    let library = boundary::read(lent.held(), ours.part());
    let second = model::read(&image.bytes, theirs.part());
    let mut differences = Differences::default();
    differences.field("reply", library.reply, second.reply);
    differences.field("count", library.count, second.count);
    differences.state(&library.state, &second.state);
    differences.lent("words", &ours, &theirs);
    differences.lent("image", &lent, &before);
    if library.reply == 0 {
        differences.counts(&library.state);
        write_again(image, &library, ours.held(), &mut differences);
    }
    seen.reply(second.reply);
    differences.outcome()
}

/// "Writing what was read gives the same bytes", for a new image; an old one gets FFR's section.
fn write_again(image: &Image, reading: &Reading, words: &[u32], differences: &mut Differences) {
    let random = &mut Random::new(1, READ_KIND, 0);
    let renewed = damage::renewed(&image.bytes);
    let mut written = Lent::new(renewed.len(), random, byte);
    let mut expected = written.clone();
    let words = words.get(..reading.count).unwrap_or_default();
    let answer = boundary::write(&reading.state, words, written.part());
    expected.part().copy_from_slice(&renewed);
    differences.field("reply to write of read", answer.reply, 0);
    differences.field("length of write of read", answer.length, renewed.len());
    differences.lent("image, write of read", &written, &expected);
}

/// Images of all lengths and numbers of words, each damaged in one way or not at all.
pub struct Reads;

impl Kind for Reads {
    type Input = Image;
    const NAME: &'static str = "reads";
    const REPLIES: &'static [u8] = &[0, 5, 6, 7, 8];
    const FORMS: Forms = Forms::None;
    const NOTES: &'static [&'static str] = &[
        "fewer places",
        "as many",
        "more",
        "without words",
        "of 4,096 words",
        "new",
        "old",
        "old of 4,096 words",
        "FFR not a run of ones",
        "counts not all 0",
        "counts not all 0, from an old image",
        "could be read as new, but old",
        "could be read as old, but new",
        "6 for FFR's count 0",
        "6 for FFR's count 2",
        "6 for FFR's count 3",
        "6 for FFR's count 5",
        "6 for FFR's count 2^32 - 1",
        "6 for another count of FFR",
        "6 for no FFR and no bytes of it",
        "6 for several FFRs and their bytes",
        "5 for a cut count of FFR",
        "5 for a cut FFR",
    ];

    fn numbers() -> impl Iterator<Item = u64> {
        0..100_000
    }

    fn make(seed: u64, number: u64) -> Image {
        let random = &mut Random::new(seed, READ_KIND, number);
        let (vl, age) = (random.pick(&LENGTHS), random.pick(&AGES));
        if vl > 128 && number % 50 == 2 {
            let bytes = damage::either_way(random, age, vl);
            return Image::new(random, bytes, 9);
        }
        let state = states::legal(random, vl);
        if number % 50 == 3 {
            let count = random.pick(&[0, 2, 3, 4, 5, 16]);
            return Image::new(random, damage::with_ffrs(&state, &[7; 5], count), 5);
        }
        let count = match number % 500 {
            0 => 4096,
            1 => 4000 + random.below(97),
            _ => random.below(30),
        };
        let words: Vec<u32> = (0..count).map(|_| random.next() as u32).collect();
        let whole = damage::image_of(age, &state, &words);
        let damage = if random.one_in(3) { Damage::None } else { damage::any(random, &whole, age, vl) };
        Image::new(random, damage::damaged(&whole, damage), words.len())
    }

    fn show(image: &Image) -> String {
        show(image)
    }

    fn compare(image: &Image, seen: &mut Seen) -> Outcome {
        let mut all = vec![0; 4096];
        let reading = model::read(&image.bytes, &mut all);
        if reading.reply == 0 {
            seen.note_if(image.places < reading.count, "fewer places");
            seen.note_if(image.places == reading.count, "as many");
            seen.note_if(image.places > reading.count, "more");
            seen.note_if(reading.count == 0, "without words");
            seen.note_if(reading.count == 4096, "of 4,096 words");
            note_age(seen, &image.bytes, &reading);
        } else {
            note_refused(seen, &image.bytes, reading.reply);
        }
        compare(image, seen)
    }
}

/// An image that was read: of which kind it is, and whether it would be read as one of the other kind too.
fn note_age(seen: &mut Seen, image: &[u8], reading: &Reading) {
    let old = damage::count_at_ffr(image) == Some(4);
    seen.note(if old { "old" } else { "new" });
    seen.note_if(old && reading.count == 4096, "old of 4,096 words");
    seen.note_if(!states::is_run(&reading.state.ffr), "FFR not a run of ones");
    let counts = reading.state.counts != [[0; 4]; 16];
    seen.note_if(counts, "counts not all 0");
    seen.note_if(counts && old, "counts not all 0, from an old image");
    let other = Damage::Count(damage::ffr_section(reading.state.vl).start, if old { 1 } else { 4 });
    if model::read(&damage::damaged(image, other), &mut [0; 4096]).reply == 0 {
        seen.note(if old { "could be read as new, but old" } else { "could be read as old, but new" });
    }
}

/// An image that was refused: whether that is for what stands at FFR's place, since all before it is good.
fn note_refused(seen: &mut Seen, image: &[u8], reply: u8) {
    let Some(&length) = image.get(4) else { return };
    let ffr = damage::ffr_section(128 * u64::from(length));
    // a good beginning is refused for its end alone
    let Some(beginning) = image.get(..ffr.start) else { return };
    if model::read(beginning, &mut []).reply != 5 {
        return;
    }
    note_ffrs(seen, image, reply);
    match (reply, damage::count_at_ffr(image)) {
        (5, None) => seen.note_if(image.len() > ffr.start, "5 for a cut count of FFR"),
        (5, Some(1)) => seen.note_if(image.len() < ffr.end, "5 for a cut FFR"),
        (6, Some(0)) => seen.note("6 for FFR's count 0"),
        (6, Some(2)) => seen.note("6 for FFR's count 2"),
        (6, Some(3)) => seen.note("6 for FFR's count 3"),
        (6, Some(5)) => seen.note("6 for FFR's count 5"),
        (6, Some(u32::MAX)) => seen.note("6 for FFR's count 2^32 - 1"),
        (6, Some(count)) => seen.note_if(count != 1 && count != 4, "6 for another count of FFR"),
        _ => {}
    }
}

/// Whether it would be read if FFR's section had this count by right, and its bytes were skipped.
fn note_ffrs(seen: &mut Seen, image: &[u8], reply: u8) {
    let ffr = damage::ffr_section(128 * u64::from(image[4]));
    let Some(count @ (0 | 2..=16)) = damage::count_at_ffr(image) else { return };
    let end = ffr.start + 4 + count as usize * (ffr.len() - 4);
    let Some(rest) = image.get(end..) else { return };
    let whole = model::read(&[&image[..ffr.start], rest].concat(), &mut [0; 4096]).reply == 0;
    seen.note_if(reply == 6 && whole && count == 0, "6 for no FFR and no bytes of it");
    seen.note_if(reply == 6 && whole && count > 1, "6 for several FFRs and their bytes");
}

/// Images for every cut and every byte damaged: of each length with 3, 0 and 17 words, then the shortest and the
/// longest with 4,096; first new ones, then old ones.
const BASES: u64 = 2 * NEW_BASES;
const NEW_BASES: u64 = 17;

/// An image has fewer bytes than this.
const BYTES: u64 = 1 << 15;

/// The kind of a base, its length and how many words it has.
fn base_shape(base: u64) -> (Age, u64, usize) {
    let age = AGES[(base / NEW_BASES) as usize];
    match base as usize % NEW_BASES as usize {
        15 => (age, 128, 4096),
        16 => (age, 2048, 4096),
        base => (age, LENGTHS[base % 5], [3, 0, 17][base / 5]),
    }
}

fn base_words(base: u64) -> usize {
    base_shape(base).2
}

fn base_length(base: u64) -> u64 {
    let (age, vl, words) = base_shape(base);
    damage::length(age, vl, words) as u64
}

fn base_image(seed: u64, base: u64) -> Vec<u8> {
    let random = &mut Random::new(seed, BASE_KIND, base);
    let (age, vl, count) = base_shape(base);
    let state = states::legal(random, vl);
    let words: Vec<u32> = match count {
        4096 => (0..count).map(|_| random.next() as u32).collect(),
        _ => (0..count).map(|_| instructions::any(random)).collect(),
    };
    let image = damage::image_of(age, &state, &words);
    assert_eq!(image.len() as u64, base_length(base), "document 01 and request K5 give an image's length");
    image
}

/// Every image of the bases cut at every byte: number = base · 2^15 + the byte.
pub struct Cuts;

impl Kind for Cuts {
    type Input = Image;
    const NAME: &'static str = "cuts";
    const REPLIES: &'static [u8] = &[5];
    const FORMS: Forms = Forms::None;
    const NOTES: &'static [&'static str] =
        &["cut after FFR's count 1", "cut after FFR's count 4", "cut in FFR's count"];

    fn numbers() -> impl Iterator<Item = u64> {
        (0..BASES).flat_map(|base| base * BYTES..base * BYTES + base_length(base))
    }

    fn make(seed: u64, number: u64) -> Image {
        let random = &mut Random::new(seed, CUT_KIND, number);
        let (base, end) = (number / BYTES, number % BYTES);
        let bytes = damage::damaged(&base_image(seed, base), Damage::Cut(end as usize));
        Image::new(random, bytes, base_words(base))
    }

    fn show(image: &Image) -> String {
        show(image)
    }

    fn compare(image: &Image, seen: &mut Seen) -> Outcome {
        let length = image.bytes.get(4).map_or(0, |&length| 128 * u64::from(length));
        let ffr = damage::ffr_section(length);
        match damage::count_at_ffr(&image.bytes) {
            Some(1) => seen.note("cut after FFR's count 1"),
            Some(_) => seen.note("cut after FFR's count 4"),
            None => seen.note_if(length > 0 && image.bytes.len() > ffr.start, "cut in FFR's count"),
        }
        compare(image, seen)
    }
}

/// Every byte of the bases with other values: number = (base · 2^15 + the byte) · 2^8 + what is added to it. Where that is 0,
/// what stands for the byte is the place in `COUNTS` of a count at FFR's place.
pub struct Damages;

impl Kind for Damages {
    type Input = Image;
    const NAME: &'static str = "damages";
    const REPLIES: &'static [u8] = &[0, 5, 6, 7, 8];
    const FORMS: Forms = Forms::None;
    const NOTES: &'static [&'static str] =
        &["read as new", "read as old", "6 with FFR's count 1", "6 with FFR's count 4", "6 with another count of FFR"];

    fn numbers() -> impl Iterator<Item = u64> {
        let counts = |base: u64| (0..COUNTS.len() as u64).map(move |count| (base * BYTES + count) * 256);
        let bytes = |base: u64| (0..base_length(base)).flat_map(move |at| damages_of(base, at));
        (0..BASES).flat_map(move |base| counts(base).chain(bytes(base)))
    }

    fn make(seed: u64, number: u64) -> Image {
        let random = &mut Random::new(seed, DAMAGE_KIND, number);
        let (base, at) = (number / 256 / BYTES, (number / 256 % BYTES) as usize);
        let image = base_image(seed, base);
        let damage = match number as u8 {
            0 => Damage::Count(damage::ffr_section(base_shape(base).1).start, COUNTS[at]),
            added => Damage::Set(at, image[at].wrapping_add(added)),
        };
        Image::new(random, damage::damaged(&image, damage), base_words(base))
    }

    fn show(image: &Image) -> String {
        show(image)
    }

    fn compare(image: &Image, seen: &mut Seen) -> Outcome {
        let reply = model::read(&image.bytes, &mut [0; 4096]).reply;
        match (reply, damage::count_at_ffr(&image.bytes)) {
            (0, Some(4)) => seen.note("read as old"),
            (0, _) => seen.note("read as new"),
            (6, Some(1)) => seen.note("6 with FFR's count 1"),
            (6, Some(4)) => seen.note("6 with FFR's count 4"),
            (6, Some(_)) => seen.note("6 with another count of FFR"),
            _ => {}
        }
        compare(image, seen)
    }
}

/// All 255 other values where a rule holds for the byte; else some, and two for the later words.
fn damages_of(base: u64, at: u64) -> Vec<u64> {
    let (age, vl, _) = base_shape(base);
    let ruled = damage::ruled(age, vl);
    let added: Vec<u64> = if ruled.iter().any(|range| range.contains(&(at as usize))) {
        (1..256).collect()
    } else if (at as usize) < ruled[3].end + 68 {
        vec![1, 2, 16, 85, 127, 128, 170, 255]
    } else {
        vec![1, 128]
    };
    added.into_iter().map(|added| (base * BYTES + at) * 256 + added).collect()
}
