//! Where an image is at fault: the section, the part, the byte, and what is allowed there.
//!
//! Which values are allowed only the library says: it is given images that end with the count or the section in question. Known
//! here is the layout: the order of the sections, the names and widths of their parts, and that a cut comes before a value.

use crate::image::MOST;
use crate::json::Json;
use crate::words::{grouped, numbers, runs};
use plokamyr::{read, write, Reply, State, IMAGE_MAX, WORDS_MAX};
use std::fmt;

/// The part that is a section's count.
pub const COUNT: &str = "count";
const COUNT_BYTES: usize = 4;

/// The first fault of an image.
#[derive(Clone, Debug, PartialEq, Eq)]
pub struct Fault {
    /// What the library answers.
    pub reply: Reply,
    /// None if what is found here does not agree with the reply, as with a library that is newer than this program.
    pub place: Option<Place>,
}

#[derive(Clone, Debug, PartialEq, Eq)]
pub struct Place {
    /// `settings`, `X`, `P`, `FFR`, `flags` or `words`; `FFR or flags` if the count after P does not tell which; `end` after them.
    pub section: &'static str,
    /// [`COUNT`], or such as `VL/128`, `X3`, `P7`, `FFR`, `N`, `word 12`; `trailing bytes` at the end.
    pub part: String,
    /// The first byte at fault; for a cut the length of the image.
    pub offset: usize,
    pub found: Found,
}

#[derive(Clone, Debug, PartialEq, Eq)]
pub enum Found {
    /// The image ends after `present` bytes of the part. `missing` more are needed to the end of the count or, past it, of the
    /// section; `at_least` unless the image can end there.
    Cut { present: usize, missing: usize, at_least: bool },
    /// The value of one byte, or of the four of a count, and all that the library allows there, the least first.
    NotAllowed { value: u32, bytes: usize, allowed: Vec<u32> },
    /// So many bytes stand after the last section; `at_least` if not all of the file was read.
    Trailing { bytes: usize, at_least: bool },
}

/// The first fault of an image that the library refuses; none if it is accepted.
pub fn fault(image: &[u8]) -> Option<Fault> {
    fault_by(image, Trial::allowed)
}

/// How to find out what is allowed. For a count that takes thousands of reads, which tests of many images leave out.
type Ask = fn(Trial) -> Vec<u32>;

fn fault_by(image: &[u8], ask: Ask) -> Option<Fault> {
    let reply = read(image, &mut [0; WORDS_MAX]).reply;
    if reply == Reply::Done {
        return None;
    }
    let place = Search { image, ask }.place().filter(|place| place.reply() == reply);
    Some(Fault { reply, place })
}

/// Whether a count or a byte is not allowed. The list may be empty: that it is too short is the last thing looked for.
fn is_refused(image: &[u8]) -> bool {
    read(image, &mut []).reply == Reply::NotAllowed
}

fn count(image: &[u8], at: usize) -> Option<u32> {
    let bytes = image.get(at..at + COUNT_BYTES)?;
    bytes.try_into().ok().map(u32::from_le_bytes)
}

/// A section's parts: their names, or what their numbers follow, and the bytes of each; none for a predicate's.
#[derive(Clone, Copy, PartialEq)]
struct Section {
    name: &'static str,
    parts: &'static [&'static str],
    numbered: &'static str,
    width: Option<usize>,
}

const SETTINGS: Section =
    Section { name: "settings", parts: &["VL/128", "level", "access"], numbered: "setting ", width: Some(1) };
const X: Section = Section { name: "X", parts: &[], numbered: "X", width: Some(8) };
const P: Section = Section { name: "P", parts: &[], numbered: "P", width: None };
const FFR: Section = Section { name: "FFR", parts: &["FFR"], numbered: "FFR ", width: None };
const FLAGS: Section = Section { name: "flags", parts: &["N", "Z", "C", "V"], numbered: "flag ", width: Some(1) };
const WORDS: Section = Section { name: "words", parts: &[], numbered: "word ", width: Some(4) };
const SECTIONS: [Section; 6] = [SETTINGS, X, P, FFR, FLAGS, WORDS];

impl Section {
    fn part(self, number: usize) -> String {
        self.parts.get(number).map_or_else(|| format!("{}{number}", self.numbered), |name| name.to_string())
    }

    fn width(self, vl: u64) -> usize {
        self.width.unwrap_or(vl as usize / 64)
    }

    /// The name if the count is at fault. After P that is FFR's or, in the older kind of image, that of the flags.
    fn name_by_count(self) -> &'static str {
        if self == FFR {
            return "FFR or flags";
        }
        self.name
    }

    /// The section, with its count, as the library writes it, so that all of it is allowed; none at a VL that is not.
    fn written(self, vl: u64) -> Option<Vec<u8>> {
        let mut image = vec![0; IMAGE_MAX];
        let length = write(&State::new(vl, 0), &[], &mut image).length;
        let mut rest = &image[..length];
        for section in SECTIONS {
            let bytes = COUNT_BYTES + count(rest, 0)? as usize * section.width(vl);
            if section == self {
                return rest.get(..bytes).map(<[u8]>::to_vec);
            }
            rest = rest.get(bytes..)?;
        }
        None
    }
}

/// An image that ends with the count or the section in question. All of it is allowed, but maybe for the value at `offset`.
struct Trial {
    image: Vec<u8>,
    offset: usize,
    bytes: usize,
}

impl Trial {
    fn allows(&mut self, value: u32) -> bool {
        self.image[self.offset..][..self.bytes].copy_from_slice(&value.to_le_bytes()[..self.bytes]);
        !is_refused(&self.image)
    }

    fn allowed(mut self) -> Vec<u32> {
        let last = if self.bytes == 1 { u8::MAX.into() } else { WORDS_MAX as u32 + 1 }; // the words have the highest count
        (0..=last).filter(|value| self.allows(*value)).collect()
    }
}

/// Goes through the sections in the order in which the library looks for faults.
struct Search<'a> {
    image: &'a [u8],
    ask: Ask,
}

impl Search<'_> {
    fn place(&self) -> Option<Place> {
        let mut at = 0;
        for section in SECTIONS {
            if section == FFR && self.is_older(at) {
                continue;
            }
            match self.end(section, at) {
                Ok(end) => at = end,
                Err(place) => return place,
            }
        }
        let bytes = self.image.len() - at;
        let place = Place {
            section: "end",
            part: "trailing bytes".to_owned(),
            offset: at,
            found: Found::Trailing { bytes, at_least: self.image.len() >= MOST },
        };
        Some(place).filter(|_| bytes > 0)
    }

    /// Where a section ends that begins at a byte, with no fault before; or its fault, none if its place is not found.
    fn end(&self, section: Section, at: usize) -> Result<usize, Option<Place>> {
        let content = at + COUNT_BYTES;
        let Some(count) = count(self.image, at) else {
            let place = self.cut(section.name_by_count(), COUNT.to_owned(), at, content);
            return Err(Some(place));
        };
        if is_refused(&self.image[..content]) {
            let trial = Trial { image: self.image[..content].to_vec(), offset: at, bytes: COUNT_BYTES };
            return Err(Some(self.not_allowed(section.name_by_count(), COUNT.to_owned(), count, trial)));
        }
        let width = section.width(self.vl());
        let end = content + count as usize * width;
        if self.image.len() < end {
            let number = (self.image.len() - content) / width;
            return Err(Some(self.cut(section.name, section.part(number), content + number * width, end)));
        }
        if is_refused(&self.image[..end]) {
            return Err(self.byte(section, at, end));
        }
        Ok(end)
    }

    /// VL, if the settings have been looked at.
    fn vl(&self) -> u64 {
        128 * self.image.get(COUNT_BYTES).map_or(1, |units| u64::from(*units))
    }

    /// Whether the count after P is allowed, but is not the one that the library writes for FFR: it is then that of the flags.
    fn is_older(&self, at: usize) -> bool {
        let of_ffr = FFR.written(self.vl()).and_then(|ffr| count(&ffr, 0));
        count(self.image, at).is_some_and(|count| Some(count) != of_ffr && !is_refused(&self.image[..at + COUNT_BYTES]))
    }

    fn cut(&self, section: &'static str, part: String, begin: usize, end: usize) -> Place {
        let (offset, at_least) = (self.image.len(), section != WORDS.name || part == COUNT);
        let found = Found::Cut { present: offset - begin, missing: end - offset, at_least };
        Place { section, part, offset, found }
    }

    fn not_allowed(&self, section: &'static str, part: String, value: u32, trial: Trial) -> Place {
        let (offset, bytes) = (trial.offset, trial.bytes);
        let found = Found::NotAllowed { value, bytes, allowed: (self.ask)(trial) };
        Place { section, part, offset, found }
    }

    /// The first byte of a section that is refused also if all others of the section are as the library writes them.
    fn byte(&self, section: Section, at: usize, end: usize) -> Option<Place> {
        let vl = if section == SETTINGS { 128 } else { self.vl() }; // the VL in the settings may be what is refused
        let good = [&self.image[..at], &section.written(vl)?].concat();
        let content = at + COUNT_BYTES;
        let mut trials = (content..end.min(good.len())).map(|offset| {
            let mut trial = Trial { image: good.clone(), offset, bytes: 1 };
            (trial.allows(self.image[offset].into()), trial)
        });
        let (_, trial) = trials.find(|(allows, _)| !allows)?;
        let (number, value) = ((trial.offset - content) / section.width(vl), self.image[trial.offset]);
        Some(self.not_allowed(section.name, section.part(number), value.into(), trial))
    }
}

impl Place {
    fn reply(&self) -> Reply {
        match self.found {
            Found::Cut { .. } => Reply::ImageCut,
            Found::NotAllowed { .. } => Reply::NotAllowed,
            Found::Trailing { .. } => Reply::TrailingBytes,
        }
    }
}

impl Fault {
    /// As JSON, with fields before its own.
    pub fn json(&self, before: &[(&'static str, Json)]) -> Json {
        let reply = ("reply", Json::Number(self.reply.number()));
        Json::Object([before, &[reply], &self.fields()].concat())
    }

    /// Where it is, as fields of JSON, and the same as `text`.
    pub fn fields(&self) -> Vec<(&'static str, Json)> {
        let place = self.place.iter().flat_map(Place::fields);
        place.chain([("text", Json::text(self))]).collect()
    }
}

impl Place {
    fn fields(&self) -> Vec<(&'static str, Json)> {
        let number = |number: usize| Json::Number(number as u32);
        let mut fields = vec![
            ("section", Json::text(self.section)),
            ("part", Json::text(&self.part)),
            ("offset", number(self.offset)),
        ];
        fields.extend(match &self.found {
            Found::Cut { missing, .. } => vec![("missing", number(*missing))],
            Found::NotAllowed { value, allowed, .. } => {
                let ranges = runs(allowed.iter().copied().map(u64::from));
                vec![("value", Json::Number(*value)), ("allowed", Json::ranges(&ranges))]
            }
            Found::Trailing { bytes, .. } => vec![("trailing", number(*bytes))],
        });
        fields
    }
}

impl fmt::Display for Fault {
    fn fmt(&self, out: &mut fmt::Formatter) -> fmt::Result {
        match &self.place {
            Some(place) => place.fmt(out),
            None => write!(out, "{}; where is not known", self.reply),
        }
    }
}

impl fmt::Display for Place {
    fn fmt(&self, out: &mut fmt::Formatter) -> fmt::Result {
        let Place { section, part, offset, found } = self;
        let part = if part == COUNT { "its count" } else { part };
        let at = grouped(*offset as u64);
        match found {
            Found::Cut { present, missing, at_least } => {
                let side = if *present == 0 { "before" } else { "within" };
                let (least, missing) = (if *at_least { "at least " } else { "" }, bytes_do(*missing, "is", "are"));
                write!(out, "{section}, the image ends at byte {at}, {side} {part}: {least}{missing} missing")
            }
            Found::NotAllowed { value, bytes, allowed } => {
                let last = grouped((offset + bytes - 1) as u64);
                let verb = if allowed.len() == 1 { "is" } else { "are" };
                match bytes {
                    1 => write!(out, "{section}, byte {at} ({part}) is {value}")?,
                    _ => write!(out, "{section}, bytes {at} to {last} ({part}) are {value}")?,
                }
                write!(out, ": allowed {verb} {}", numbers(allowed))
            }
            Found::Trailing { bytes, at_least } => {
                let (least, follow) = (if *at_least { "at least " } else { "" }, bytes_do(*bytes, "follows", "follow"));
                write!(out, "{at} bytes are the image, {least}{follow}: nothing may stand there")
            }
        }
    }
}

/// A number of bytes and what they do, by the verb's forms for one and for more.
fn bytes_do(number: usize, one: &str, more: &str) -> String {
    match number {
        1 => format!("1 byte {one}"),
        _ => format!("{} bytes {more}", grouped(number as u64)),
    }
}

#[cfg(test)]
mod tests {
    use super::*;
    use plokamyr::{Flags, Predicate};
    use std::collections::HashMap;
    use std::path::Path;

    /// A good image, and what stands in it.
    struct Good {
        image: Vec<u8>,
        parts: Vec<Known>,
    }

    /// A part of an image, as `docs/FORMAT.md` has it; `end` is that of the count or of the section's content.
    struct Known {
        section: &'static str,
        part: String,
        begin: usize,
        bytes: usize,
        end: usize,
    }

    fn good(vl: u64, words: u32, older: bool) -> Good {
        let mut state = State::new(vl, 2);
        state.x = [0x0102_0304_0506_0708; 31];
        state.set_all_p([Predicate::from(0x0111); 16]);
        state.ffr = Predicate::from(3);
        state.flags = Flags { z: true, c: true, ..Flags::default() };
        let words: Vec<u32> = (0..words).map(|number| 0x2518_E400 | number).collect();
        let mut image = vec![0; IMAGE_MAX];
        let written = write(&state, &words, &mut image);
        assert_eq!(written.reply, Reply::Done);
        image.truncate(written.length);
        let (after_p, bytes) = (263 + vl as usize / 4, vl as usize / 64);
        if older {
            image.drain(after_p..after_p + 4 + bytes);
        }
        let parts = known(bytes, words.len(), older);
        assert_eq!(parts.last().map(|part| part.end), Some(image.len()));
        Good { image, parts }
    }

    fn known(predicate: usize, words: usize, older: bool) -> Vec<Known> {
        let names = |names: &[&str]| names.iter().map(|name| name.to_string()).collect::<Vec<_>>();
        let numbered =
            |name: &str, count: usize| (0..count).map(|number| format!("{name}{number}")).collect::<Vec<_>>();
        let mut sections = vec![
            ("settings", "settings", names(&["VL/128", "level", "access"]), 1),
            ("X", "X", numbered("X", 31), 8),
            ("P", "P", numbered("P", 16), predicate),
            ("FFR or flags", "FFR", names(&["FFR"]), predicate),
            ("flags", "flags", names(&["N", "Z", "C", "V"]), 1),
            ("words", "words", numbered("word ", words), 4),
        ];
        if older {
            sections.remove(3);
            sections[3].0 = "FFR or flags";
        }
        let (mut parts, mut at) = (Vec::new(), 0);
        for (by_count, section, names, bytes) in sections {
            let (content, end) = (at + 4, at + 4 + names.len() * bytes);
            parts.push(Known { section: by_count, part: COUNT.to_owned(), begin: at, bytes: 4, end: content });
            let begins = (content..end).step_by(bytes);
            parts.extend(names.into_iter().zip(begins).map(|(part, begin)| Known { section, part, begin, bytes, end }));
            at = end;
        }
        parts
    }

    impl Good {
        fn part_at(&self, offset: usize) -> &Known {
            let found = self.parts.iter().find(|part| (part.begin..part.begin + part.bytes).contains(&offset));
            found.expect("a part of the image")
        }

        /// The image with other bytes from an offset on.
        fn with(&self, offset: usize, bytes: &[u8]) -> Vec<u8> {
            let mut image = self.image.clone();
            image[offset..offset + bytes.len()].copy_from_slice(bytes);
            image
        }

        /// Where values can be refused: counts, settings and flags.
        fn refusable(&self) -> impl Iterator<Item = &Known> {
            self.parts.iter().filter(|part| part.part == COUNT || part.bytes == 1)
        }
    }

    fn all_good() -> Vec<Good> {
        let sizes = [(128, 0), (128, 3), (256, 1), (512, 3), (2048, 1)];
        sizes.iter().flat_map(|(vl, words)| [false, true].map(|older| good(*vl, *words, older))).collect()
    }

    fn reply(image: &[u8]) -> Reply {
        read(image, &mut [0; WORDS_MAX]).reply
    }

    /// The place of a fault, without what is allowed; none if the image is accepted. The reply is the library's.
    fn place(image: &[u8]) -> Option<Place> {
        let fault = fault_by(image, |_| Vec::new());
        assert_eq!(fault.as_ref().map_or(Reply::Done, |fault| fault.reply), reply(image));
        let place = fault?.place.expect("a place that agrees with the reply");
        assert_eq!(place.reply(), reply(image));
        Some(place)
    }

    fn text(image: &[u8]) -> String {
        fault(image).map_or_else(|| "accepted".to_owned(), |fault| fault.to_string())
    }

    #[test]
    fn good_images_have_no_fault() {
        assert!(all_good().iter().all(|good| fault(&good.image).is_none()));
    }

    #[test]
    fn cuts() {
        for good in all_good() {
            for length in 0..good.image.len() {
                let Known { section, part, begin, end, .. } = good.part_at(length);
                let at_least = *section != "words" || part == COUNT;
                let found = Found::Cut { present: length - begin, missing: end - length, at_least };
                let expected = Place { section, part: part.clone(), offset: length, found };
                assert_eq!(place(&good.image[..length]), Some(expected));
            }
        }
    }

    /// What the library allows at a place, asked once for each.
    type Allowed = HashMap<usize, Vec<u32>>;

    /// Tests one image that differs from a good one in one byte. Answers whether a value is refused.
    fn try_byte(good: &Good, offset: usize, byte: u8, allowed: &mut Allowed) -> bool {
        let (known, image) = (good.part_at(offset), good.with(offset, &[byte]));
        let Some(Place { section, part, offset, found }) = place(&image) else { return false };
        let Found::NotAllowed { value, bytes, .. } = found else { return false };
        assert_eq!(value, number(&image[offset..][..bytes]));
        if offset == known.begin {
            assert_eq!((section, &part, bytes), (known.section, &known.part, known.bytes));
            replace(&image, offset, bytes, value, allowed.entry(offset).or_insert_with(|| allowed_at(&image)));
            return true;
        }
        // Another VL, or the count of the other kind of image, is allowed, but puts later sections elsewhere.
        assert!(offset > known.begin && (known.part == "VL/128" || known.section == "FFR or flags"));
        replace(&image, offset, bytes, value, &allowed_at(&image));
        true
    }

    /// With an allowed value in place of the one that is not, the fault is gone, or another stands after it.
    fn replace(image: &[u8], offset: usize, bytes: usize, value: u32, allowed: &[u32]) {
        assert!(!allowed.contains(&value));
        for other in [allowed.first(), allowed.last()] {
            let other = other.expect("a value is allowed").to_le_bytes();
            let mut replaced = image.to_vec();
            replaced[offset..offset + bytes].copy_from_slice(&other[..bytes]);
            assert!(place(&replaced).map_or(true, |later| later.offset > offset));
        }
    }

    fn number(bytes: &[u8]) -> u32 {
        bytes.iter().rev().fold(0, |number, byte| number << 8 | u32::from(*byte))
    }

    fn allowed_at(image: &[u8]) -> Vec<u32> {
        match fault(image).and_then(|fault| fault.place).map(|place| place.found) {
            Some(Found::NotAllowed { allowed, .. }) => allowed,
            other => panic!("{other:?}"),
        }
    }

    #[test]
    fn refusable_bytes() {
        for good in all_good() {
            let (mut allowed, mut refused) = (Allowed::new(), 0);
            for offset in good.refusable().flat_map(|part| part.begin..part.begin + part.bytes) {
                refused += (0..=255).filter(|byte| try_byte(&good, offset, *byte, &mut allowed)).count();
            }
            assert!(allowed.len() == good.refusable().count() && refused > 6000);
        }
    }

    #[test]
    fn other_bytes() {
        for good in all_good() {
            for part in good.parts.iter().filter(|part| part.part != COUNT && part.bytes > 1) {
                let tries =
                    (part.begin..part.begin + part.bytes).flat_map(|at| [0, 1, 0x80, 0xFF].map(|byte| (at, byte)));
                tries.for_each(|(at, byte)| assert_eq!(place(&good.with(at, &[byte])), None));
            }
        }
    }

    /// What `docs/FORMAT.md` allows, in the order of the parts.
    #[test]
    fn allowed() {
        let before = ["3", "1, 2, 4, 8 or 16", "0 to 3", "0 or 1", "31", "16", "1 or 4"];
        let after = ["0 or 1", "0 or 1", "0 or 1", "0 or 1", "0 to 4096"];
        for (older, between) in [(false, &["4"][..]), (true, &[])] {
            let good = good(256, 1, older);
            let texts =
                good.refusable().map(|part| numbers(&allowed_at(&good.with(part.begin, &[0xFF; 4][..part.bytes]))));
            assert_eq!(texts.collect::<Vec<_>>(), [&before, between, &after].concat());
        }
    }

    #[test]
    fn trailing() {
        for good in all_good() {
            for bytes in [1, 2, 3, 4, 100, 20_000] {
                let image = [&good.image[..], &vec![7; bytes]].concat();
                let (part, offset) = ("trailing bytes".to_owned(), good.image.len());
                let found = Found::Trailing { bytes, at_least: false };
                assert_eq!(place(&image), Some(Place { section: "end", part, offset, found }));
            }
        }
    }

    /// Of two values that are refused the first is reported; so it is if bytes follow, or if the image is cut in a later section.
    #[test]
    fn two_faults() {
        for good in all_good() {
            let refusable: Vec<&Known> = good.refusable().collect();
            for (number, first) in refusable.iter().enumerate() {
                let image = good.with(first.begin, &[0xFF; 4][..first.bytes]);
                let alone = place(&image);
                assert_eq!(alone.as_ref().map(|place| place.offset), Some(first.begin));
                for second in &refusable[number..] {
                    let mut both = image.clone();
                    both[second.begin..second.begin + second.bytes].fill(0xFF);
                    assert_eq!(place(&both), alone);
                }
                assert_eq!(place(&[&image[..], &[0]].concat()), alone);
                assert_eq!(place(&image[..first.end]), alone);
            }
        }
    }

    /// A section's content is looked at for a cut before a value.
    #[test]
    fn cut_before_value() {
        let good = good(128, 0, false);
        let settings = text(&good.with(4, &[3])[..6]);
        assert_eq!(settings, "settings, the image ends at byte 6, before access: at least 1 byte is missing");
        let flags = text(&good.with(305, &[2])[..307]);
        assert_eq!(flags, "flags, the image ends at byte 307, before C: at least 2 bytes are missing");
    }

    /// Images with several bytes changed, a cut or bytes after them, and bytes of no sense at all.
    #[test]
    fn any_bytes() {
        let mut random = 20_251_115_u64;
        let mut below = |end: usize| {
            random ^= random << 13;
            random ^= random >> 7;
            random ^= random << 17;
            (random >> 11) as usize % end
        };
        let goods = all_good();
        for round in 0..20_000 {
            let good = &goods[below(goods.len())];
            let mut image = good.image.clone();
            for _ in 0..below(4) {
                let part = &good.parts[below(good.parts.len())];
                image[part.begin + below(part.bytes)] = below(256) as u8;
            }
            image.resize(if round % 3 == 0 { below(image.len() + 40) } else { image.len() }, 5);
            place(&image);
            let length = below(40);
            place(&(0..length).map(|_| below(256) as u8).collect::<Vec<_>>());
        }
        [0, 1, 3, 255].iter().for_each(|byte| assert!(place(&vec![*byte; 1_000_000]).is_some()));
    }

    #[test]
    fn examples() {
        let cases = [
            ("cut", "words, the image ends at byte 324, within word 2: 1 byte is missing"),
            ("empty", "settings, the image ends at byte 0, before its count: at least 4 bytes are missing"),
            ("count", "X, bytes 7 to 10 (its count) are 30: allowed is 31"),
            ("content", "settings, byte 4 (VL/128) is 3: allowed are 1, 2, 4, 8 or 16"),
            ("trailing", "325 bytes are the image, 1 byte follows: nothing may stand there"),
            ("first", "accepted"),
            ("old", "accepted"),
        ];
        for (name, line) in cases {
            let path = Path::new(env!("CARGO_MANIFEST_DIR")).join(format!("../../examples/{name}.image"));
            let image = std::fs::read(&path).unwrap_or_else(|error| panic!("{}: {error}", path.display()));
            assert_eq!(text(&image), line, "{name}");
        }
    }

    #[test]
    fn texts() {
        let (good, old) = (good(128, 3, false), good(128, 3, true));
        let cases = [
            (good.with(5, &[4]), "settings, byte 5 (level) is 4: allowed are 0 to 3"),
            (good.with(6, &[2]), "settings, byte 6 (access) is 2: allowed are 0 or 1"),
            (good.with(295, &[2]), "FFR or flags, bytes 295 to 298 (its count) are 2: allowed are 1 or 4"),
            (old.with(295, &[2]), "FFR or flags, bytes 295 to 298 (its count) are 2: allowed are 1 or 4"),
            (good.with(301, &[3]), "flags, bytes 301 to 304 (its count) are 3: allowed is 4"),
            (old.with(299, &[9]), "flags, byte 299 (N) is 9: allowed are 0 or 1"),
            (good.with(309, &[1, 16]), "words, bytes 309 to 312 (its count) are 4097: allowed are 0 to 4096"),
            (good.image[..20].to_vec(), "X, the image ends at byte 20, within X1: at least 239 bytes are missing"),
            (good.image[..300].to_vec(), "FFR, the image ends at byte 300, within FFR: at least 1 byte is missing"),
            (good.image[..317].to_vec(), "words, the image ends at byte 317, before word 1: 8 bytes are missing"),
            (good.with(309, &[1]), "317 bytes are the image, 8 bytes follow: nothing may stand there"),
        ];
        cases.iter().for_each(|(image, line)| assert_eq!(text(image), *line));
        let unknown = Fault { reply: Reply::Other(99), place: None };
        assert_eq!(unknown.to_string(), "reply without a name here (reply 99); where is not known");
    }
}
