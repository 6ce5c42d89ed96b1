//! Titles folded by the library, and the forms in which they are written.

use crate::commands::new::LENGTHS;
use crate::json::Json;
use crate::reason::told;
use crate::words::{counted, grouped, numbers};
use plokamyr::{fold, Reply, TITLE_MAX};
use std::fmt;

/// Why a title is not folded.
#[derive(Clone, Debug, PartialEq, Eq)]
pub struct Refusal {
    /// None if the library was not asked.
    reply: Option<Reply>,
    reason: String,
}

impl Refusal {
    /// Of bytes that are no text from one on, which is told by how many stand before it.
    pub fn not_utf8(before: u64) -> Refusal {
        Refusal { reply: None, reason: format!("not UTF-8 at byte {}", before + 1) }
    }

    pub fn json(&self) -> Json {
        let reply = self.reply.map_or(Json::Null, |reply| Json::Number(reply.number()));
        Json::Object(vec![("reply", reply), ("reason", Json::text(&self.reason)), ("title", Json::Null)])
    }
}

impl fmt::Display for Refusal {
    fn fmt(&self, out: &mut fmt::Formatter) -> fmt::Result {
        match self.reply {
            Some(reply) => write!(out, "{}", told(reply, Some(&self.reason))),
            None => write!(out, "{}", self.reason),
        }
    }
}

/// Folds titles at a vector length.
#[derive(Debug)]
pub struct Folder {
    vl: u64,
    units: Vec<u16>,
}

impl Folder {
    pub fn new(vl: u64) -> Folder {
        Folder { vl, units: Vec::new() }
    }

    /// The units of a title, folded.
    pub fn fold(&mut self, title: &str) -> Result<&[u16], Refusal> {
        self.units.clear();
        // one unit more than a title may have tells the library as much as all of them
        match title.is_ascii() {
            true => self.units.extend(title.bytes().take(TITLE_MAX + 1).map(u16::from)),
            false => self.units.extend(title.encode_utf16().take(TITLE_MAX + 1)),
        }
        match fold(&mut self.units, self.vl) {
            Reply::Done => Ok(&self.units),
            reply => Err(self.refusal(reply, title.encode_utf16().count() as u64)),
        }
    }

    /// The refusal of a title that has more units than are held.
    pub fn refuse(&self, units: u64) -> Refusal {
        self.refusal(fold(&mut [0; TITLE_MAX + 1], self.vl), units)
    }

    fn refusal(&self, reply: Reply, units: u64) -> Refusal {
        let reason = match reply {
            Reply::IllegalState => format!("--vl is {}: {} would do", self.vl, numbers(&LENGTHS)),
            _ => format!("{}, and {} are the most", counted(units, "unit"), grouped(TITLE_MAX as u64)),
        };
        Refusal { reply: Some(reply), reason }
    }
}

/// What is written for a title: its text, or its units in hexadecimal digits; or JSON, with the units or without.
#[derive(Clone, Copy, Debug, PartialEq, Eq)]
pub struct Form {
    pub units: bool,
    pub json: bool,
}

impl Form {
    /// Writes a folded title, without a line's end.
    pub fn put(self, units: &[u16], out: &mut Vec<u8>) {
        match self {
            Form { json: true, .. } => out.extend_from_slice(self.json(units).to_string().as_bytes()),
            Form { units: true, .. } => out.extend_from_slice(digits(units).as_bytes()),
            _ => put_text(units, out),
        }
    }

    pub fn json(self, units: &[u16]) -> Json {
        let mut fields = vec![("reply", Json::Number(Reply::Done.number())), ("title", Json::text(text(units)))];
        fields.extend(self.units.then(|| ("units", Json::text(digits(units)))));
        Json::Object(fields)
    }
}

/// Four digits for each unit, with blanks between.
fn digits(units: &[u16]) -> String {
    units.iter().map(|unit| format!("{unit:04x}")).collect::<Vec<_>>().join(" ")
}

/// The characters of units. What was a text is one after folding too: no half of a pair changes.
fn characters(units: &[u16]) -> impl Iterator<Item = char> + '_ {
    char::decode_utf16(units.iter().copied()).map(|c| c.unwrap_or(char::REPLACEMENT_CHARACTER))
}

fn text(units: &[u16]) -> String {
    characters(units).collect()
}

fn put_text(units: &[u16], out: &mut Vec<u8>) {
    for c in characters(units) {
        match c.is_ascii() {
            true => out.push(c as u8),
            false => out.extend_from_slice(c.encode_utf8(&mut [0; 4]).as_bytes()),
        }
    }
}

#[cfg(test)]
mod tests {
    use super::*;

    fn folded(title: &str, form: Form) -> String {
        let mut out = Vec::new();
        form.put(Folder::new(512).fold(title).unwrap(), &mut out);
        String::from_utf8(out).unwrap()
    }

    #[test]
    fn forms() {
        let form = |units, json| folded("Ça, 𝄞", Form { units, json });
        assert_eq!(form(false, false), "ca, 𝄞");
        assert_eq!(form(true, false), "0063 0061 002c 0020 d834 dd1e");
        assert_eq!(form(false, true), r#"{"reply": 0, "title": "ca, 𝄞"}"#);
        assert_eq!(form(true, true), r#"{"reply": 0, "title": "ca, 𝄞", "units": "0063 0061 002c 0020 d834 dd1e"}"#);
    }

    /// Every character, in titles of 1,000.
    #[test]
    fn text_stays_text() {
        let all: Vec<char> = ('\0'..=char::MAX).collect();
        let changed = all.chunks(1000).flat_map(|some| {
            let title: String = some.iter().collect();
            let folded: Vec<char> = folded(&title, Form { units: false, json: false }).chars().collect();
            assert_eq!(folded.len(), some.len());
            some.iter().zip(folded).filter(|(one, other)| *one != other).map(|(one, _)| *one).collect::<Vec<_>>()
        });
        let changed: Vec<char> = changed.collect();
        assert!(changed.iter().all(|c| *c <= '\u{ff}'), "{changed:?}");
        assert_eq!(changed.len(), 26 + 26 + 27, "{changed:?}");
    }

    #[test]
    fn refusals() {
        let refusal = |vl, title: &str| Folder::new(vl).fold(title).unwrap_err();
        assert_eq!(refusal(512, &"é".repeat(4097)), Folder::new(512).refuse(4097));
        assert_eq!(
            refusal(512, &"𝄞".repeat(4096)).to_string(),
            "list has fewer places than there are positions to visit (reply 11): 8,192 units, and 4,096 are the most"
        );
        assert!(Folder::new(512).fold(&"é".repeat(4096)).is_ok());
        assert_eq!(refusal(384, &"é".repeat(4097)).reply, Some(Reply::IllegalState));
        assert_eq!(refusal(384, "").reason, format!("--vl is 384: {} would do", numbers(&LENGTHS)));
        assert_eq!(Refusal::not_utf8(4).to_string(), "not UTF-8 at byte 5");
    }
}
