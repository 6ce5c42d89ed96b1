//! JSON, as far as it is written here.

use crate::words::is_invisible;
use std::fmt;
use std::ops::RangeInclusive;

/// A value. Numbers of 64 bits are texts, since many readers keep only 53 bits of a number.
#[derive(Clone, Debug, PartialEq, Eq)]
pub enum Json {
    Null,
    Bool(bool),
    Number(u32),
    Text(String),
    List(Vec<Json>),
    Object(Vec<(&'static str, Json)>),
}

impl Json {
    pub fn text(text: impl fmt::Display) -> Json {
        Json::Text(text.to_string())
    }

    pub fn list(items: impl IntoIterator<Item = Json>) -> Json {
        Json::List(items.into_iter().collect())
    }

    /// Ranges of small numbers, as pairs of the first and the last of each.
    pub fn ranges(ranges: &[RangeInclusive<u64>]) -> Json {
        let number = |number: &u64| Json::Number(*number as u32);
        Json::list(ranges.iter().map(|range| Json::list([number(range.start()), number(range.end())])))
    }

    /// The value with a line feed, as a command prints it.
    pub fn line(&self) -> String {
        format!("{self}\n")
    }
}

impl fmt::Display for Json {
    fn fmt(&self, out: &mut fmt::Formatter) -> fmt::Result {
        match self {
            Json::Null => write!(out, "null"),
            Json::Bool(value) => write!(out, "{value}"),
            Json::Number(value) => write!(out, "{value}"),
            Json::Text(text) => quoted(out, text),
            Json::List(items) => {
                let items = items.iter().map(Json::to_string).collect::<Vec<_>>();
                write!(out, "[{}]", items.join(", "))
            }
            Json::Object(fields) => {
                let field = |(name, value): &(&str, Json)| format!("\"{name}\": {value}");
                write!(out, "{{{}}}", fields.iter().map(field).collect::<Vec<_>>().join(", "))
            }
        }
    }
}

fn quoted(out: &mut fmt::Formatter, text: &str) -> fmt::Result {
    write!(out, "\"")?;
    for c in text.chars() {
        match c {
            '"' | '\\' => write!(out, "\\{c}")?,
            c if is_invisible(c) => {
                c.encode_utf16(&mut [0; 2]).iter().try_for_each(|unit| write!(out, "\\u{unit:04x}"))?
            }
            c => write!(out, "{c}")?,
        }
    }
    write!(out, "\"")
}

#[cfg(test)]
mod tests {
    use super::*;

    #[test]
    fn values() {
        let value = Json::Object(vec![
            ("a", Json::list([Json::Number(1), Json::Null])),
            ("b", Json::text("\"\\\n█\u{202e}\u{e0001}")),
        ]);
        assert_eq!(value.to_string(), r#"{"a": [1, null], "b": "\"\\\u000a█\u202e\udb40\udc01"}"#);
    }
}
