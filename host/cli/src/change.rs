//! What differs between two states.

use crate::counter::counter;
use crate::disassemble::field;
use crate::json::Json;
use crate::lanes::{hidden, shown};
use crate::syntax::SIZES;
use plokamyr::{decode, Form, Predicate, State};
use std::fmt;

/// A register, or a setting, and what it is before and after.
#[derive(Clone, Debug, PartialEq, Eq)]
pub struct Change {
    pub register: String,
    values: [Value; 2],
}

#[derive(Clone, Debug, PartialEq, Eq)]
enum Value {
    Number(u64),
    Text(String),
}

impl Value {
    fn is_large(&self) -> bool {
        matches!(self, Value::Number(number) if number >> 32 != 0)
    }

    fn shown(&self, hexadecimal: bool) -> String {
        match self {
            Value::Number(number) if hexadecimal => format!("{number:#x}"),
            Value::Number(number) => number.to_string(),
            Value::Text(text) => text.clone(),
        }
    }
}

impl fmt::Display for Change {
    /// Both numbers are hexadecimal if one of them is large.
    fn fmt(&self, out: &mut fmt::Formatter) -> fmt::Result {
        let hexadecimal = self.values.iter().any(Value::is_large);
        let [before, after] = [0, 1].map(|side| self.values[side].shown(hexadecimal));
        write!(out, "{} {before} -> {after}", self.register)
    }
}

impl Change {
    pub fn json(&self) -> Json {
        let [before, after] = [0, 1].map(|side| Json::text(self.values[side].shown(false)));
        Json::Object(vec![("register", Json::text(&self.register)), ("before", before), ("after", after)])
    }

    fn new(register: &str, values: [Value; 2]) -> Change {
        Change { register: register.to_string(), values }
    }
}

/// How predicates are shown.
#[derive(Clone, Copy, Debug, PartialEq, Eq)]
pub enum View {
    /// As elements of a size.
    Elements(u32),
    /// As a counter of a group of four vectors or of two; what stood there before it too, if that was one.
    Counter { four: bool, before: bool },
}

/// Which P registers hold a counter, as words that were stepped have left them.
#[derive(Clone, Copy, Debug, Default)]
pub struct Counters([bool; 16]);

impl Counters {
    /// The view that fits what a word writes.
    pub fn view(&self, word: u32) -> View {
        match (decode(word), written_counter(word)) {
            (Ok(row), Some(number)) => View::Counter { four: field(&row, "vl") == 1, before: self.0[number] },
            (Ok(row), None) => View::Elements(field(&row, "size").into()),
            (Err(_), _) => View::Elements(0),
        }
    }

    /// Goes over a word that was done.
    pub fn step(&mut self, word: u32, before: &State, after: &State) {
        for (number, holds) in self.0.iter_mut().enumerate() {
            *holds &= before.p()[number] == after.p()[number];
        }
        written_counter(word).into_iter().for_each(|number| self.0[number] = true);
    }
}

/// The P register that a word writes as a counter.
fn written_counter(word: u32) -> Option<usize> {
    let row = decode(word).ok().filter(|row| row.form == Form::WhileCounter)?;
    Some(8 + usize::from(field(&row, "PNd")))
}

/// What differs: settings, X, predicates, FFR, flags.
pub fn changes(before: &State, after: &State, view: View) -> Vec<Change> {
    let sides = [before, after];
    let mut all = vec![numbers("vl", sides.map(State::vl)), numbers("level", sides.map(|side| side.level.into()))];
    all.push(texts("access", sides.map(|side| side.access), |access| if *access { "on" } else { "off" }.to_string()));
    for number in 0..31 {
        all.push(numbers(&format!("x{number}"), sides.map(|side| side.x[number])));
    }
    for number in 0..16 {
        all.push(predicate("p", &number.to_string(), sides.map(|side| (&side.p()[number], side)), view));
    }
    all.push(predicate("ffr", "", sides.map(|side| (&side.ffr, side)), View::Elements(0)));
    all.push(texts("nzcv", sides.map(|side| side.flags), ToString::to_string));
    all.into_iter().flatten().collect()
}

fn numbers(register: &str, values: [u64; 2]) -> Option<Change> {
    (values[0] != values[1]).then(|| Change::new(register, values.map(Value::Number)))
}

fn texts<T: PartialEq>(register: &str, values: [T; 2], shown: impl Fn(&T) -> String) -> Option<Change> {
    (values[0] != values[1]).then(|| Change::new(register, values.map(|value| Value::Text(shown(&value)))))
}

/// A predicate and the state that it stands in.
type Held<'a> = (&'a Predicate, &'a State);

/// A predicate register in the view, or in bytes if the view does not show all bits of both values.
fn predicate(name: &str, number: &str, values: [Held; 2], view: View) -> Option<Change> {
    if values[0].0 == values[1].0 {
        return None;
    }
    let size = match view {
        View::Counter { four, before } => match counters(values, four, before) {
            Some(shown) => return Some(Change::new(&format!("{name}n{number}"), shown.map(Value::Text))),
            None => 0,
        },
        View::Elements(size) if values.iter().all(|(value, _)| hidden(value, size) == 0) => size,
        View::Elements(_) => 0,
    };
    let shown = values.map(|(value, state)| Value::Text(shown(value, state.vl(), size)));
    Some(Change::new(&format!("{name}{number}.{}", SIZES[size as usize]), shown))
}

/// Two values, the second as a counter, and the first too if it was one. What is alike in two vectors differs in four.
fn counters([one, other]: [Held; 2], four: bool, before: bool) -> Option<[String; 2]> {
    let ways = [four, true].map(|four| {
        let first = if before { as_counter(one, four)? } else { as_lanes(one) };
        Some([first, as_counter(other, four)?])
    });
    ways.into_iter().flatten().find(|[first, second]| first != second)
}

fn as_counter((predicate, state): Held, four: bool) -> Option<String> {
    match *predicate == Predicate::default() {
        true => Some("none".to_string()),
        false => counter(predicate, state.vl(), state.level).map(|counter| counter.shown(four)),
    }
}

/// `.b lanes 0-4,7`, where a counter may stand beside it.
fn as_lanes((predicate, state): Held) -> String {
    match *predicate == Predicate::default() {
        true => "none".to_string(),
        false => format!(".{} lanes {}", SIZES[0], shown(predicate, state.vl(), 0)),
    }
}
