//! A register state for people, and as JSON.

use crate::counter::{counter, Counter};
use crate::json::Json;
use crate::lanes::{count, elements, hidden, picture, ranges};
use crate::style::Style;
use crate::syntax::SIZES;
use crate::words::counted;
use plokamyr::{Predicate, State};

/// The names of the levels.
const LEVELS: [&str; 4] = ["none", "SVE", "SVE2", "SVE2p1"];

/// A level and its name: `1 (SVE)`.
pub fn level_named(level: u8) -> String {
    format!("{level} ({})", LEVELS.get(usize::from(level)).unwrap_or(&"?"))
}

/// The state in lines: settings, X that are not zero, predicates at a size, counters, FFR, flags.
pub fn dump(state: &State, size: u32, style: Style) -> String {
    let mut lines = vec![settings(state)];
    lines.extend(general(state));
    lines.extend(predicates(state, size, style));
    lines.extend(register("ffr", &state.ffr, state.vl(), size, style));
    lines.push(flags(state));
    lines.iter().map(|line| format!("{line}\n")).collect()
}

fn settings(state: &State) -> String {
    let access = if state.access { "on" } else { "off" };
    format!("vl {}  level {}  access {access}", state.vl(), level_named(state.level))
}

fn general(state: &State) -> impl Iterator<Item = String> + '_ {
    let set = state.x.iter().enumerate().filter(|(_, value)| **value != 0);
    set.map(|(number, value)| format!("{:<6} {}", format!("x{number}"), shown(*value)))
}

/// A value; one that is not small in hexadecimal digits too.
fn shown(value: u64) -> String {
    match value {
        0..=9 => value.to_string(),
        _ => format!("{value} ({value:#x})"),
    }
}

/// P0 to P15. Of empty ones that stand side by side the first is drawn, and names the others.
fn predicates(state: &State, size: u32, style: Style) -> Vec<String> {
    let empty = |number: &usize| state.p()[*number] == Predicate::default();
    let mut lines = Vec::new();
    let mut number = 0;
    while number < 16 {
        let last = (number..16).take_while(empty).last().unwrap_or(number);
        let mut drawn = register(&format!("p{number}"), &state.p()[number], state.vl(), size, style);
        drawn[0] += &style.dim(&also(number + 1, last, SIZES[size as usize]));
        lines.extend(drawn);
        lines.extend(counter_line(state, number));
        number = last + 1;
    }
    lines
}

/// Names registers that are as the one before; nothing if there are none.
fn also(first: usize, last: usize, letter: char) -> String {
    match last.checked_sub(first) {
        None => String::new(),
        Some(0) => format!("  also p{last}.{letter}"),
        Some(_) => format!("  also p{first}.{letter} to p{last}.{letter}"),
    }
}

/// What a register is as a counter, if WHILE writes such: to P8 to P15 alone. The bits do not tell whether it did.
fn read_as_counter(state: &State, number: usize) -> Option<Counter> {
    counter(&state.p()[number], state.vl(), state.level).filter(|_| number >= 8)
}

fn counter_line(state: &State, number: usize) -> Option<String> {
    let name = format!("pn{number}");
    let said = |counter: Counter| format!("{}, {}", counter.shown(false), counter.of_four());
    read_as_counter(state, number).map(|counter| format!("{name:<6} read as a counter: {}", said(counter)))
}

/// A predicate's name, its count and its lanes, in rows with the number of the first lane of each.
fn register(name: &str, predicate: &Predicate, vl: u64, size: u32, style: Style) -> Vec<String> {
    let (letter, elements) = (SIZES[size as usize], elements(vl, size));
    let width = elements.to_string().len();
    let head = format!("{:<6} {:>width$}/{elements} ", format!("{name}.{letter}"), count(predicate, vl, size));
    let mut lines: Vec<String> = Vec::new();
    for row in picture(predicate, vl, size, style) {
        let before = if row.first == 0 { head.clone() } else { String::new() };
        let number = format!("{:>width$}", row.first, width = head.len() + 1 - before.len());
        lines.push(format!("{before}{} {}", style.dim(&number), row.drawn));
    }
    let hidden = hidden(predicate, size) as u64;
    if hidden > 0 {
        let blank = " ".repeat(head.len() + 2);
        lines.push(format!("{blank}and {} that .{letter} does not read", counted(hidden, "bit")));
    }
    lines
}

/// The flags, with what a test of a predicate says by them.
fn flags(state: &State) -> String {
    let said = |yes| if yes { "yes" } else { "no" };
    let flags = state.flags;
    format!("nzcv   {flags}  first {}  none {}  last {}", said(flags.n), said(flags.z), said(!flags.c))
}

/// The state as JSON. X are decimal digits, predicates hexadecimal ones with the true elements as ranges.
pub fn json(state: &State, size: u32) -> Json {
    let p = (0..16).map(|number| {
        predicate_json(&format!("p{number}"), &state.p()[number], state, size, read_as_counter(state, number))
    });
    let flags = state.flags;
    Json::Object(vec![
        ("vl", Json::Number(state.vl() as u32)),
        ("level", Json::Number(state.level.into())),
        ("access", Json::Bool(state.access)),
        ("x", Json::list(state.x.iter().map(Json::text))),
        ("p", Json::list(p)),
        ("ffr", predicate_json("ffr", &state.ffr, state, size, None)),
        ("nzcv", Json::text(flags)),
        ("first", Json::Bool(flags.n)),
        ("none", Json::Bool(flags.z)),
        ("last", Json::Bool(!flags.c)),
    ])
}

fn predicate_json(name: &str, predicate: &Predicate, state: &State, size: u32, counter: Option<Counter>) -> Json {
    let vl = state.vl();
    let mut fields = vec![
        ("name", Json::text(name)),
        ("size", Json::text(SIZES[size as usize])),
        ("count", Json::Number(count(predicate, vl, size).into())),
        ("of", Json::Number(elements(vl, size) as u32)),
        ("lanes", Json::ranges(&ranges(predicate, vl, size))),
        ("bits", Json::text(bits(predicate, vl))),
    ];
    fields.extend(counter.map(|counter| ("counter", counter_json(&counter))));
    Json::Object(fields)
}

fn counter_json(counter: &Counter) -> Json {
    let group = |(count, of): (u64, u64)| Json::list([Json::Number(count as u32), Json::Number(of as u32)]);
    Json::Object(vec![
        ("size", Json::text(SIZES[counter.size as usize])),
        ("up", Json::Bool(counter.up)),
        ("vlx2", group(counter.groups[0])),
        ("vlx4", group(counter.groups[1])),
    ])
}

/// The bits of a predicate as a hexadecimal number, the highest first.
fn bits(predicate: &Predicate, vl: u64) -> String {
    let all: String = predicate.words.iter().rev().map(|word| format!("{word:016x}")).collect();
    all[64 - vl as usize / 32..].to_string()
}
