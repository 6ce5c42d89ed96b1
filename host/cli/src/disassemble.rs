//! From a word to its text.

use crate::syntax::{table, Field, Operand, Syntax, SIZES};
use plokamyr::{decode, Reply, Row, State};

/// Whether an alias is shown where there is one, as LLVM does unless it is told otherwise.
#[derive(Clone, Copy, Debug, PartialEq, Eq)]
pub enum Aliases {
    Off,
    On,
}

/// The text of a word, or the library's refusal of it.
pub fn disassemble(word: u32, aliases: Aliases) -> Result<String, Reply> {
    let row = decode(word)?;
    let mut ways = table().iter().filter(|syntax| writes(syntax, &row));
    // no instruction has two aliases, and they stand last in the table
    let way = if aliases == Aliases::On { ways.next_back() } else { ways.next() };
    // a form that the table does not have is a newer library's
    Ok(way.map_or_else(|| format!(".inst {word:#010x}"), |syntax| written(syntax, &row)))
}

/// The value of a field, 0 for one that the form does not have.
pub fn field(row: &Row, name: Field) -> u8 {
    let place = row.form.field_names().iter().position(|known| *known == name);
    place.map_or(0, |place| row.fields[place])
}

fn writes(syntax: &Syntax, row: &Row) -> bool {
    let of = |name| field(row, name);
    syntax.form == row.form
        && syntax.fixed.iter().all(|&(name, value)| of(name) == value)
        && syntax.equal.iter().all(|&(name, other)| of(name) == of(other))
}

fn written(syntax: &Syntax, row: &Row) -> String {
    let mut line = syntax.mnemonic.to_string();
    for (place, operand) in syntax.operands.iter().enumerate() {
        line += if place == 0 { " " } else { ", " };
        line += &shown(operand, row);
    }
    line
}

fn shown(operand: &Operand, row: &Row) -> String {
    let size = SIZES[usize::from(field(row, "size") & 3)];
    let of = |name| field(row, name);
    match *operand {
        Operand::X(name) => general("x", of(name)),
        Operand::W(name) => general("w", of(name)),
        Operand::P(name) => format!("p{}", of(name)),
        Operand::Sized(name) => format!("p{}.{size}", of(name)),
        Operand::Bytes(name) => format!("p{}.b", of(name)),
        Operand::Zeroing(name) => format!("p{}/z", of(name)),
        Operand::Merging(name) => format!("p{}/m", of(name)),
        Operand::Pair(name) => format!("{{ p{}.{size}, p{}.{size} }}", 2 * of(name), 2 * of(name) + 1),
        Operand::Counter(name, first) => format!("pn{}.{size}", first + of(name)),
        Operand::Group(name) => if of(name) == 0 { "vlx2" } else { "vlx4" }.to_string(),
    }
}

/// The name of an X or W register.
pub fn general(prefix: &str, number: u8) -> String {
    match number {
        31 => format!("{prefix}zr"),
        _ => format!("{prefix}{number}"),
    }
}

/// The level that a word asks: the lowest at which the library does not refuse it for its level. With access off, nothing
/// is executed.
pub fn level(word: u32) -> u8 {
    let refused = |level: &u8| {
        let mut state = State::new(128, *level);
        state.access = false;
        state.step(word) == Reply::LevelTooLow
    };
    (0..3).find(|level| !refused(level)).unwrap_or(3)
}
