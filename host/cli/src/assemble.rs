//! From a text to its word.

use crate::disassemble::general;
use crate::sve::is_elsewhere;
use crate::syntax::{table, Field, Operand, Syntax, SIZES};
use crate::words::{listed, natural, plain};
use plokamyr::{encode, Row};
use std::fmt;

/// Why a text is no instruction: what stands at a byte of it, and what would do there.
#[derive(Clone, Debug, PartialEq, Eq)]
pub struct Fault {
    pub at: usize,
    pub found: String,
    /// Any of these; none if what is found is an instruction of SVE's that is not executed here.
    pub expected: Vec<String>,
}

impl fmt::Display for Fault {
    fn fmt(&self, out: &mut fmt::Formatter) -> fmt::Result {
        match self.expected.as_slice() {
            [] => write!(out, "{} is an SVE instruction that is not executed here", self.found),
            expected => write!(out, "expected {}, found {}", listed(expected), self.found),
        }
    }
}

/// The word of one instruction. Letters may be large, and blanks stand between any two parts.
pub fn assemble(text: &str) -> Result<u32, Fault> {
    match parse(text)? {
        Parsed::Word(word) => Ok(word),
        Parsed::Row(row, name) => encode(row).map_err(|refusal| name.fault(&format!("another instruction: {refusal}"))),
    }
}

/// What a text stands for, before the library is asked for its word.
pub enum Parsed<'a> {
    Word(u32),
    /// With the name that the text begins with.
    Row(Row, Token<'a>),
}

/// Reads one instruction, without the library.
pub fn parse(text: &str) -> Result<Parsed<'_>, Fault> {
    let tokens = tokens(text);
    let mnemonic = tokens[0].text.to_ascii_lowercase();
    if mnemonic == DIRECTIVE {
        return number(&tokens).map(Parsed::Word);
    }
    let mut furthest: Option<Fault> = None;
    for syntax in table().iter().filter(|syntax| syntax.mnemonic == mnemonic) {
        match read(syntax, &tokens) {
            Ok(row) => return Ok(Parsed::Row(row, tokens[0])),
            Err(fault) => furthest = Some(further(furthest, fault)),
        }
    }
    if is_elsewhere(&mnemonic, tokens[1..].iter().map(|token| token.text)) {
        return Err(Fault { at: tokens[0].at, found: mnemonic, expected: Vec::new() });
    }
    Err(furthest.unwrap_or_else(|| tokens[0].fault(&suggestion(&mnemonic))))
}

/// A word as a number, for one that is no instruction of ours.
const DIRECTIVE: &str = ".inst";

/// Whether a text begins with a name that an instruction may begin with.
pub fn begins_instruction(text: &str) -> bool {
    let first = tokens(text)[0].text.to_ascii_lowercase();
    first == DIRECTIVE || is_ours(&first)
}

/// Whether it begins with the name of an instruction, be it executed here or not.
pub fn begins_any(text: &str) -> bool {
    let first = tokens(text)[0].text.to_ascii_lowercase();
    begins_instruction(text) || is_elsewhere(&first, std::iter::empty())
}

fn is_ours(name: &str) -> bool {
    table().iter().any(|syntax| syntax.mnemonic == name)
}

/// How many characters of a long name are shown.
const SHOWN: usize = 40;

/// A run of letters, digits, `_` and `.`, or another character that is no blank. The last one is empty, at the text's end.
#[derive(Clone, Copy, Debug)]
pub struct Token<'a> {
    at: usize,
    text: &'a str,
}

impl Token<'_> {
    fn fault(&self, expected: &str) -> Fault {
        self.fault_at(0, expected)
    }

    /// A fault `skip` bytes into the token.
    fn fault_at(&self, skip: usize, expected: &str) -> Fault {
        let rest = self.text.get(skip..).unwrap_or("");
        let found = match rest.char_indices().nth(SHOWN) {
            _ if self.text.is_empty() => "the end".to_string(),
            _ if rest.is_empty() => "nothing".to_string(),
            Some((length, _)) => format!("'{}..'", plain(&rest[..length])),
            None => format!("'{}'", plain(rest)),
        };
        Fault { at: self.at + skip, found, expected: vec![expected.to_string()] }
    }
}

/// More tokens than an instruction has: what follows them makes it none the less none.
const MOST: usize = 40;

fn tokens(text: &str) -> Vec<Token<'_>> {
    let part = |c: char| c.is_ascii_alphanumeric() || c == '_' || c == '.';
    let mut all = Vec::new();
    let mut at = 0;
    while let Some(c) = text[at..].chars().next().filter(|_| all.len() < MOST) {
        let rest = &text[at..];
        let length = match part(c) {
            true => rest.find(|c| !part(c)).unwrap_or(rest.len()),
            false => c.len_utf8(),
        };
        if !c.is_whitespace() {
            all.push(Token { at, text: &rest[..length] });
        }
        at += length;
    }
    all.push(Token { at: text.trim_end().len(), text: "" });
    all
}

/// Of two faults the one that stands further on; of two at one place what either expects.
fn further(one: Option<Fault>, other: Fault) -> Fault {
    match one {
        Some(one) if one.at > other.at => one,
        Some(mut one) if one.at == other.at => {
            let known = one.expected.clone();
            one.expected.extend(other.expected.into_iter().filter(|new| !known.contains(new)));
            one
        }
        _ => other,
    }
}

/// The operand of `.inst`.
fn number(tokens: &[Token]) -> Result<u32, Fault> {
    let value = natural(tokens[1].text).and_then(|value| u32::try_from(value).ok());
    let word = value.ok_or_else(|| tokens[1].fault("a word, as 0x25a21c20"))?;
    end(&tokens[2])?;
    Ok(word)
}

fn end(token: &Token) -> Result<(), Fault> {
    match token.text {
        "" => Ok(()),
        _ => Err(token.fault("the end of the instruction")),
    }
}

/// Reads the operands of one way to write an instruction.
fn read(syntax: &Syntax, tokens: &[Token]) -> Result<Row, Fault> {
    let mut reader = Reader { syntax, tokens, next: 1, fields: [None; 8] };
    for &(name, value) in &syntax.fixed {
        reader.fields[reader.place(name)] = Some(value);
    }
    for (place, operand) in syntax.operands.iter().enumerate() {
        if place > 0 {
            reader.mark(",")?;
        }
        reader.operand(operand)?;
    }
    end(reader.token())?;
    for &(name, source) in syntax.equal {
        reader.fields[reader.place(name)] = reader.fields[reader.place(source)];
    }
    Ok(Row { form: syntax.form, fields: reader.fields.map(|field| field.unwrap_or(0)) })
}

struct Reader<'a> {
    syntax: &'a Syntax,
    tokens: &'a [Token<'a>],
    next: usize,
    /// What is known of the form's fields so far.
    fields: [Option<u8>; 8],
}

impl<'a> Reader<'a> {
    fn token(&self) -> &'a Token<'a> {
        &self.tokens[self.next]
    }

    fn place(&self, name: Field) -> usize {
        let names = self.syntax.form.field_names();
        names.iter().position(|known| *known == name).expect("the table names fields that the form has")
    }

    fn operand(&mut self, operand: &Operand) -> Result<(), Fault> {
        match *operand {
            Operand::X(name) => self.general("x", name),
            Operand::W(name) => self.general("w", name),
            Operand::P(name) => self.plain(name),
            Operand::Bytes(name) => self.bytes(name),
            Operand::Sized(name) => self.sized(name, "p", 0),
            Operand::Counter(name, first) => self.sized(name, "pn", first),
            Operand::Zeroing(name) => self.governing(name, "z"),
            Operand::Merging(name) => self.governing(name, "m"),
            Operand::Pair(name) => self.pair(name),
            Operand::Group(name) => self.group(name),
        }
    }

    fn mark(&mut self, mark: &str) -> Result<(), Fault> {
        if !self.token().text.eq_ignore_ascii_case(mark) {
            return Err(self.token().fault(&format!("'{mark}'")));
        }
        self.next += 1;
        Ok(())
    }

    /// Sets the field that the whole token stands for, and goes on to the next.
    fn take(&mut self, name: Field, value: u8, shown: impl Fn(u8) -> String) -> Result<(), Fault> {
        self.set(name, value, 0, shown)?;
        self.next += 1;
        Ok(())
    }

    /// Sets a field, `skip` bytes into the token. One that is written twice is the same both times, as `shown` names it.
    fn set(&mut self, name: Field, value: u8, skip: usize, shown: impl Fn(u8) -> String) -> Result<(), Fault> {
        let place = self.place(name);
        match self.fields[place] {
            Some(known) if known != value => Err(self.token().fault_at(skip, &format!("{}, as before", shown(known)))),
            _ => {
                self.fields[place] = Some(value);
                Ok(())
            }
        }
    }

    /// The number of a register and how many bytes name it, if it is one from `first` to `last`.
    fn register(&self, prefix: &str, first: u8, last: u8) -> Option<(u8, usize)> {
        let text = self.token().text.to_ascii_lowercase();
        let digits: String = text.strip_prefix(prefix)?.chars().take_while(char::is_ascii_digit).collect();
        let number = digits.parse().ok().filter(|number: &u8| number.to_string() == digits)?;
        (first..=last).contains(&number).then_some((number, prefix.len() + digits.len()))
    }

    fn general(&mut self, prefix: &str, name: Field) -> Result<(), Fault> {
        let zero = self.token().text.eq_ignore_ascii_case(&format!("{prefix}zr"));
        let found = if zero { Some((31, 3)) } else { self.register(prefix, 0, 31) };
        match found.filter(|(_, length)| *length == self.token().text.len()) {
            Some((number, _)) => self.take(name, number, |known| general(prefix, known)),
            None => {
                let expected = vec![format!("{prefix}0 to {prefix}30"), format!("{prefix}zr")];
                Err(Fault { expected, ..self.token().fault("") })
            }
        }
    }

    /// A predicate register's number, what follows it in the token, and where that begins.
    fn predicate(&self, prefix: &str, first: u8, expected: &str) -> Result<(u8, &'a str, usize), Fault> {
        let (number, length) = self.register(prefix, first, 15).ok_or_else(|| self.token().fault(expected))?;
        Ok((number, &self.token().text[length..], length))
    }

    fn plain(&mut self, name: Field) -> Result<(), Fault> {
        let (number, suffix, skip) = self.predicate("p", 0, "p0 to p15")?;
        if !suffix.is_empty() {
            return Err(self.token().fault_at(skip, "no size here"));
        }
        self.take(name, number, |known| format!("p{known}"))
    }

    fn bytes(&mut self, name: Field) -> Result<(), Fault> {
        let (number, suffix, skip) = self.predicate("p", 0, "p0.b to p15.b")?;
        if !suffix.eq_ignore_ascii_case(".b") {
            return Err(self.token().fault_at(skip, "'.b'"));
        }
        self.take(name, number, |known| format!("p{known}.b"))
    }

    fn sized(&mut self, name: Field, prefix: &str, first: u8) -> Result<(), Fault> {
        let number = self.with_size(prefix, first)?;
        self.take(name, number - first, |known| format!("{prefix}{}", first + known))
    }

    /// The number of a predicate register that stands with a size, which is that of the instruction.
    fn with_size(&mut self, prefix: &str, first: u8) -> Result<u8, Fault> {
        let expected = format!("{prefix}{first} to {prefix}15 with a size");
        let (number, suffix, skip) = self.predicate(prefix, first, &expected)?;
        let size = SIZES.iter().position(|letter| suffix.eq_ignore_ascii_case(&format!(".{letter}")));
        let size = size.ok_or_else(|| self.token().fault_at(skip, "'.b', '.h', '.s' or '.d'"))?;
        self.set("size", size as u8, skip, |known| format!("'.{}'", SIZES[usize::from(known)]))?;
        Ok(number)
    }

    fn governing(&mut self, name: Field, letter: &str) -> Result<(), Fault> {
        self.plain(name).map_err(|fault| match fault.at == self.token().at {
            true => self.token().fault(&format!("p0/{letter} to p15/{letter}")),
            false => fault,
        })?;
        let slash = self.token();
        let expected = |_| slash.fault(&format!("'/{letter}'"));
        self.mark("/").and_then(|()| self.mark(letter)).map_err(expected)
    }

    fn pair(&mut self, name: Field) -> Result<(), Fault> {
        self.mark("{")?;
        let first = self.with_size("p", 0)?;
        if first % 2 == 1 {
            return Err(self.token().fault("an even register, the first of a pair"));
        }
        self.take(name, first / 2, |known| format!("p{}", 2 * known))?;
        self.mark(",")?;
        if self.with_size("p", 0)? != first + 1 {
            return Err(self.token().fault(&format!("p{}, the second of the pair", first + 1)));
        }
        self.next += 1;
        self.mark("}")
    }

    fn group(&mut self, name: Field) -> Result<(), Fault> {
        let group = ["vlx2", "vlx4"].iter().position(|group| self.token().text.eq_ignore_ascii_case(group));
        let group = group.ok_or_else(|| self.token().fault("vlx2 or vlx4"))?;
        self.take(name, group as u8, |known| format!("vlx{}", 2 << known))
    }
}

/// What to say for a name that no instruction has: one that is written nearly so, if there is one.
fn suggestion(name: &str) -> String {
    let near = table().iter().map(|syntax| syntax.mnemonic).min_by_key(|known| distance(name, known));
    match near.filter(|near| is_near(name, near)) {
        Some(near) => format!("an instruction ({near}?)"),
        None => "an instruction ('plokamyr asm --help' names them)".to_string(),
    }
}

/// Whether a name may well be meant for another. Of short ones many are an instruction of A64 with another letter: these have
/// their letters in another order alone.
fn is_near(name: &str, known: &str) -> bool {
    let sorted = |name: &str| {
        let mut letters: Vec<char> = name.chars().collect();
        letters.sort_unstable();
        letters
    };
    let most = match known.len() {
        0..=4 => usize::from(sorted(name) == sorted(known)),
        5 | 6 => 1,
        _ => 2,
    };
    distance(name, known) <= most && name.chars().all(|c| c.is_ascii_alphanumeric())
}

/// How many letters have to be put in, left out, changed or swapped with the next to get from one name to the other.
fn distance(one: &str, other: &str) -> usize {
    let (one, other): (Vec<char>, Vec<char>) = (one.chars().take(20).collect(), other.chars().collect());
    let mut rows: Vec<Vec<usize>> = vec![(0..=other.len()).collect()];
    for (before, c) in one.iter().enumerate() {
        let mut row = vec![before + 1];
        for (place, d) in other.iter().enumerate() {
            let above = &rows[before];
            let changed = above[place] + usize::from(c != d);
            let mut least = changed.min(row[place] + 1).min(above[place + 1] + 1);
            if before > 0 && place > 0 && one[before - 1] == *d && other[place - 1] == *c {
                least = least.min(rows[before - 1][place - 1] + 1);
            }
            row.push(least);
        }
        rows.push(row);
    }
    rows[one.len()][other.len()]
}

#[cfg(test)]
mod tests {
    use super::*;

    #[test]
    fn hints_are_near() {
        let hint = |name| suggestion(name).split(['(', '?']).nth(1).unwrap_or("").to_string();
        let near = [
            ("wihlelo", "whilelo"),
            ("whilo", "whilelo"),
            ("setfr", "setffr"),
            ("adn", "and"),
            ("pnxt", "pnext"),
            ("icnp", "incp"),
        ];
        near.iter().for_each(|(name, known)| assert_eq!(hint(name), *known));
        let far = ["ret", "b", "add", ".text", "b.first", "adds", "csel", "movz", "tst", "loop", "", "ldr"];
        far.iter().for_each(|name| assert!(hint(name).starts_with("'plokamyr"), "{name}: {}", hint(name)));
    }
}
