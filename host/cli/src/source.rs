//! Text with an instruction in each line.

use crate::assemble::{assemble, parse, Fault};
use crate::style::Style;
use crate::words::{is_invisible, plain};

/// A line that is at fault, and where.
#[derive(Clone, Debug, PartialEq, Eq)]
pub struct Problem {
    /// From 1 on.
    line: usize,
    text: String,
    fault: Fault,
}

/// What is at fault in a text, as far as it was looked at.
pub type Problems = Vec<Problem>;

/// So many problems are looked for.
const MOST: usize = 10;

/// The words of a text. A line has one instruction or more, with `;` between them, or none; `//` begins a comment up to the
/// line's end, and one between `/*` and `*/` may go over lines. The whole text is read before the library is asked for a word.
pub fn words(source: &str) -> Result<Vec<u32>, Problems> {
    instructions(source)?;
    each(source, assemble)
}

/// How many instructions a text has, without the library.
pub fn instructions(source: &str) -> Result<usize, Problems> {
    each(source, |statement| parse(statement).map(|_| ())).map(|all| all.len())
}

/// What each instruction of a text is read as.
fn each<T>(source: &str, read: impl Fn(&str) -> Result<T, Fault>) -> Result<Vec<T>, Problems> {
    let (mut all, mut problems) = (Vec::new(), Vec::new());
    let (bare, open) = without_comments(source);
    let lines = source.split('\n').zip(bare.split('\n'));
    for (number, (line, bare)) in (1..).zip(lines) {
        for (start, statement) in statements(bare) {
            match read(statement) {
                Ok(one) => all.push(one),
                Err(fault) => problems.push(Problem::new(number, line, Fault { at: start + fault.at, ..fault })),
            }
            if problems.len() == MOST {
                return Err(problems);
            }
        }
    }
    problems.extend(open.map(|at| unclosed(source, at)));
    if problems.is_empty() {
        Ok(all)
    } else {
        Err(problems)
    }
}

/// The problem of a comment that begins at a byte and has no end.
fn unclosed(source: &str, at: usize) -> Problem {
    let before = &source[..at];
    let start = before.rfind('\n').map_or(0, |place| place + 1);
    let line = source[start..].split('\n').next().unwrap_or("");
    let fault = Fault { at: at - start, found: "'/*'".to_string(), expected: vec!["'*/' after it".to_string()] };
    Problem::new(before.matches('\n').count() + 1, line, fault)
}

/// The parts between `;` that are not blank, and where each begins.
fn statements(line: &str) -> impl Iterator<Item = (usize, &str)> {
    let mut start = 0;
    let parts = line.split(';').map(move |part| {
        let place = start;
        start += part.len() + 1;
        (place, part)
    });
    parts.filter(|(_, part)| !part.trim().is_empty())
}

/// The text with blanks for each byte of a comment, so that all else stays where it is, and where a comment begins that has no
/// end.
fn without_comments(source: &str) -> (String, Option<usize>) {
    let mut text = String::with_capacity(source.len());
    while let Some(start) = source[text.len()..].find('/') {
        let start = text.len() + start;
        text.push_str(&source[text.len()..start]);
        let comment = &source[start..];
        let blank = |byte| if byte == b'\n' { '\n' } else { ' ' };
        match comment_length(comment) {
            Some(0) => text.push('/'),
            Some(length) => text.extend(comment.bytes().take(length).map(blank)),
            None => {
                text.extend(comment.bytes().map(blank));
                return (text, Some(start));
            }
        }
    }
    text.push_str(&source[text.len()..]);
    (text, None)
}

/// How many bytes the comment has that begins here, 0 if none does; none if it has no end.
fn comment_length(text: &str) -> Option<usize> {
    if text.starts_with("//") {
        return Some(text.find('\n').unwrap_or(text.len()));
    }
    match text.strip_prefix("/*") {
        Some(rest) => rest.find("*/").map(|length| length + 4),
        None => Some(0),
    }
}

/// Each problem in three lines: where and what, the line, a mark below the place.
pub fn report(name: &str, problems: &[Problem], style: Style) -> String {
    let mut lines: Vec<String> = problems.iter().map(|problem| problem.report(name, style)).collect();
    if problems.len() == MOST {
        lines.push(format!("{MOST} faults are shown; there may be more"));
    }
    lines.join("\n")
}

/// How much of a line is shown before its place, and at most.
const BEFORE: usize = 60;
const SHOWN: usize = 120;

impl Problem {
    fn new(line: usize, text: &str, fault: Fault) -> Problem {
        Problem { line, text: text.to_string(), fault }
    }

    fn report(&self, name: &str, style: Style) -> String {
        let column = self.text[..self.fault.at].chars().count();
        let left_out = if column < SHOWN - 1 { 0 } else { column - BEFORE };
        let shown = self.text.chars().skip(left_out).take(SHOWN).map(|c| if is_invisible(c) { ' ' } else { c });
        let mark = format!("{}{}", " ".repeat(column - left_out), style.green("^"));
        let line: String = shown.collect();
        let place = format!("{}:{}:{}", plain(name), self.line, column + 1);
        format!("{place}: {}\n    {}\n    {mark}", self.fault, line.trim_end())
    }
}

#[cfg(test)]
mod tests {
    use super::*;

    #[test]
    fn lines_and_comments() {
        let source = "\n pfalse p1.b // none\n/* two\nlines */ setffr; SETFFR ;\n\tpfalse\tp2.b\r\n.inst 0x0";
        assert_eq!(words(source), Ok(vec![0x2518_E401, 0x252C_9000, 0x252C_9000, 0x2518_E402, 0]));
        assert_eq!(words("/* é */setffr // é"), Ok(vec![0x252C_9000]));
        assert_eq!(words(""), Ok(vec![]));
    }

    #[test]
    fn problems_have_a_place() {
        let source = "setffr\n/* é */ setffr; pfalse q1.b\n  setfr\nsetffr /* no end";
        let report = report("kernel.s", &words(source).unwrap_err(), Style::PLAIN);
        let expected = "\
kernel.s:2:24: expected p0.b to p15.b, found 'q1.b'
    /* é */ setffr; pfalse q1.b
                           ^
kernel.s:3:3: expected an instruction (setffr?), found 'setfr'
      setfr
      ^
kernel.s:4:8: expected '*/' after it, found '/*'
    setffr /* no end
           ^";
        assert_eq!(report, expected);
    }

    #[test]
    fn long_lines_and_many_problems() {
        let long = format!("{}q", ";".repeat(1_000));
        let shown = report("kernel.s", &words(&long).unwrap_err(), Style::PLAIN);
        let expected = format!("    {}q\n    {}^", ";".repeat(BEFORE), " ".repeat(BEFORE));
        assert!(shown.starts_with("kernel.s:1:1001: ") && shown.ends_with(&expected), "{shown}");
        let many = report("kernel.s", &words(&"q;".repeat(100_000)).unwrap_err(), Style::PLAIN);
        assert!(many.ends_with("\n10 faults are shown; there may be more") && many.len() < 3_000, "{many}");
    }
}
