//! Titles folded a line at a time, in constant memory.

use crate::failure::{DONE, REFUSED};
use crate::log::Log;
use crate::titles::{Folder, Form, Refusal};
use plokamyr::TITLE_MAX;
use std::io::{self, ErrorKind, Read, Write};
use std::mem::take;
use std::str::from_utf8;

/// How much is read at once.
const BLOCK: usize = 1 << 18;

/// The most bytes that a title has in UTF-8, where a unit takes three at most.
const TITLE_BYTES: usize = 3 * TITLE_MAX;

/// Folds the lines of an input.
#[derive(Clone, Copy, Debug, PartialEq, Eq)]
pub struct Filter {
    pub vl: u64,
    pub form: Form,
}

/// What ends a filter early.
#[derive(Debug)]
pub enum Trouble {
    Input(io::Error),
    Output(io::Error),
}

impl Filter {
    /// Writes a line for each of the input's, and answers the exit status. What was read is written before more is read, so that
    /// who sends a line and waits gets an answer. A line that is refused goes through as it is, and `log` has why.
    pub fn run(self, input: &mut dyn Read, out: &mut dyn Write, log: &mut Log) -> Result<u8, Trouble> {
        let mut lines = Lines::new(self, out, log);
        let status = lines.all(input);
        lines.log.clear();
        status
    }
}

struct Lines<'a, 'b> {
    form: Form,
    folder: Folder,
    out: &'a mut dyn Write,
    log: &'a mut Log<'b>,
    /// What is not yet written.
    text: Vec<u8>,
    /// What is not yet said.
    notes: Vec<u8>,
    /// How many lines have begun.
    number: u64,
    status: u8,
    /// A line of which the beginning is written, since no title is so long.
    long: Option<Measure>,
}

impl<'a, 'b> Lines<'a, 'b> {
    fn new(filter: Filter, out: &'a mut dyn Write, log: &'a mut Log<'b>) -> Lines<'a, 'b> {
        let folder = Folder::new(filter.vl);
        let (text, notes) = (Vec::new(), Vec::new());
        Lines { form: filter.form, folder, out, log, text, notes, number: 0, status: DONE, long: None }
    }

    fn all(&mut self, input: &mut dyn Read) -> Result<u8, Trouble> {
        let mut block = vec![0; BLOCK];
        let mut held = 0;
        loop {
            let read = read(input, &mut block[held..])?;
            let end = held + read;
            let used = match read {
                0 => self.last(&block[..end])?,
                _ => self.lines(&block[..end], held)?,
            };
            self.deliver()?;
            if read == 0 {
                return Ok(self.status);
            }
            block.copy_within(used..end, 0);
            held = end - used;
        }
    }

    /// Folds all lines that end in a block, after the bytes that were held, and answers how many of its bytes that takes: the rest
    /// is a line that goes on. One that is too long for a title is not held; a byte more than a title has may belong to its end.
    fn lines(&mut self, block: &[u8], held: usize) -> Result<usize, Trouble> {
        let (mut at, mut searched) = (0, held);
        while let Some(length) = block[searched..].iter().position(|byte| *byte == b'\n') {
            searched += length + 1;
            self.line(&block[at..searched])?;
            at = searched;
        }
        if self.long.is_none() && block.len() - at <= TITLE_BYTES + 1 {
            return Ok(at);
        }
        self.piece(&block[at..]);
        Ok(block.len())
    }

    /// The line that the input's end ends, if it has begun.
    fn last(&mut self, rest: &[u8]) -> Result<usize, Trouble> {
        if self.long.is_some() || !rest.is_empty() {
            self.line(rest)?;
        }
        Ok(rest.len())
    }

    /// A line up to its end, or what is left of a long one.
    fn line(&mut self, line: &[u8]) -> Result<(), Trouble> {
        if self.long.is_some() {
            self.piece(line);
            return self.close();
        }
        self.number += 1;
        let (title, end) = parts(line);
        let folded = match from_utf8(title) {
            Ok(title) => self.folder.fold(title),
            Err(error) => Err(Refusal::not_utf8(error.valid_up_to() as u64)),
        };
        match folded {
            Ok(units) => self.form.put(units, &mut self.text),
            Err(refusal) => {
                self.refuse(&refusal);
                self.pass(title);
            }
        }
        self.text.extend_from_slice(end);
        self.deliver_if_full()
    }

    /// A piece of a line that is too long.
    fn piece(&mut self, piece: &[u8]) {
        if self.long.is_none() {
            self.number += 1;
        }
        self.long.get_or_insert_with(Measure::default).add(piece);
        self.pass(piece);
    }

    /// The end of a line that is too long.
    fn close(&mut self) -> Result<(), Trouble> {
        let long = self.long.take().unwrap_or_default();
        self.refuse(&long.refusal(&self.folder));
        if self.form.json {
            self.text.extend_from_slice(long.end());
        }
        self.deliver_if_full()
    }

    /// Writes what is refused as it is. JSON has no place for bytes that are no text, nor for what is not held.
    fn pass(&mut self, bytes: &[u8]) {
        if !self.form.json {
            self.text.extend_from_slice(bytes);
        }
    }

    fn refuse(&mut self, refusal: &Refusal) {
        self.status = REFUSED;
        let note = format!("{} fold: line {}: {refusal}\n", self.log.style.red("plokamyr:"), self.number);
        self.notes.extend_from_slice(note.as_bytes());
        if self.form.json {
            self.text.extend_from_slice(refusal.json().to_string().as_bytes());
        }
    }

    fn deliver_if_full(&mut self) -> Result<(), Trouble> {
        match self.text.len() + self.notes.len() < BLOCK {
            true => Ok(()),
            false => self.deliver(),
        }
    }

    fn deliver(&mut self) -> Result<(), Trouble> {
        self.out.write_all(&self.text).and_then(|()| self.out.flush()).map_err(Trouble::Output)?;
        self.log.say(&self.notes);
        self.log.progress(self.number);
        self.text.clear();
        self.notes.clear();
        Ok(())
    }
}

/// Some bytes of an input; none at its end.
fn read(input: &mut dyn Read, block: &mut [u8]) -> Result<usize, Trouble> {
    loop {
        match input.read(block) {
            Err(error) if error.kind() == ErrorKind::Interrupted => {}
            read => return read.map_err(Trouble::Input),
        }
    }
}

/// A line's title, and its end.
fn parts(line: &[u8]) -> (&[u8], &[u8]) {
    let end = match line {
        [.., b'\r', b'\n'] => 2,
        [.., b'\n'] => 1,
        _ => 0,
    };
    line.split_at(line.len() - end)
}

/// What is known of a line that comes in pieces.
#[derive(Debug, Default)]
struct Measure {
    /// The units and the bytes of its characters so far.
    units: u64,
    bytes: u64,
    /// The bytes of a character that the next piece ends.
    begun: Vec<u8>,
    /// Bytes that begin no character come next.
    broken: bool,
    /// `\r`, `\n` or both, as far as they stand last.
    last: &'static [u8],
}

impl Measure {
    fn add(&mut self, piece: &[u8]) {
        self.last = match (piece, self.last) {
            ([.., b'\r', b'\n'], _) | ([b'\n'], b"\r") => b"\r\n",
            ([.., b'\n'], _) => b"\n",
            ([.., b'\r'], _) => b"\r",
            ([], last) => last,
            _ => b"",
        };
        let mut rest = piece;
        while let (false, [byte, after @ ..]) = (self.begun.is_empty(), rest) {
            self.begun.push(*byte);
            let begun = take(&mut self.begun);
            self.count(&begun);
            rest = after;
        }
        self.count(rest);
    }

    fn count(&mut self, bytes: &[u8]) {
        if self.broken {
            return;
        }
        let (length, fault) = match from_utf8(bytes) {
            Ok(_) => (bytes.len(), None),
            Err(error) => (error.valid_up_to(), Some(error.error_len())),
        };
        self.units += from_utf8(&bytes[..length]).map_or(0, |text| text.encode_utf16().count()) as u64;
        self.bytes += length as u64;
        match fault {
            Some(None) => self.begun = bytes[length..].to_vec(),
            Some(Some(_)) => self.broken = true,
            None => {}
        }
    }

    /// The line's end, once nothing more comes.
    fn end(&self) -> &'static [u8] {
        match self.last {
            b"\r" => b"", // it belongs to the title
            end => end,
        }
    }

    fn refusal(&self, folder: &Folder) -> Refusal {
        match self.broken || !self.begun.is_empty() {
            true => Refusal::not_utf8(self.bytes),
            false => folder.refuse(self.units - self.end().len() as u64),
        }
    }
}

#[cfg(test)]
mod tests {
    use super::*;
    use crate::style::Style;
    use crate::words::grouped;
    use std::cell::RefCell;
    use std::rc::Rc;

    const TEXT: Form = Form { units: false, json: false };
    const UNITS: Form = Form { units: true, json: false };
    const JSON: Form = Form { units: false, json: true };

    fn too_long(line: u64, units: usize) -> String {
        let refusal = "list has fewer places than there are positions to visit (reply 11)";
        let units = grouped(units as u64);
        format!("plokamyr: fold: line {line}: {refusal}: {units} units, and 4,096 are the most\n")
    }

    fn not_utf8_json(byte: u64) -> String {
        format!(r#"{{"reply": null, "reason": "not UTF-8 at byte {byte}", "title": null}}"#)
    }

    fn title_json(title: &str) -> String {
        format!(r#"{{"reply": 0, "title": "{title}"}}"#)
    }

    /// An input that comes so many bytes at a time.
    struct Pieces<'a>(&'a [u8], usize);

    impl Read for Pieces<'_> {
        fn read(&mut self, block: &mut [u8]) -> io::Result<usize> {
            let size = self.1.min(block.len()).min(self.0.len());
            let (now, later) = self.0.split_at(size);
            block[..size].copy_from_slice(now);
            self.0 = later;
            Ok(size)
        }
    }

    /// What comes out, what is said, and the status.
    fn filtered(form: Form, input: &mut dyn Read) -> (Vec<u8>, String, u8) {
        let (mut out, mut said) = (Vec::new(), Vec::new());
        let status = Filter { vl: 512, form }.run(input, &mut out, &mut Log::new(&mut said, Style::PLAIN, false));
        (out, String::from_utf8(said).unwrap(), status.unwrap())
    }

    /// The same, however the input comes.
    fn always(form: Form, input: &[u8]) -> (Vec<u8>, String, u8) {
        let whole = filtered(form, &mut Pieces(input, usize::MAX));
        for size in [1, 2, 3, 7, 4096, 12_289, 12_290] {
            assert!(filtered(form, &mut Pieces(input, size)) == whole, "in pieces of {size}");
        }
        whole
    }

    fn folds(input: &str, output: &str) {
        assert_eq!(always(TEXT, input.as_bytes()), (output.as_bytes().to_vec(), String::new(), DONE));
    }

    #[test]
    fn ends_of_lines_stay() {
        folds("", "");
        folds("\n", "\n");
        folds("É", "e");
        folds("École\nÀ\r\n\n\r\nÑ", "ecole\na\r\n\n\r\nn");
        folds("A\rB\r\r\nC\r", "a\rb\r\r\nc\r");
        folds("𝄞 ẞ Æ\0\n", "𝄞 ẞ Æ\0\n");
    }

    #[test]
    fn refused_lines_go_through() {
        let input = b"\xc9A\nA\n\xe2\x82\r\nB\nAB\xff";
        let said = "plokamyr: fold: line 1: not UTF-8 at byte 1\nplokamyr: fold: line 3: not UTF-8 at byte 1\n\
                    plokamyr: fold: line 5: not UTF-8 at byte 3\n";
        assert_eq!(always(TEXT, input), (b"\xc9A\na\n\xe2\x82\r\nb\nAB\xff".to_vec(), said.to_string(), REFUSED));
        assert_eq!(
            always(UNITS, input),
            (b"\xc9A\n0061\n\xe2\x82\r\n0062\nAB\xff".to_vec(), said.to_string(), REFUSED)
        );
        let [first, last] = [1, 3].map(not_utf8_json);
        let [a, b] = ["a", "b"].map(title_json);
        let json = format!("{first}\n{a}\n{first}\r\n{b}\n{last}");
        assert_eq!(always(JSON, input), (json.into_bytes(), said.to_string(), REFUSED));
    }

    /// Titles of the most units, and of one more, in characters of each size and with each end of a line.
    #[test]
    fn long_titles() {
        for (c, folded, units) in [("A", "a", 1), ("É", "e", 1), ("漢", "漢", 1), ("𝄞", "𝄞", 2)] {
            for end in ["\n", "\r\n", ""] {
                let most = 4096 / units;
                folds(&(c.repeat(most) + end), &(folded.repeat(most) + end));
                let input = format!("B\n{}{end}", c.repeat(most + 1));
                let said = too_long(2, 4096 + units);
                let output = input.replacen('B', "b", 1).into_bytes();
                assert_eq!(always(TEXT, input.as_bytes()), (output, said, REFUSED));
            }
        }
    }

    /// A line that is not held whole, with what is and is not a text.
    #[test]
    fn longer_than_a_block() {
        let long = "É𝄞".repeat(100_000);
        for end in ["\n", "\r\n", "\r\nA\n", "", "\r"] {
            let input = long.clone() + end;
            let units = if end == "\r" { 300_001 } else { 300_000 };
            let said = too_long(1, units);
            let (out, notes, status) = always(TEXT, input.as_bytes());
            assert!(out == input.replace('A', "a").into_bytes() && status == REFUSED);
            assert_eq!(notes, said);
            let (out, notes, status) = always(JSON, input.as_bytes());
            let reason = format!("{} units, and 4,096 are the most", grouped(units as u64));
            let refused = format!(r#"{{"reply": 11, "reason": "{reason}", "title": null}}"#);
            let more = end.replace('A', &title_json("a"));
            let more = more.strip_suffix('\r').unwrap_or(&more);
            assert_eq!(String::from_utf8(out).unwrap(), refused + more);
            assert_eq!((notes, status), (said, REFUSED));
        }
        let input = [long.as_bytes(), b"\xf0\x9d\x84A\n"].concat();
        let (out, notes, _) = always(TEXT, &input);
        assert!(out == input);
        assert_eq!(notes, "plokamyr: fold: line 1: not UTF-8 at byte 600001\n");
    }

    /// More text and more notes come out of a block than go in.
    #[test]
    fn many_short_lines() {
        let (out, notes, status) = filtered(JSON, &mut Pieces(&b"\xff\nA\n".repeat(100_000), usize::MAX));
        let lines = format!("{}\n{}\n", not_utf8_json(1), title_json("a"));
        assert!(out == lines.repeat(100_000).into_bytes() && status == REFUSED);
        assert_eq!(notes.lines().count(), 100_000);
        assert!(notes.ends_with("plokamyr: fold: line 199999: not UTF-8 at byte 1\n"));
    }

    /// Lines that are sent one after the other, each when all before it have come back.
    struct Waiting {
        sent: Vec<&'static str>,
        back: Rc<RefCell<Vec<u8>>>,
    }

    impl Read for Waiting {
        fn read(&mut self, block: &mut [u8]) -> io::Result<usize> {
            let [now, expected] = [self.sent.remove(0), self.sent.remove(0)];
            assert_eq!(String::from_utf8_lossy(&self.back.borrow()), expected);
            block[..now.len()].copy_from_slice(now.as_bytes());
            Ok(now.len())
        }
    }

    /// Keeps what is written until it is flushed, as a buffer does.
    struct Buffered(Vec<u8>, Rc<RefCell<Vec<u8>>>);

    impl Write for Buffered {
        fn write(&mut self, bytes: &[u8]) -> io::Result<usize> {
            self.0.extend_from_slice(bytes);
            Ok(bytes.len())
        }

        fn flush(&mut self) -> io::Result<()> {
            self.1.borrow_mut().append(&mut self.0);
            Ok(())
        }
    }

    #[test]
    fn who_waits_gets_an_answer() {
        let back = Rc::new(RefCell::new(Vec::new()));
        let sent = vec!["É\nÀ", "", "\n", "e\n", "Ç\nÑ\nÜ", "e\na\n", "", "e\na\nc\nn\n"];
        let mut out = Buffered(Vec::new(), back.clone());
        let mut said = Vec::new();
        let filter = Filter { vl: 128, form: TEXT };
        let status = filter.run(
            &mut Waiting { sent, back: back.clone() },
            &mut out,
            &mut Log::new(&mut said, Style::PLAIN, false),
        );
        assert_eq!(status.unwrap(), DONE);
        assert_eq!(*back.borrow(), b"e\na\nc\nn\nu");
    }

    struct Failing(ErrorKind, bool);

    impl Read for Failing {
        fn read(&mut self, block: &mut [u8]) -> io::Result<usize> {
            if self.1 {
                return Err(self.0.into());
            }
            self.1 = self.0 != ErrorKind::Interrupted;
            block[..4].copy_from_slice(b"A\nB\n");
            Ok(4)
        }
    }

    impl Write for Failing {
        fn write(&mut self, _: &[u8]) -> io::Result<usize> {
            Err(self.0.into())
        }

        fn flush(&mut self) -> io::Result<()> {
            Ok(())
        }
    }

    #[test]
    fn troubles() {
        let mut said = Vec::new();
        let log = &mut Log::new(&mut said, Style::PLAIN, false);
        let filter = Filter { vl: 128, form: TEXT };
        let mut out = Vec::new();
        let read = filter.run(&mut Failing(ErrorKind::PermissionDenied, false), &mut out, log);
        assert!(matches!(read, Err(Trouble::Input(error)) if error.kind() == ErrorKind::PermissionDenied));
        assert_eq!(out, b"a\nb\n");
        let written = filter.run(&mut &b"A\n"[..], &mut Failing(ErrorKind::BrokenPipe, false), log);
        assert!(matches!(written, Err(Trouble::Output(error)) if error.kind() == ErrorKind::BrokenPipe));
    }
}
