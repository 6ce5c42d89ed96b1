//! What `docs/FORMAT.md` says in tables and hex, held to the library and to an example.

use plokamyr::{
    encode, fold, read, text, write, Form, Kernel, Predicate, Reply, Row, Shared, State, IMAGE_MAX, TEXT_MAX,
    TITLE_MAX, WORDS_MAX,
};
use std::fs;
use std::ops::RangeInclusive;
use std::path::PathBuf;

fn file(name: &str) -> Vec<u8> {
    let path = PathBuf::from(env!("CARGO_MANIFEST_DIR")).join("../..").join(name);
    fs::read(&path).unwrap_or_else(|error| panic!("{}: {error}", path.display()))
}

/// A section of the document, by its heading.
fn section(heading: &str) -> String {
    let document = String::from_utf8(file("docs/FORMAT.md")).expect("the document is text");
    let mut sections = document.split("\n## ");
    sections.find(|section| section.starts_with(heading)).expect("the document has the section").to_owned()
}

/// The cells of a section's rows that begin with a number.
fn rows(heading: &str) -> Vec<Vec<String>> {
    let cells = |line: &str| line.split('|').map(|cell| cell.trim().trim_matches('`').to_owned()).collect::<Vec<_>>();
    let rows = section(heading).lines().map(cells).collect::<Vec<_>>();
    rows.into_iter().filter(|row| row.len() > 3 && row[1].parse::<u32>().is_ok()).collect()
}

/// A number and its name here, as the document has them.
fn entry(number: u32, name: &str) -> (String, String) {
    let words = name.chars().flat_map(|c| if c.is_uppercase() { vec!['_', c] } else { vec![c.to_ascii_uppercase()] });
    (number.to_string(), format!("PLOKAMYR{}", words.collect::<String>()))
}

fn entries(heading: &str) -> Vec<(String, String)> {
    rows(heading).into_iter().map(|row| (row[1].clone(), row[2].clone())).collect()
}

/// The bytes of a line: an offset, then bytes or `00 * count`, then, after two blanks, what they are.
fn bytes(line: &str) -> (usize, Vec<u8>) {
    let (offset, rest) = line.trim_start().split_once("  ").expect("two blanks follow the offset");
    let digits = rest.split("  ").next().expect("bytes follow");
    let bytes = match digits.split_once(" * ") {
        Some((byte, count)) => vec![byte; count.parse().expect("a count")],
        None => digits.split(' ').collect(),
    };
    let bytes = bytes.iter().map(|byte| u8::from_str_radix(byte, 16).expect("a byte in hex"));
    (offset.parse().expect("an offset"), bytes.collect())
}

#[test]
fn the_image_is_the_example() {
    let section = section("The image");
    let dump = section.split("```").nth(1).expect("the image in hex").trim_matches('\n');
    let mut image = Vec::new();
    for line in dump.lines() {
        let (offset, bytes) = bytes(line);
        assert_eq!(offset, image.len(), "{line}");
        image.extend(bytes);
    }
    assert_eq!(image, file("examples/first.image"));
    assert_eq!(read(&image, &mut [0; WORDS_MAX]).reply, Reply::Done);
}

/// A number with a comma before its last three digits, as the document writes it.
fn grouped(number: usize) -> String {
    format!("{},{:03}", number / 1000, number % 1000)
}

/// The lengths that the document gives: the least, and the most.
#[test]
fn lengths() {
    let length = |vl: u64, words: usize| {
        let vl = vl as usize;
        279 + vl / 4 + vl / 64 + 4 * words
    };
    assert!(section("The image").contains("279 + VL/4 + VL/64 + 4w bytes"));
    assert_eq!(length(2048, WORDS_MAX), IMAGE_MAX);
    assert!(section("The image").contains(&format!("{} with {} at VL 2048", grouped(IMAGE_MAX), grouped(WORDS_MAX))));
    for vl in [128, 256, 512, 1024, 2048] {
        let mut image = vec![0; IMAGE_MAX];
        assert_eq!(write(&State::new(vl, 1), &[7; 3], &mut image).length, length(vl, 3));
    }
    assert!(section("The image").contains(&format!("{} without words at VL 128", length(128, 0))));
}

/// The same image in the older kind: without the bytes that the document names, and written back with them.
#[test]
fn the_old_image_is_the_example() {
    let (first, old) = (file("examples/first.image"), file("examples/old.image"));
    assert!(section("The image").contains("it has no bytes 295 to 300"));
    assert_eq!(old, [&first[..295], &first[301..]].concat());
    let mut words = [0; WORDS_MAX];
    let reading = read(&old, &mut words);
    let mut image = vec![0; first.len()];
    assert_eq!(write(&reading.state, &words[..reading.count], &mut image).length, first.len());
    assert_eq!((image, text(&old)), (first.clone(), text(&first)));
}

#[test]
fn the_lines_are_the_example() {
    let section = section("The program's lines");
    let lines = section.split("```").nth(1).expect("the lines").trim_start_matches('\n');
    assert_eq!(lines.as_bytes(), file("examples/first.out"));
    assert_eq!(lines.as_bytes(), text(&file("examples/first.image")));
}

#[test]
fn room_for_any_text() {
    assert!(section("The program's lines").contains(&format!("{} bytes are room for any", grouped(TEXT_MAX))));
}

#[test]
fn replies() {
    let ours: Vec<_> = Reply::ALL.iter().map(|reply| entry(reply.number(), &format!("{reply:?}"))).collect();
    assert_eq!(entries("Replies"), ours);
}

#[test]
fn forms() {
    let ours: Vec<_> = Form::ALL.iter().map(|form| entry(form.number().into(), &format!("{form:?}"))).collect();
    assert_eq!(entries("Instruction words"), ours);
}

/// A form's fields by name and width, and the bits of a word with every field at its largest (or at 0).
fn word_of(bits: &str, largest: bool) -> (Vec<(String, usize)>, String) {
    let (mut fields, mut word) = (Vec::new(), String::new());
    for piece in bits.split(' ') {
        if piece.starts_with(|c: char| c.is_ascii_digit()) {
            word += piece;
            continue;
        }
        let (name, width) = match piece.trim_end_matches(')').split_once('(') {
            Some((name, width)) => (name, width.parse().expect("a width")),
            None => (piece, if piece == "size" { 2 } else { 1 }),
        };
        fields.push((name.to_owned(), width));
        word += &(if largest { "1" } else { "0" }).repeat(width);
    }
    (fields, word)
}

#[test]
fn words() {
    for (form, row) in Form::ALL.iter().zip(rows("Instruction words")) {
        for largest in [false, true] {
            let (fields, word) = word_of(&row[3], largest);
            let (names, values): (Vec<_>, Vec<_>) =
                fields.iter().map(|(name, width)| (name.as_str(), if largest { (1 << width) - 1 } else { 0 })).unzip();
            assert_eq!((word.len(), names.as_slice()), (32, form.field_names()));
            let word = u32::from_str_radix(&word, 2).expect("bits");
            assert_eq!(encode(Row::new(*form, &values).expect("the form's own fields")), Ok(word), "{form:?}");
            let level = row[4].parse().unwrap_or(if largest { 1 } else { 2 }); // WHILE_ONE's, by lt
            assert_eq!(State::new(128, level).step(word), Reply::Done, "{form:?}");
            assert_eq!(State::new(128, level - 1).step(word), Reply::LevelTooLow, "{form:?}");
        }
    }
}

/// A number in hex, after which something else may stand.
fn hex(text: &str) -> u16 {
    u16::from_str_radix(text.split(' ').next().expect("a number"), 16).expect("a number in hex")
}

/// The units of a cell, as `C0 to C5, E0 to E5` or `C7, E7`.
fn ranges(cell: &str) -> Vec<RangeInclusive<u16>> {
    cell.split(", ").map(|range| hex(range)..=hex(range.split(" to ").nth(1).unwrap_or(range))).collect()
}

/// The table of titles: every unit becomes what its row says, and stays if it has none.
#[test]
fn titles() {
    let section = section("Titles");
    let rows = section.lines().filter(|line| line.starts_with("| ")).skip(1);
    let rows: Vec<_> =
        rows.map(|row| row.trim_matches(&['|', ' '][..]).split_once(" | ").expect("two cells")).collect();
    let becomes = |unit: u16| match rows.iter().find(|row| ranges(row.0).iter().any(|range| range.contains(&unit))) {
        Some((_, letter)) => letter.strip_prefix("itself + ").map_or_else(|| hex(letter), |more| unit + hex(more)),
        None => unit,
    };
    for first in (0..=u16::MAX).step_by(TITLE_MAX) {
        let mut title: Vec<u16> = (first..=first + (TITLE_MAX as u16 - 1)).collect();
        let wanted: Vec<u16> = title.iter().copied().map(becomes).collect();
        assert_eq!((fold(&mut title, 512), title), (Reply::Done, wanted));
    }
    assert!(section.contains(&format!("at most {} units", grouped(TITLE_MAX))));
}

/// A bit of the result, from Pg, Pn and Pm.
type Operation = fn(bool, bool, bool) -> bool;

const OPERATIONS: [(&str, Operation); 8] = [
    ("000 AND", |g, n, m| g && n && m),
    ("001 BIC", |g, n, m| g && n && !m),
    ("010 EOR", |g, n, m| g && n != m),
    ("011 SEL", |g, n, m| if g { n } else { m }),
    ("100 ORR", |g, n, m| g && (n || m)),
    ("101 ORN", |g, n, m| g && (n || !m)),
    ("110 NOR", |g, n, m| g && !(n || m)),
    ("111 NAND", |g, n, m| g && !(n && m)),
];

/// The list of op, o2, o3 with their names, in the document and in the header; and that each does what its name says.
#[test]
fn operations() {
    let list = OPERATIONS.map(|(entry, _)| entry).join(", ");
    for name in ["docs/FORMAT.md", "include/plokamyr.h"] {
        assert!(String::from_utf8(file(name)).expect("text").contains(&list), "{name}");
    }
    for (entry, result) in OPERATIONS {
        let bits: Vec<u8> = entry.bytes().take(3).map(|digit| digit - b'0').collect();
        let row = Row::new(Form::Logic, &[bits[0], 0, 3, 1, bits[1], 2, bits[2], 4]).expect("the form's own fields");
        let mut state = State::new(128, 1);
        let combinations = [0xF0, 0xCC, 0xAA].map(Predicate::from); // all of three bits, and none above
        (1..4).zip(combinations).for_each(|(number, p)| state.set_p(number, p));
        assert_eq!(state.step(encode(row).expect("each has a word without S")), Reply::Done);
        for bit in 0..16 {
            let [g, n, m] = combinations.map(|p| p.bit(bit));
            assert_eq!(state.p()[4].bit(bit), result(g, n, m), "{entry}, {bit}");
        }
    }
}

/// Where the count of a counter ends; the bit after that is not looked at.
#[test]
fn counts() {
    assert!(section("Instruction words").contains("(6 at VL 128, 10 at VL 2048)"));
    let cntp = encode(Row::new(Form::CntpCounter, &[0, 1, 8, 0]).expect("the form's own fields")).expect("in range");
    for (vl, last) in [(128, 6), (256, 7), (512, 8), (1024, 9), (2048, 10)] {
        let counted = |bit: u32| {
            let mut state = State::new(vl, 3);
            state.set_p(8, Predicate::from(1 << bit | 1));
            assert_eq!(state.step(cntp), Reply::Done);
            state.x[0]
        };
        assert_eq!((counted(last), counted(last + 1)), (vl / 4, 0));
    }
}

/// The numbers of registers such as `X0 to X15`.
fn numbers(registers: &str) -> RangeInclusive<u32> {
    let number = |name: &str| name[1..].parse().expect("a number after X or P");
    let (first, last) = registers.split_once(" to ").expect("the first and the last");
    number(first)..=number(last)
}

/// What each kernel owns; INCP names an X and a P.
#[test]
fn owners() {
    let section = section("Two kernels");
    for (kernel, name) in [(Kernel::First, "the first"), (Kernel::Second, "the second")] {
        let mut rows = section.lines().map(|line| line.split('|').map(str::trim).collect::<Vec<_>>());
        let row = rows.find(|row| row.get(1) == Some(&name)).expect("a row for each kernel");
        let (own_x, own_p) = (numbers(row[2]), numbers(row[3]));
        for (x, p) in (0..32).flat_map(|x| (0..16).map(move |p| (x, p))) {
            let owned = (x == 31 || own_x.contains(&x)) && own_p.contains(&p);
            let reply = if owned { Reply::Done } else { Reply::NotOwned };
            assert_eq!(Shared::new(128, 1).step(kernel, 0x252C_8800 | p << 5 | x), reply, "{kernel:?} x{x} p{p}");
        }
    }
}
