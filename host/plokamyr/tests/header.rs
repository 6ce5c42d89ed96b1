//! The numbers here are those of `include/plokamyr.h`, read from it. `PLOKAMYR_INCLUDE` is its folder if it lies elsewhere.
//! The version is that of the workspace, from which the command and `./install` have it.

use plokamyr::{Form, Reply, Shared, State, IMAGE_MAX, TEXT_MAX, TITLE_MAX, WORDS_MAX};
use std::mem::size_of;
use std::path::PathBuf;
use std::{env, fs};

fn header() -> String {
    let folder = match env::var_os("PLOKAMYR_INCLUDE") {
        Some(folder) => PathBuf::from(folder),
        None => PathBuf::from(env!("CARGO_MANIFEST_DIR")).join("../../include"),
    };
    let file = folder.join("plokamyr.h");
    fs::read_to_string(&file).unwrap_or_else(|error| panic!("{}: {error}", file.display()))
}

/// The names of an enum of the header, each of which must have its place as its number.
fn names(header: &str, name: &str) -> Vec<String> {
    let start = header.find(&format!("enum {name} {{")).expect("the header has the enum");
    let body = header[start..].split(&['{', '}'][..]).nth(1).expect("the enum has a body");
    let entries = body.lines().filter_map(|line| line.split_once(" = "));
    let entries = entries.enumerate().map(|(place, (name, rest))| {
        let number = rest.split(|c: char| !c.is_ascii_digit()).next();
        assert_eq!(number, Some(place.to_string().as_str()), "{name}");
        name.trim().strip_prefix("PLOKAMYR_").expect("our names begin so").replace('_', "").to_lowercase()
    });
    entries.collect()
}

/// What a name is defined as.
fn defined<'a>(header: &'a str, name: &str) -> &'a str {
    let line = header.lines().find_map(|line| line.strip_prefix(&format!("#define {name} ")));
    line.expect("the header has the constant")
}

fn constant(header: &str, name: &str) -> usize {
    defined(header, name).parse().expect("a constant is a number")
}

fn file(name: &str) -> String {
    let file = PathBuf::from(env!("CARGO_MANIFEST_DIR")).join("../..").join(name);
    fs::read_to_string(&file).unwrap_or_else(|error| panic!("{}: {error}", file.display()))
}

#[test]
fn replies() {
    let ours: Vec<_> = Reply::ALL.iter().map(|reply| format!("{reply:?}").to_lowercase()).collect();
    assert_eq!(names(&header(), "plokamyr_reply"), ours);
    for (place, reply) in Reply::ALL.iter().enumerate() {
        assert_eq!(reply.number() as usize, place);
        assert_eq!(Reply::from_number(reply.number()), *reply);
    }
}

#[test]
fn forms() {
    let ours: Vec<_> = Form::ALL.iter().map(|form| format!("{form:?}").to_lowercase()).collect();
    assert_eq!(names(&header(), "plokamyr_form"), ours);
    for (place, form) in Form::ALL.iter().enumerate() {
        assert_eq!(usize::from(form.number()), place);
        assert_eq!(Form::from_number(form.number()), *form);
    }
}

#[test]
fn fields() {
    let header = header();
    for form in Form::ALL {
        let names = form.field_names().join(", ");
        assert!(header.contains(&names), "{form:?}: {names}");
    }
}

/// The sizes that the header asserts of states, for C and for C++.
#[test]
fn sizes_of_states() {
    for (name, size) in [("state", size_of::<State>()), ("shared", size_of::<Shared>())] {
        let asserted = format!("sizeof(struct plokamyr_{name}) == {size},");
        assert_eq!(header().matches(&asserted).count(), 2, "{asserted}");
    }
}

#[test]
fn constants() {
    let header = header();
    assert_eq!(constant(&header, "PLOKAMYR_WORDS_MAX"), WORDS_MAX);
    assert_eq!(constant(&header, "PLOKAMYR_IMAGE_MAX"), IMAGE_MAX);
    assert_eq!(constant(&header, "PLOKAMYR_TEXT_MAX"), TEXT_MAX);
    assert_eq!(constant(&header, "PLOKAMYR_TITLE_MAX"), TITLE_MAX);
    assert_eq!(constant(&header, "PLOKAMYR_ROW"), 1 + 8);
}

/// One version: the workspace's, this crate's, the header's as a text and as a number, and the newest of CHANGELOG.md.
#[test]
fn versions() {
    let version = env!("CARGO_PKG_VERSION");
    let header = header();
    let parts: Vec<usize> = version.split('.').map(|part| part.parse().expect("a number")).collect();
    assert!(matches!(parts[..], [_, 0..=99, 0..=99]), "{version}");
    assert!(file("host/Cargo.toml").contains(&format!("[workspace.package]\nversion = \"{version}\"\n")), "{version}");
    assert_eq!(defined(&header, "PLOKAMYR_VERSION_TEXT"), format!("\"{version}\""));
    assert_eq!(constant(&header, "PLOKAMYR_VERSION"), parts[0] * 10_000 + parts[1] * 100 + parts[2]);
    let changes = file("CHANGELOG.md");
    let newest = changes.lines().find_map(|line| line.strip_prefix("## ")).expect("the log has a heading");
    assert_eq!(newest.split(&[' ', ':', ','][..]).next(), Some(version));
}

/// How many bytes a state had in each layout, the first being 1: a state that grows is another layout.
const STATES: [usize; 3] = [776, 808, 936];

/// The layout's number, wherever the header and the table of CHANGELOG.md have it.
#[test]
fn layouts() {
    let (header, changes) = (header(), file("CHANGELOG.md"));
    for (bytes, layout) in STATES.iter().zip(1..) {
        let row = format!("\n| {layout} | {bytes} bytes | ");
        assert_eq!(changes.matches(&row).count(), 1, "{row}");
    }
    let layout = constant(&header, "PLOKAMYR_LAYOUT");
    assert_eq!((layout, size_of::<State>()), (STATES.len(), STATES[STATES.len() - 1]));
    let numbers = header.split("plokamyr_layout_").skip(1).map(|rest| rest.split(|c: char| !c.is_ascii_digit()).next());
    let numbers: Vec<_> = numbers.collect();
    assert_eq!(numbers, [Some(layout.to_string().as_str()); 2]);
    assert!(header.contains(&format!(".long 9, 4, {layout}\\n")), "the note has another number");
}
