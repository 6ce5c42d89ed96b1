//! What the command has, in one table: by it arguments are read, and `--help` and the manual page are written.

use crate::args::Args;
use crate::commands::{asm, diff, dis, explain, fold, new, run, show, walk};
use crate::failure::{Failure, Outcome};
use crate::style::Style;
use crate::syntax::table;
use crate::words::folded;

/// What a command prints, given its arguments and whether there is colour.
type Run = fn(&Args, Style) -> Result<Outcome, Failure>;

pub struct Command {
    pub name: &'static str,
    pub operands: &'static str,
    pub summary: &'static str,
    pub text: &'static str,
    /// What is listed besides.
    pub list: Option<fn() -> String>,
    pub options: &'static [Opt],
    pub example: &'static str,
    pub run: Run,
}

pub struct Opt {
    /// Its name, without dashes; one letter is a short option.
    pub key: &'static str,
    /// What its value is called, if it takes one.
    pub value: Option<&'static str>,
    pub repeats: bool,
    pub text: &'static str,
}

impl Command {
    /// How it is called.
    pub fn usage(&self) -> String {
        let options = if self.options.is_empty() { "" } else { " [OPTIONS]" };
        format!("plokamyr {} {}{options}", self.name, self.operands)
    }
}

impl Opt {
    pub fn name(&self) -> String {
        dashed(self.key)
    }

    /// With its value, and dots if it may be given again.
    pub fn usage(&self) -> String {
        let value = self.value.map_or(String::new(), |value| format!(" {value}"));
        let dots = if self.repeats { ".." } else { "" };
        format!("{}{value}{dots}", self.name())
    }
}

/// An option as it is written.
pub fn dashed(key: &str) -> String {
    format!("{}{key}", if key.len() == 1 { "-" } else { "--" })
}

const fn flag(key: &'static str, text: &'static str) -> Opt {
    Opt { key, value: None, repeats: false, text }
}

const fn option(key: &'static str, value: &'static str, text: &'static str) -> Opt {
    Opt { key, value: Some(value), repeats: false, text }
}

const fn repeated(key: &'static str, value: &'static str, text: &'static str) -> Opt {
    Opt { key, value: Some(value), repeats: true, text }
}

const JSON: Opt = flag("json", "print JSON, with the fields that FORMAT.md has");

pub const COMMANDS: &[Command] = &[
    Command {
        name: "run",
        operands: "[FILE]",
        summary: "steps the words of an image, a line for each",
        text: "Prints for each word its number, the word, the reply and NZCV, and at the end how many words are done; 'image R' \
               if the image is refused.",
        list: None,
        options: &[
            flag("trace", "each line also has the instruction and what it changed, before and after, or why it is refused; of a refused image also where the fault is"),
            JSON,
        ],
        example: "run --trace tail.image",
        run: run::command,
    },
    Command {
        name: "show",
        operands: "FILE",
        summary: "shows the register state in an image",
        text: "Shows the settings, the X that are not zero, each predicate with its count and its lanes, the lowest first, in rows \
               with the number of the first lane of each, FFR, and the flags: N says that the first active lane is true, Z that none is, \
               C that the last is not. At level 3 also what P8 to P15 are if they are read as counters: the bits do not tell a mask \
               from a counter. A row has 64 lanes, or 32 where there are fewer than 88 columns.",
        list: None,
        options: &[
            option("after", "N", "the state after N words have been stepped; it stops before one that is refused, with status 1"),
            option("size", "b|h|s|d", "the size of lanes: bytes (as without this option), halfwords, words, doublewords"),
            JSON,
        ],
        example: "show --after 2 tail.image",
        run: show::command,
    },
    Command {
        name: "dis",
        operands: "WORD.. | FILE",
        summary: "shows words as instructions",
        text: "A WORD has up to eight hexadecimal digits, with or without 0x; one operand that is none names an image, or a list of \
               words of eight hexadecimal digits as asm prints it (./NAME for a name of hexadecimal digits). Prints each word with its instruction, as LLVM \
               writes it, and the level that it asks: 1 SVE, 2 SVE2, 3 SVE2p1. A word that is none of ours is foreign if its bits 31:24 are not \
               00100101, else undefined here.",
        list: None,
        options: &[flag("aliases", "show mov, movs, not and nots where they apply"), JSON],
        example: "dis 25a21c20 2519c401",
        run: dis::command,
    },
    Command {
        name: "asm",
        operands: "TEXT.. | FILE.s",
        summary: "turns instructions into words",
        text: "A TEXT is an instruction in Arm's syntax, or more with ';' between them. A FILE.s has them in lines; // begins a \
               comment, and /* and */ enclose one. mov, movs, not and nots are aliases. \
               '.inst 0x25104041' stands for a word as it is. Prints the words.",
        list: Some(instructions),
        options: &[],
        example: "asm 'whilelo p0.s, x1, x2'",
        run: asm::command,
    },
    Command {
        name: "new",
        operands: "-o FILE --vl BITS [KERNEL]",
        summary: "makes an image",
        text: "Writes an image with the words of KERNEL, or with none: KERNEL has instructions, as asm reads them, or a list of words, \
               as asm prints it. What is not given is zero, except that the level is 3 and access is on. FILE is written whole or stays as \
               it was.",
        list: None,
        options: &[
            option("o", "FILE", "the image to write; - for standard output"),
            option("vl", "BITS", "the vector length: 128, 256, 512, 1024 or 2048"),
            option("level", "N", "0 none, 1 SVE, 2 SVE2, 3 SVE2p1"),
            flag("no-access", "access to SVE is off"),
            repeated("x", "N=VALUE", "the value of X register N, 0 to 30, decimal or 0x..; -1 is 0xffffffffffffffff; may be given for each"),
            repeated("p", "N.SIZE=LANES", "the true lanes of P register N at a size b, h, s or d: 0-4,7, all or none; may be given for each"),
            option("ffr", "LANES", "the true lanes of FFR, in bytes"),
            option("nzcv", "BITS", "the flags, as 1010"),
        ],
        example: "new -o tail.image --vl 512 -x 1=64 -x 2=69 -p 1.b=0-4,7 tail.s",
        run: new::command,
    },
    Command {
        name: "explain",
        operands: "REPLY | FILE",
        summary: "says what a reply means, or where an image is at fault",
        text: "For a REPLY what it means, by its number, as 14 or 0xe, or by its name, as PLOKAMYR_NOT_MONOTONIC or NotMonotonic \
               (./NAME for a file of such a name). For an image that is refused the section, the byte, its value and what is allowed there; \
               for one that is not, the word that is refused, if there is one, and why.",
        list: None,
        options: &[JSON],
        example: "explain tail.image",
        run: explain::command,
    },
    Command {
        name: "diff",
        operands: "A B",
        summary: "shows what differs between two images",
        text: "Compares the states and the words of two images. Words are compared from both ends, and all between are shown, - for A and + for B. \
               Exit status 0 if they are alike, 1 if they differ.",
        list: None,
        options: &[JSON],
        example: "diff tail.image later.image",
        run: diff::command,
    },
    Command {
        name: "walk",
        operands: "FILE -n N -m M -d D -k K",
        summary: "walks the positions from Xn up to Xm, on the state in an image",
        text: "PFALSE Pk; then WHILELO Pd from Xn to Xm, PNEXT Pk through Pd, INCP Xn by Pd, repeated until no lane is left. \
               Prints the reply, how many instructions were executed, the positions visited and the state after; of a walk that is refused \
               and leaves all as it was, the reply and why.",
        list: None,
        options: &[
            option("n", "N", "the X register with the first position"),
            option("m", "M", "the X register with the limit; 31 or xzr stands for zero"),
            option("d", "D", "the P register that WHILELO writes"),
            option("k", "K", "the P register that PNEXT writes"),
            option("size", "b|h|s|d", "the size of elements: bytes if it is not given"),
            option("budget", "N", "at most so many instructions; no limit if it is not given"),
            JSON,
        ],
        example: "walk tail.image -n 1 -m 2 -d 0 -k 1",
        run: walk::command,
    },
    Command {
        name: "fold",
        operands: "[TEXT..]",
        summary: "turns titles into small letters without accents, for an index",
        text: "Prints each TEXT with A to Z small and the letters of Latin-1 without their accents. Each of its 16-bit units, of which there may \
               be 4,096, is folded once, by the walk at a vector length; what comes out is the same at every one. A unit without a plain letter \
               stays, as those of Æ, Ø and ß, and so do all beyond Latin-1. Without TEXT it is a filter: each line of standard input is a \
               title, and is written as soon as it is folded. A line that has more units or is not UTF-8 goes through as it is; its number and the \
               reason are told on standard error, and the status is 1.",
        list: None,
        options: &[
            option("vl", "BITS", "the vector length: 128, 256, 512, 1024 or 2048; 512 if it is not given"),
            flag("units", "print the units, four hexadecimal digits each, in place of the text"),
            flag("json", "print JSON, with the fields that FORMAT.md has; without TEXT an object for each line"),
        ],
        example: "fold 'École normale supérieure'",
        run: fold::command,
    },
];

pub const VERSION: &str = concat!("plokamyr ", env!("CARGO_PKG_VERSION"));

/// When the texts here were last changed, for the manual page.
pub const DATE: &str = "2026-11-18";

/// The commit and the kit that the library and the command are built from, as host/command.sh tells them.
pub const BUILD: &str = match option_env!("PLOKAMYR_BUILD") {
    Some(build) => build,
    None => "built by cargo alone",
};

pub const FORMAT: &str = "FORMAT.md has images, words, replies and JSON in full: docs/FORMAT.md in the repository, \
                          share/doc/plokamyr/FORMAT.md below the folder that the command is installed in.";

pub const ABOUT: &str = "Runs, shows, makes and compares images of Plokamyr, the predicate part of an Arm SVE interpreter, turns words into \
                         instructions and back, and folds titles. An image is a file with a register state and instruction words. What an \
                         instruction does comes from the proved library.";

pub const STATUS: [(&str, &str); 5] = [
    ("0", "done"),
    ("1", "a word, a walk or a title was refused; images differ"),
    ("2", "an image was refused"),
    ("3", "anything else, with a message on standard error that says what"),
    ("141", "the reader of standard output has gone away; nothing is said"),
];

pub const ENVIRONMENT: [(&str, &str); 2] = [
    ("COLUMNS", "How many columns lines have, in place of what the terminal says. Below 88 a row has 32 lanes."),
    ("NO_COLOR", "If it is set and not empty, there is no colour on a terminal either."),
];

/// The page of all commands.
pub fn overview(style: Style) -> String {
    let folded = |text| folded(text, 0, style.prose());
    let mut page = format!("usage: plokamyr COMMAND ..\n\n{}\n\n", folded(ABOUT));
    for command in COMMANDS {
        page += &format!("  {:<8} {}\n", command.name, command.summary);
    }
    page += &format!("\n{}\n", folded(MORE));
    page += &format!("A FILE may be - for standard input.\n\n{}\n\nExit status:\n", folded(FORMAT));
    for (status, meaning) in STATUS {
        page += &format!("  {status:<3}  {meaning}\n");
    }
    page
}

const MORE: &str = "plokamyr COMMAND --help has more of each, plokamyr --man the manual page; there is --version too.";

/// The page of one command.
pub fn page(command: &Command, style: Style) -> String {
    let folded = |text: &str, indent| folded(text, indent, style.prose());
    let mut page = format!("usage: {}\n\n{}\n", command.usage(), folded(command.text, 0));
    let width = command.options.iter().map(|option| option.usage().len()).max().unwrap_or(0);
    for (place, option) in command.options.iter().enumerate() {
        let text = folded(option.text, width + 4);
        page += if place == 0 { "\n" } else { "" };
        page += &format!("  {:<width$}  {text}\n", option.usage());
    }
    if let Some(list) = command.list {
        page += &format!("\n{}\n", folded(&list(), 0));
    }
    page + &format!("\nFor example:\n    plokamyr {}\n", command.example)
}

fn instructions() -> String {
    let mut names: Vec<&str> = table().iter().map(|syntax| syntax.mnemonic).collect();
    names.sort_unstable();
    names.dedup();
    format!("Instructions: {}.", names.join(", "))
}
