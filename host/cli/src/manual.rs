//! The manual page, for man(1), from the table of the commands.

use crate::help::{Command, ABOUT, COMMANDS, DATE, ENVIRONMENT, FORMAT, STATUS, VERSION};

/// The page in roff.
pub fn manual() -> String {
    let mut page = format!(
        ".TH PLOKAMYR 1 {DATE} \"{VERSION}\"\n.SH NAME\nplokamyr \\- images, words and states of SVE predicates\n"
    );
    page += ".SH SYNOPSIS\n.B plokamyr\n.I COMMAND\n\\&..\n.br\n.B plokamyr \\-\\-help\n|\n.B \\-\\-version\n|\n.B \\-\\-man\n";
    page += &format!(".SH DESCRIPTION\n{}\n.I FILE\nmay be \\- for standard input.\n.SH COMMANDS\n", roff(ABOUT));
    page.extend(COMMANDS.iter().map(section));
    page += ".SH EXIT STATUS\n";
    for (status, meaning) in STATUS {
        page += &format!(".TP\n{status}\n{}\n", roff(meaning));
    }
    page += ".SH ENVIRONMENT\n";
    for (name, meaning) in ENVIRONMENT {
        page += &format!(".TP\n{name}\n{}\n", roff(meaning));
    }
    page + &format!(".SH FILES\n{}\n", roff(FORMAT))
}

fn section(command: &Command) -> String {
    let mut text = format!(".SS {}\n{}\n", roff(&command.usage()), roff(command.text));
    for option in command.options {
        text += &format!(".TP\n.B {}\n{}\n", roff(&option.usage()), roff(option.text));
    }
    if let Some(list) = command.list {
        text += &format!(".PP\n{}\n", roff(&list()));
    }
    text + &format!(".PP\nFor example:\n.PP\n.RS\n.nf\nplokamyr {}\n.fi\n.RE\n", roff(command.example))
}

/// A text as roff takes it: dashes and quotes are what they are, other letters are told by their numbers, and no line begins with a
/// control character.
fn roff(text: &str) -> String {
    let plain = text.replace('\\', "\\e").replace('-', "\\-").replace('\'', "\\(aq");
    let told = |c: char| if c.is_ascii() { c.to_string() } else { format!("\\[u{:04X}]", u32::from(c)) };
    let plain: String = plain.chars().map(told).collect();
    match plain.starts_with('.') {
        true => format!("\\&{plain}"),
        false => plain,
    }
}
