//! The command `plokamyr`: it shows and converts, and every meaning comes from the proved library.
//!
//! `syntax` has the text of instructions in one table, `help` the commands in another. `commands` has a module for each, which
//! reads all that is typed before it first asks the library: host/usage.sh has errors told without one.

mod advice;
mod args;
mod assemble;
mod change;
mod commands;
mod counter;
mod disassemble;
mod dump;
mod failure;
mod faults;
mod filter;
mod help;
mod image;
mod json;
mod lanes;
mod list;
mod log;
mod manual;
mod reason;
mod save;
mod source;
mod style;
mod sve;
mod syntax;
mod terminal;
mod titles;
mod words;

pub use assemble::{assemble, Fault};
pub use disassemble::{disassemble, level, Aliases};
pub use failure::{why, Failure, Outcome};
pub use filter::{Filter, Trouble};
pub use log::Log;
pub use style::Style;

/// What the command answers to its arguments, after its own name.
pub fn answer(given: &[String], style: Style) -> Result<Outcome, Failure> {
    let done = |text: String| Ok(Outcome::new(text, failure::DONE));
    let (name, rest) = match given {
        [] => return Err("a command is missing (try --help)".into()),
        [name, rest @ ..] => (name.as_str(), rest),
    };
    match name {
        "-h" | "--help" => return done(help::overview(style)),
        "help" if rest.is_empty() => return done(help::overview(style)),
        "help" => return answer(&[&rest[..1], &["--help".to_string()]].concat(), style),
        "-V" | "--version" => return done(format!("{} ({})\n", help::VERSION, help::BUILD)),
        "--man" => return done(manual::manual()),
        _ => {}
    }
    let command = help::COMMANDS.iter().find(|command| command.name == name);
    let command = command.ok_or_else(|| unknown(name))?;
    if rest.iter().take_while(|text| *text != "--").any(|text| text == "-h" || text == "--help") {
        return done(help::page(command, style));
    }
    let named = |failure: Failure| Failure { text: format!("{name}: {}", failure.text), ..failure };
    let args = args::parse(command, rest).map_err(named)?;
    match (command.run)(&args, style) {
        // a refused image, for a program
        Err(Failure { json: Some(json), status, .. }) if args.has("json") => Ok(Outcome::new(json.line(), status)),
        outcome => outcome.map_err(named),
    }
}

fn unknown(name: &str) -> Failure {
    let names: Vec<&str> = help::COMMANDS.iter().map(|command| command.name).collect();
    format!("there is no command '{name}': {} would do (try --help)", words::listed(&names)).into()
}
