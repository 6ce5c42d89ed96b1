//! Options and operands of a command.

use crate::failure::Failure;
use crate::help::{Command, Opt};

/// What a command was given.
#[derive(Debug, Default)]
pub struct Args {
    options: Vec<(&'static str, String)>,
    pub operands: Vec<String>,
}

impl Args {
    pub fn has(&self, key: &str) -> bool {
        self.value(key).is_some()
    }

    pub fn value(&self, key: &str) -> Option<&str> {
        self.values(key).first().copied()
    }

    pub fn values(&self, key: &str) -> Vec<&str> {
        self.options.iter().filter(|(known, _)| *known == key).map(|(_, value)| value.as_str()).collect()
    }

    fn add(&mut self, option: &'static Opt, value: String) -> Result<(), Failure> {
        if self.has(option.key) && !option.repeats {
            return Err(format!("{} is given twice", option.name()).into());
        }
        self.options.push((option.key, value));
        Ok(())
    }
}

/// Reads what stands after a command's name. Options may stand anywhere; after `--` there are none.
pub fn parse(command: &Command, given: &[String]) -> Result<Args, Failure> {
    let mut args = Args::default();
    let mut given = given.iter();
    while let Some(text) = given.next() {
        if text == "--" {
            args.operands.extend(given.by_ref().cloned());
        } else if text.starts_with('-') && text != "-" {
            let (option, attached) = find(command, text)?;
            args.add(option, value(option, attached, &mut given)?)?;
        } else {
            args.operands.push(text.clone());
        }
    }
    Ok(args)
}

/// The value of an option, which is attached to it or stands next.
fn value<'a>(
    option: &Opt,
    attached: Option<String>,
    mut next: impl Iterator<Item = &'a String>,
) -> Result<String, Failure> {
    match (option.value, attached) {
        (None, None) => Ok(String::new()),
        (None, Some(_)) => Err(format!("{} takes no value", option.name()).into()),
        (Some(_), Some(value)) => Ok(value),
        (Some(what), None) => {
            let missing = || format!("{} needs a value: {} {what}", option.name(), option.name()).into();
            next.next().cloned().ok_or_else(missing)
        }
    }
}

/// The option that a text names, and the value that it has attached: `--vl=512`, `-o=x.image`, `-x1=64`.
fn find(command: &Command, text: &str) -> Result<(&'static Opt, Option<String>), Failure> {
    if let Some(long) = text.strip_prefix("--") {
        let (name, value) = match long.split_once('=') {
            Some((name, value)) => (name, Some(value.to_string())),
            None => (long, None),
        };
        let known = command.options.iter().find(|option| option.key.len() > 1 && option.key == name);
        return known.map(|option| (option, value)).ok_or_else(|| unknown(command, &format!("--{name}")));
    }
    let letter: String = text.chars().skip(1).take(1).collect();
    let value = &text[1 + letter.len()..];
    let known = command.options.iter().find(|option| option.key == letter);
    let option = known.ok_or_else(|| unknown(command, &format!("-{letter}")))?;
    Ok((option, (!value.is_empty()).then(|| value.strip_prefix('=').unwrap_or(value).to_string())))
}

fn unknown(command: &Command, text: &str) -> Failure {
    let names: Vec<String> = command.options.iter().map(Opt::name).collect();
    let has = if names.is_empty() { "it has none".to_string() } else { format!("it has {}", names.join(", ")) };
    format!("there is no option {text}; {has} (try --help)").into()
}
