use crate::advice::advice;
use crate::args::Args;
use crate::commands::dis;
use crate::failure::{Failure, Outcome, DONE, IMAGE_REFUSED, REFUSED};
use crate::faults::{fault, Fault};
use crate::image::{bytes, image, Image};
use crate::json::Json;
use crate::reason::{reason, told};
use crate::style::Style;
use crate::words::{counted, folded, grouped, natural};
use plokamyr::Reply;

pub fn command(args: &Args, style: Style) -> Result<Outcome, Failure> {
    let operand = super::only(args, "REPLY or FILE")?;
    let (text, json, status) = match names_reply(operand) {
        true => of_reply(reply(operand).ok_or_else(|| no_reply(operand))?),
        false => of_image(&bytes(operand)?),
    };
    let folded = || text.lines().map(|line| folded(line, 0, style.prose()) + "\n").collect();
    Ok(Outcome::either(args, status, || json, folded))
}

/// An explanation for people, the same as JSON, and the exit status.
type Explanation = (String, Json, u8);

/// The reply of a number, or of a name in C or in Rust.
fn reply(text: &str) -> Option<Reply> {
    let number = natural(text);
    let named = |reply: &&Reply| {
        number == Some(reply.number().into()) || text == c_name(**reply) || text == format!("{:?}", **reply)
    };
    Reply::ALL.iter().find(named).copied()
}

/// Whether a text can only stand for a reply, be it one or not: a number, or what begins as the names in C do.
fn names_reply(text: &str) -> bool {
    let digits = !text.is_empty() && text.chars().all(|c| c.is_ascii_digit());
    digits || natural(text).is_some() || text.starts_with(PREFIX) || reply(text).is_some()
}

fn no_reply(text: &str) -> Failure {
    let last = Reply::ALL.len() - 1;
    format!("there is no reply {text}: 0 to {last}, or a name as {} would do", c_name(Reply::ALL[last])).into()
}

fn of_reply(reply: Reply) -> Explanation {
    let (number, name, advice) = (reply.number(), c_name(reply), advice(reply));
    let json = vec![
        ("reply", Json::Number(number)),
        ("name", Json::text(&name)),
        ("meaning", Json::text(said(reply))),
        ("advice", Json::text(advice)),
    ];
    (format!("{number} {name}: {}\n{advice}\n", said(reply)), Json::Object(json), DONE)
}

/// A reply in words, without its number.
pub fn said(reply: Reply) -> String {
    let text = reply.to_string();
    text.rsplit_once(" (reply").map_or(text.clone(), |(words, _)| words.to_string())
}

/// The name in the C header: `PLOKAMYR_FOREIGN_WORD` for `ForeignWord`.
fn c_name(reply: Reply) -> String {
    let mut name = PREFIX.to_string();
    for (place, c) in format!("{reply:?}").chars().enumerate() {
        if c.is_uppercase() && place > 0 {
            name.push('_');
        }
        name.extend(c.to_uppercase());
    }
    name
}

const PREFIX: &str = "PLOKAMYR_";

fn of_image(bytes: &[u8]) -> Explanation {
    match (image(bytes), fault(bytes)) {
        (Ok(image), _) => of_words(&image, bytes.len()),
        (_, Some(fault)) => (refused(&fault), fault.json(&[]), IMAGE_REFUSED),
        (Err(reply), None) => {
            (format!("refused: {reply}\n"), Json::Object(vec![("reply", Json::Number(reply.number()))]), IMAGE_REFUSED)
        }
    }
}

fn refused(fault: &Fault) -> String {
    format!("refused: {}\n{fault}\n", fault.reply)
}

/// What becomes of an image's words.
fn of_words(image: &Image, length: usize) -> Explanation {
    let mut state = image.state.clone();
    let ran = state.run(&image.words);
    let accepted =
        format!("accepted: {}, {}", counted(length as u64, "byte"), counted(image.words.len() as u64, "word"));
    let mut fields = vec![
        ("reply", Json::Number(0)),
        ("done", Json::Number(ran.done as u32)),
        ("refused", Json::Number(ran.refused.number())),
    ];
    if ran.refused == Reply::Done {
        return (format!("{accepted}, all done\n"), Json::Object(fields), DONE);
    }
    let word = image.words[ran.done];
    let offset = length - 4 * (image.words.len() - ran.done);
    let (number, text) = (ran.done, dis::text(word));
    fields.push(("offset", Json::Number(offset as u32)));
    fields.push(("word", Json::text(format!("{word:08x}"))));
    let reason = reason(&state, word, ran.refused);
    fields.extend(reason.iter().map(|reason| ("reason", Json::text(reason))));
    let [first, last] = [offset, offset + 3].map(|byte| grouped(byte as u64));
    let line = format!("word {number}, bytes {first} to {last}, is {word:08x}: {text}");
    let refused = format!("refused: {}", told(ran.refused, reason.as_deref()));
    (format!("{accepted}\n{line}\n{refused}\n{}\n", advice(ran.refused)), Json::Object(fields), REFUSED)
}
