use crate::args::Args;
use crate::dump::{dump, json};
use crate::failure::{status_of, Failure, Outcome};
use crate::image::{load, named, Image};
use crate::json::Json;
use crate::reason::{reason, told};
use crate::style::Style;
use crate::words::{counted, grouped};
use plokamyr::Reply;

pub fn command(args: &Args, style: Style) -> Result<Outcome, Failure> {
    let path = super::only(args, "FILE")?;
    let size = super::size(args)?;
    let after = super::number(args, "after", "a number of words")?.unwrap_or(0);
    let mut image = load(path)?;
    let words = image.words.len();
    if after > words as u64 {
        let has = format!("{} has {}", named(path), counted(words as u64, "word"));
        return Err(format!("--after is {after}: {has}, so that 0 to {words} would do").into());
    }
    let (done, refused) = stepped(&mut image, after as usize);
    let reason = image.words.get(done).and_then(|word| reason(&image.state, *word, refused));
    let json = || with_steps(json(&image.state, size), done, refused, reason.as_deref());
    let head = match args.has("after") {
        true => head(done, words, refused, reason.as_deref()),
        false => String::new(),
    };
    Ok(Outcome::either(args, status_of(refused), json, || head + &dump(&image.state, size, style)))
}

/// Steps words; how many are done, and the reply to the one after them if it was refused.
fn stepped(image: &mut Image, words: usize) -> (usize, Reply) {
    let ran = image.state.run(&image.words[..words]);
    (ran.done, ran.refused)
}

fn head(done: usize, words: usize, refused: Reply, reason: Option<&str>) -> String {
    let after = format!("after {} of {}", grouped(done as u64), counted(words as u64, "word"));
    match refused {
        Reply::Done => format!("{after}\n"),
        refusal => format!("{after}; word {done} is refused: {}\n", told(refusal, reason)),
    }
}

fn with_steps(state: Json, done: usize, refused: Reply, reason: Option<&str>) -> Json {
    let mut fields = vec![("after", Json::Number(done as u32)), ("refused", Json::Number(refused.number()))];
    fields.extend(reason.map(|reason| ("reason", Json::text(reason))));
    fields.push(("state", state));
    Json::Object(fields)
}
