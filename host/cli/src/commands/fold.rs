use crate::args::Args;
use crate::commands::new::LENGTHS;
use crate::failure::{Failure, Outcome, DONE, REFUSED};
use crate::filter::Filter;
use crate::json::Json;
use crate::style::Style;
use crate::titles::{Folder, Form, Refusal};
use crate::words::numbers;

/// The vector length without `--vl`.
const BITS: u64 = 512;

pub fn command(args: &Args, _: Style) -> Result<Outcome, Failure> {
    let vl = super::number(args, "vl", &numbers(&LENGTHS))?.unwrap_or(BITS);
    let form = Form { units: args.has("units"), json: args.has("json") };
    // what is refused of an empty title is refused of every one
    if let Err(refusal) = Folder::new(vl).fold("") {
        let json = match args.operands.len() {
            0 => refusal.json(),
            titles => Json::list(vec![refusal.json(); titles]),
        };
        return Err(refused(refusal.to_string(), json));
    }
    match args.operands.as_slice() {
        [] => Ok(Outcome { filter: Some(Filter { vl, form }), ..Outcome::new("", DONE) }),
        titles => of_texts(titles, vl, form),
    }
}

/// A line for each title, or none if one is refused, so that each line is that of its title.
fn of_texts(titles: &[String], vl: u64, form: Form) -> Result<Outcome, Failure> {
    let mut folder = Folder::new(vl);
    let folded: Vec<_> = titles.iter().map(|title| folder.fold(title).map(<[u16]>::to_vec)).collect();
    let all = || Json::list(folded.iter().map(|title| json(title, form)));
    for (place, title) in (1..).zip(&folded) {
        if let Err(refusal) = title {
            return Err(refused(format!("text {place}: {refusal}"), all()));
        }
    }
    if form.json {
        return Ok(Outcome::new(all().line(), DONE));
    }
    let mut lines = Vec::new();
    for units in folded.iter().flatten() {
        form.put(units, &mut lines);
        lines.push(b'\n');
    }
    Ok(Outcome::new(lines, DONE))
}

fn json(title: &Result<Vec<u16>, Refusal>, form: Form) -> Json {
    title.as_ref().map_or_else(Refusal::json, |units| form.json(units))
}

fn refused(text: String, json: Json) -> Failure {
    Failure { status: REFUSED, json: Some(json), ..text.into() }
}
