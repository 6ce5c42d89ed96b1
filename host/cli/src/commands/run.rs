use crate::args::Args;
use crate::change::{changes, Change, Counters};
use crate::commands::dis;
use crate::failure::{status_of, Failure, Outcome, IMAGE_REFUSED};
use crate::faults::{fault, Fault};
use crate::image::{bytes, image};
use crate::json::Json;
use crate::reason::{reason, told};
use crate::style::Style;
use plokamyr::{text, Flags, Reply, State};

pub fn command(args: &Args, style: Style) -> Result<Outcome, Failure> {
    let path = match args.operands.as_slice() {
        [] => "-",
        _ => super::only(args, "FILE")?,
    };
    let bytes = bytes(path)?;
    let image = match image(&bytes) {
        Ok(image) => image,
        Err(reply) => return Ok(refused(args, &bytes, reply)),
    };
    let status = status_of(image.state.clone().run(&image.words).refused);
    let trace = args.has("trace");
    if !trace && !args.has("json") {
        return Ok(Outcome::new(text(&bytes), status));
    }
    let steps = steps(image.state, &image.words);
    let json = || Json::Object(fields(Reply::Done, &steps, trace));
    Ok(Outcome::either(args, status, json, || traced(&lines(&bytes), &steps, style)))
}

/// The answer to a refused image. A trace also has where the fault is.
fn refused(args: &Args, bytes: &[u8], reply: Reply) -> Outcome {
    let fault = fault(bytes).filter(|_| args.has("trace"));
    let fields = [fields(reply, &[], false), fault.iter().flat_map(Fault::fields).collect()].concat();
    let text = || lines(bytes) + &fault.iter().map(|fault| format!("{fault}\n")).collect::<String>();
    Outcome::either(args, IMAGE_REFUSED, || Json::Object(fields), text)
}

/// What the program prints.
fn lines(image: &[u8]) -> String {
    String::from_utf8_lossy(&text(image)).into_owned()
}

/// A word that was stepped.
struct Step {
    word: u32,
    reply: Reply,
    flags: Flags,
    changes: Vec<Change>,
    reason: Option<String>,
}

/// Steps words until one is refused, which is the last.
fn steps(mut state: State, words: &[u32]) -> Vec<Step> {
    let mut steps = Vec::new();
    let mut counters = Counters::default();
    for &word in words {
        let before = state.clone();
        let reply = state.step(word);
        let changes = changes(&before, &state, counters.view(word));
        let reason = reason(&state, word, reply);
        steps.push(Step { word, reply, flags: state.flags, changes, reason });
        if reply != Reply::Done {
            break;
        }
        counters.step(word, &before, &state);
    }
    steps
}

/// The program's lines, each with its instruction and what that changed, or why it was refused.
fn traced(lines: &str, steps: &[Step], style: Style) -> String {
    let texts: Vec<String> = steps.iter().map(|step| dis::text(step.word)).collect();
    let wide = texts.iter().map(String::len).max().unwrap_or(0);
    let long = lines.lines().map(str::len).max().unwrap_or(0);
    let mut out = String::new();
    for (place, line) in lines.lines().enumerate() {
        let more = match (steps.get(place), texts.get(place)) {
            (Some(step), Some(text)) => format!("  {text:<wide$}  {}", effect(step, style)),
            _ => String::new(),
        };
        out += format!("{line:<long$}{more}").trim_end();
        out.push('\n');
    }
    out
}

fn effect(step: &Step, style: Style) -> String {
    match step.reply {
        Reply::Done => step.changes.iter().map(Change::to_string).collect::<Vec<_>>().join(", "),
        refusal => style.red(&format!("refused: {}", told(refusal, step.reason.as_deref()))),
    }
}

fn fields(reply: Reply, steps: &[Step], trace: bool) -> Vec<(&'static str, Json)> {
    let done = steps.iter().filter(|step| step.reply == Reply::Done).count();
    let words = (0..).zip(steps).map(|(number, step)| step_json(number, step, trace));
    let reply = ("reply", Json::Number(reply.number()));
    vec![reply, ("words", Json::list(words)), ("done", Json::Number(done as u32))]
}

fn step_json(number: u32, step: &Step, trace: bool) -> Json {
    let mut fields = vec![
        ("number", Json::Number(number)),
        ("word", Json::text(format!("{:08x}", step.word))),
        ("reply", Json::Number(step.reply.number())),
        ("nzcv", Json::text(step.flags)),
    ];
    if trace {
        fields.push(("text", dis::text_json(step.word)));
        fields.push(("changes", Json::list(step.changes.iter().map(Change::json))));
        fields.extend(step.reason.iter().map(|reason| ("reason", Json::text(reason))));
    }
    Json::Object(fields)
}
