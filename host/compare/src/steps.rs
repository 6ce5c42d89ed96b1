//! Single steps, by either way, and words one after the other.

use crate::boundary;
use crate::differences::{show_state, show_word, show_words, Differences, Outcome};
use crate::kind::{Forms, Kind};
use crate::lent::{word, Lent};
use crate::seen::Seen;
use compare::counter::Reading;
use compare::instructions;
use compare::random::Random;
use compare::states::{self, Fault, LENGTHS};
use model::{decode, Flags, Ran, Row, State};

pub struct Steps;

const STEPS: u64 = 2_000_000;
const STEP_KIND: u64 = 11;

impl Kind for Steps {
    type Input = (State, u32);
    const NAME: &'static str = "steps";
    const REPLIES: &'static [u8] = &[0, 1, 2, 3, 4, 13, 14];
    const FORMS: Forms = Forms::EachAtEachLength;
    const NOTES: &'static [&'static str] = &[
        "bad vl",
        "bad level",
        "stray bits",
        "stray bits of FFR",
        "a wrong count",
        "illegal with a foreign word",
        "illegal with an unsupported form",
        "1 at level 0",
        "1 without access",
        "13 at level 0",
        "13 without access",
        "SEL with S refused",
        "WHILE with none",
        "WHILE with some",
        "WHILE with all",
        "WHILE of words under different high ones",
        "WHILE past the last number",
        "saturated",
        "PNEXT found",
        "PNEXT found none",
        "CNTP counter above 0",
        "CNTP counter, another answer up to bit 14",
        "FFR not a run of ones",
        "X31 named",
        "a register twice",
    ];

    fn numbers() -> impl Iterator<Item = u64> {
        0..STEPS
    }

    fn make(seed: u64, number: u64) -> (State, u32) {
        let random = &mut Random::new(seed, STEP_KIND, number);
        let word = instructions::any(random);
        let vl = random.pick(&LENGTHS);
        let mut state = states::legal(random, vl);
        instructions::tie(random, &mut state, word);
        if random.one_in(16) {
            states::spoil(random, &mut state);
        }
        (state, word)
    }

    fn show((state, word): &(State, u32)) -> String {
        show_state(state) + &show_word(*word)
    }

    fn compare((state, word): &(State, u32), seen: &mut Seen) -> Outcome {
        let (differences, reply, after) = by_either_way(state, *word);
        seen.reply(reply);
        match reply {
            0 => note_accepted(seen, state, &after, &decode(*word).expect("it was accepted")),
            1 | 13 => note_none_of_ours(seen, state, *word, reply),
            4 => note_illegal(seen, state, *word),
            _ => {}
        }
        differences.outcome()
    }
}

/// The library's step in place and its lent one against the second program's: what differs, and the second program's
/// reply and state.
pub fn by_either_way(state: &State, word: u32) -> (Differences, u8, State) {
    let (reply, library) = boundary::step(state, word);
    let (lent_reply, lent) = boundary::step_lent(state, word);
    let mut second = state.clone();
    let second_reply = model::step(&mut second, word);
    let mut differences = Differences::default();
    differences.field("reply", reply, second_reply);
    differences.state(&library, &second);
    differences.field("reply, lent", lent_reply, second_reply);
    differences.state(&lent, &second);
    (differences, second_reply, second)
}

fn note_illegal(seen: &mut Seen, state: &State, word: u32) {
    match states::faults(state)[..] {
        [Fault::Length] => seen.note("bad vl"),
        [Fault::Level] => seen.note("bad level"),
        [Fault::Predicate] => seen.note("stray bits"),
        [Fault::Ffr] => seen.note("stray bits of FFR"),
        [Fault::Count] => seen.note("a wrong count"),
        _ => {}
    }
    let foreign = instructions::is_foreign(word);
    seen.note_if(foreign, "illegal with a foreign word");
    seen.note_if(!foreign && decode(word).is_none(), "illegal with an unsupported form");
}

/// A word that was refused with 1 or 13. Both must be seen where 2 and 3 would be given to a word of ours.
fn note_none_of_ours(seen: &mut Seen, state: &State, word: u32, reply: u8) {
    let [low, off] = match reply {
        1 => ["1 at level 0", "1 without access"],
        _ => ["13 at level 0", "13 without access"],
    };
    seen.note_if(state.level == 0, low);
    seen.note_if(!state.access, off);
    seen.note_if(reply == 13 && instructions::is_left_out_word(word), "SEL with S refused");
}

fn note_accepted(seen: &mut Seen, before: &State, after: &State, row: &Row) {
    seen.form(row, before.vl);
    seen.note_if(!states::is_run(&before.ffr), "FFR not a run of ones");
    let flags = after.flags;
    match *row {
        [0, size, rm, sf, u, lt, rn, eq, _] => note_while(seen, before, flags, [size, rm, sf, u, lt, rn, eq]),
        [1, size, rm, u, lt, rn, _, eq, _] => note_while(seen, before, flags, [size, rm, 1, u, lt, rn, eq]),
        [2, size, rm, _, u, lt, rn, eq, _] => note_while(seen, before, flags, [size, rm, 1, u, lt, rn, eq]),
        [3, size, d, _, sf, pm, rdn, ..] => {
            let plain = [4, size, d, pm, rdn, 0, 0, 0, 0]; // INCP or DECP of the same
            let mut other = before.clone();
            let _ = model::step(&mut other, model::encode(&plain).expect("its fields are in range"));
            let low = |state: &State| state.x.get(usize::from(rdn)).map_or(0, |x| x << (32 - 32 * u32::from(sf)));
            seen.note_if(low(after) != low(&other), "saturated");
        }
        [7, ..] => seen.note(if flags.z { "PNEXT found none" } else { "PNEXT found" }),
        [6, _, _, _, rd, ..] if rd < 31 => {
            let junk = Reading::of(before, row).has_junk_that_matters();
            seen.note_if(after.x[usize::from(rd)] > 0, "CNTP counter above 0");
            seen.note_if(junk, "CNTP counter, another answer up to bit 14");
        }
        _ => {}
    }
    note_registers(seen, row);
}

fn note_while(seen: &mut Seen, before: &State, flags: Flags, [size, rm, sf, u, lt, rn, eq]: [u8; 7]) {
    let all = flags.n && !flags.c;
    seen.note_if(flags.z, "WHILE with none");
    seen.note_if(!flags.z && !all, "WHILE with some");
    seen.note_if(all, "WHILE with all");
    let x = |number: u8| before.x.get(usize::from(number)).copied().unwrap_or(0);
    let (start, limit) = (x(rn), x(rm));
    seen.note_if(sf == 0 && start >> 32 != limit >> 32, "WHILE of words under different high ones");
    // the last number in its direction, at the top of a register
    let shift = 32 - 32 * u32::from(sf);
    let last = (if u == 1 { u64::MAX } else { u64::MAX >> 1 } ^ u64::from(lt).wrapping_sub(1)) >> shift << shift;
    let distance = if lt == 1 { limit.wrapping_sub(start) } else { start.wrapping_sub(limit) } << shift >> shift;
    let past = limit << shift == last && lt == eq && distance < before.vl / (8 << size);
    seen.note_if(past, "WHILE past the last number");
}

fn note_registers(seen: &mut Seen, row: &Row) {
    let widths = instructions::WIDTHS[usize::from(row[0])];
    let wide = |width: u8| row[1..].iter().zip(widths).filter(move |(_, &w)| w == width).map(|(&field, _)| field);
    let mut twice = false;
    for width in [4, 5] {
        let fields: Vec<u8> = wide(width).collect();
        twice |= (1..fields.len()).any(|i| fields[..i].contains(&fields[i]));
    }
    seen.note_if(wide(5).any(|field| field == 31), "X31 named");
    seen.note_if(twice, "a register twice");
}

pub struct Runs;

const RUNS: u64 = 100_000;
const RUN_KIND: u64 = 12;

impl Kind for Runs {
    type Input = (State, Vec<u32>);
    const NAME: &'static str = "runs";
    /// That of the run, or to the word that it stopped at.
    const REPLIES: &'static [u8] = &[0, 1, 2, 3, 4, 13, 14];
    const FORMS: Forms = Forms::EachAtEachLength;
    const NOTES: &'static [&'static str] = &[
        "no words",
        "illegal without words",
        "illegal by FFR",
        "illegal by a count",
        "illegal by a count, without words",
        "more than 100 done",
        "refused at the first word",
        "refused at a later word",
        "words after a refused one",
        "1 after words done",
        "1 at level 0",
        "1 without access",
        "13 after words done",
        "13 at level 0",
        "13 without access",
        "SEL with S refused",
        "14 after words done",
    ];

    fn numbers() -> impl Iterator<Item = u64> {
        0..RUNS
    }

    fn make(seed: u64, number: u64) -> (State, Vec<u32>) {
        let random = &mut Random::new(seed, RUN_KIND, number);
        let mut state = states::any(random);
        let count = if random.one_in(100) { random.index(400) } else { random.index(20) };
        if count > 20 {
            state.level = 3;
            state.access = true;
        }
        let words = match random.below(4) {
            _ if count > 20 => instructions::executed(random, count),
            0 => instructions::executed(random, count),
            1 => (0..count).map(|_| instructions::accepted(random)).collect(),
            _ => (0..count).map(|_| instructions::any(random)).collect(),
        };
        (state, words)
    }

    fn show((state, words): &(State, Vec<u32>)) -> String {
        show_state(state) + &show_words(words)
    }

    fn compare((state, words): &(State, Vec<u32>), seen: &mut Seen) -> Outcome {
        let random = &mut Random::new(0, RUN_KIND, words.len() as u64);
        let lent = Lent::holding(words, random, word);
        let before = lent.clone();
        let library = boundary::run(state, lent.held());
        let second = model::run(state, words);
        let mut differences = Differences::default();
        differences.field("reply", library.reply, second.reply);
        differences.field("refused", library.refused, second.refused);
        differences.field("done", library.done, second.done);
        differences.state(&library.state, &second.state);
        differences.lent("words", &lent, &before);
        repeat(state, words, &library, &mut differences);
        note_run(seen, state, words, &second);
        differences.outcome()
    }
}

/// The library's run against its own steps.
fn repeat(state: &State, words: &[u32], ran: &Ran, differences: &mut Differences) {
    let mut state = state.clone();
    let (mut done, mut reply) = (0, 0);
    while reply == 0 && done < words.len() {
        (reply, state) = boundary::step(&state, words[done]);
        done += usize::from(reply == 0);
    }
    differences.field("done, run against steps", ran.done, done);
    differences.state(&ran.state, &state);
    if !words.is_empty() {
        differences.field("reply, run against steps", told(ran), reply);
    }
}

/// The run's own refusal, or that of the word it stopped at.
fn told(ran: &Ran) -> u8 {
    match ran.reply {
        0 => ran.refused,
        refusal => refusal,
    }
}

fn note_run(seen: &mut Seen, state: &State, words: &[u32], ran: &Ran) {
    seen.reply(told(ran));
    for &word in &words[..ran.done] {
        seen.form(&decode(word).expect("it was executed"), state.vl);
    }
    seen.note_if(words.is_empty(), "no words");
    seen.note_if(words.is_empty() && ran.reply == 4, "illegal without words");
    seen.note_if(states::is_illegal_by(state, Fault::Ffr), "illegal by FFR");
    let by_count = states::is_illegal_by(state, Fault::Count);
    seen.note_if(by_count, "illegal by a count");
    seen.note_if(by_count && words.is_empty(), "illegal by a count, without words");
    seen.note_if(ran.refused == 14 && ran.done > 0, "14 after words done");
    seen.note_if(ran.done > 100, "more than 100 done");
    seen.note_if(ran.done == 0 && ran.refused != 0, "refused at the first word");
    seen.note_if(ran.refused != 0 && ran.done + 1 < words.len(), "words after a refused one");
    seen.note_if(ran.refused != 0 && ran.done > 0, "refused at a later word");
    if matches!(ran.refused, 1 | 13) {
        note_none_of_ours(seen, state, words[ran.done], ran.refused);
        let later = if ran.refused == 1 { "1 after words done" } else { "13 after words done" };
        seen.note_if(ran.done > 0, later);
    }
}
