//! Words that write predicates, each followed by words that go by the counts of what it wrote, from states that were made and
//! from states that were read.

use crate::boundary;
use crate::counters::{ready, step};
use crate::differences::{show_state, show_words, Differences, Outcome};
use crate::digits::Digits;
use crate::kind::{Forms, Kind};
use crate::lent::{byte, Lent};
use crate::seen::Seen;
use compare::damage::{self, Age};
use compare::instructions::{self, FORMS, INC_DEC, PFALSE, SATURATING, WHILE_PAIR, WRITERS};
use compare::random::Random;
use compare::states::LENGTHS;
use model::{decode, encode, Row, State};

const KIND: u64 = 31;
const DRAWS: usize = 80;

/// The words that write, in a chain.
const LINKS: usize = 4;

/// Where a chain starts: at a state as it is made, or as it is read from its image.
const STARTS: [Option<Age>; 3] = [None, Some(Age::New), Some(Age::Old)];

/// What a case is made of, beside random numbers. The numbers of the cases count through all combinations.
#[derive(Clone, Copy, PartialEq, Eq, Hash, Debug)]
struct Case {
    /// The first that writes.
    writer: u8,
    vl: u64,
    start: Option<Age>,
}

impl Case {
    const COUNT: usize = WRITERS.len() * LENGTHS.len() * STARTS.len() * DRAWS;

    fn new(number: u64) -> Case {
        let mut digits = Digits::of(number);
        Case { writer: digits.pick(&WRITERS), vl: digits.pick(&LENGTHS), start: digits.pick(&STARTS) }
    }
}

/// Chains of words, stepped by either way and run.
pub struct Chains;

impl Kind for Chains {
    type Input = (Option<Age>, State, Vec<u32>);
    const NAME: &'static str = "chains";
    const REPLIES: &'static [u8] = &[0];
    const FORMS: Forms = Forms::None;
    const NOTES: &'static [&'static str] = &[
        CHANGED[0],
        CHANGED[1],
        CHANGED[2],
        CHANGED[3],
        CHANGED[4],
        CHANGED[5],
        CHANGED[6],
        CHANGED[7],
        CHANGED[8],
        CHANGED[9],
        "a pair, other counts of the first",
        "a pair, other counts of the second",
        "PFALSE over counts not 0",
        "the same counts after another predicate",
        "a count of 256",
        BY_COUNT[0],
        BY_COUNT[1],
        BY_COUNT[2],
        BY_COUNT[3],
        SATURATING_BY_COUNT[0],
        SATURATING_BY_COUNT[1],
        SATURATING_BY_COUNT[2],
        SATURATING_BY_COUNT[3],
        "read from an image",
        "read from an old image",
    ];

    fn numbers() -> impl Iterator<Item = u64> {
        0..Case::COUNT as u64
    }

    fn make(seed: u64, number: u64) -> Self::Input {
        let random = &mut Random::new(seed, KIND, number);
        let Case { writer, vl, start } = Case::new(number);
        let mut state = ready(random, vl);
        let mut words = instructions::link(random, writer);
        for _ in 1..LINKS {
            let other = random.pick(&WRITERS);
            words.extend(instructions::link(random, other));
        }
        for &word in words.iter().rev() {
            instructions::tie(random, &mut state, word);
        }
        (start, state, words)
    }

    fn show((start, state, words): &Self::Input) -> String {
        let origin = start.map_or("made".to_string(), |age| format!("read from an image, {age:?}"));
        format!("{origin}\n{}{}", show_state(state), show_words(words))
    }

    fn compare((start, state, words): &Self::Input, seen: &mut Seen) -> Outcome {
        let start = match start {
            Some(age) => read(*age, state, seen)?,
            None => state.clone(),
        };
        let mut state = start.clone();
        for &word in words {
            let after = step(&state, word, seen)?;
            let mut differences = Differences::default();
            differences.counts(&after);
            differences.outcome()?;
            note(seen, &state, &after, &decode(word).expect("it was executed"));
            state = after;
        }
        compare_ends(&start, words, &state)
    }
}

/// The state as the library reads it from its image, and as it writes it again: the same bytes, since they have no counts.
fn read(age: Age, state: &State, seen: &mut Seen) -> Result<State, Vec<String>> {
    let image = damage::image_of(age, state, &[]);
    let reading = boundary::read(&image, &mut []);
    let renewed = damage::renewed(&image);
    let mut written = Lent::new(renewed.len(), &mut Random::new(0, KIND, 0), byte);
    let answer = boundary::write(&reading.state, &[], written.part());
    let mut differences = Differences::default();
    differences.field("replies of a reading and a writing", (reading.reply, answer.reply), (0, 0));
    differences.state(&reading.state, &model::read(&image, &mut []).state);
    differences.counts(&reading.state);
    differences.field("the image written again", written.held(), &renewed[..]);
    let counts = reading.state.counts != [[0; 4]; 16];
    seen.note_if(counts, if age == Age::Old { "read from an old image" } else { "read from an image" });
    differences.outcome().map(|()| reading.state)
}

/// The state after all words: by one run, and with its counts worked out.
fn compare_ends(start: &State, words: &[u32], last: &State) -> Outcome {
    let ran = boundary::run(start, words);
    let mut differences = Differences::default();
    differences.field("reply, refused and done of a run", (ran.reply, ran.refused, ran.done), (0, 0, words.len()));
    differences.state(&ran.state, last);
    differences.state(&boundary::counted(last), last);
    differences.outcome()
}

/// By the place of the form in `WRITERS`: its counts are not those that stood there before.
const CHANGED: [&str; WRITERS.len()] = [
    "other counts after WHILE one",
    "other counts after WHILE pair",
    "other counts after WHILE counter",
    "other counts after PNEXT",
    "other counts after PFIRST",
    "other counts after PFALSE",
    "other counts after predicate logic",
    "other counts after RDFFR",
    "other counts after RDFFR under Pg",
    "other counts after RDFFRS under Pg",
];

/// By size: X comes out otherwise at each other size.
const BY_COUNT: [&str; 4] = [
    "INCP/DECP of B, otherwise at other sizes",
    "INCP/DECP of H, otherwise at other sizes",
    "INCP/DECP of S, otherwise at other sizes",
    "INCP/DECP of D, otherwise at other sizes",
];
const SATURATING_BY_COUNT: [&str; 4] = [
    "SQ/UQ INCP/DECP of B, otherwise at other sizes",
    "SQ/UQ INCP/DECP of H, otherwise at other sizes",
    "SQ/UQ INCP/DECP of S, otherwise at other sizes",
    "SQ/UQ INCP/DECP of D, otherwise at other sizes",
];

/// What a step that keeps counts wrongly, or goes by another, would be noticed by.
fn note(seen: &mut Seen, before: &State, after: &State, row: &Row) {
    match *row {
        [INC_DEC, size, ..] => seen.note_if(is_by_its_size(before, after, row), BY_COUNT[usize::from(size)]),
        [SATURATING, size, ..] => {
            seen.note_if(is_by_its_size(before, after, row), SATURATING_BY_COUNT[usize::from(size)])
        }
        _ => note_written(seen, before, after, row),
    }
}

/// Whether the same word of any other size gives another X.
fn is_by_its_size(before: &State, after: &State, row: &Row) -> bool {
    let mut others = (0..4).filter(|&size| size != row[1]);
    others.all(|size| {
        let (mut state, mut other) = (before.clone(), *row);
        other[1] = size;
        let _ = model::step(&mut state, encode(&other).expect("its fields are in range"));
        state.x != after.x
    })
}

fn note_written(seen: &mut Seen, before: &State, after: &State, row: &Row) {
    let form = WRITERS.iter().position(|&form| form == row[0]).expect("it writes a predicate");
    assert!(CHANGED[form].ends_with(FORMS[usize::from(row[0])]), "a note has its form's name");
    for (place, register) in instructions::written(row).into_iter().map(usize::from).enumerate() {
        let changed = before.counts[register] != after.counts[register];
        seen.note_if(changed, CHANGED[form]);
        let pair = ["a pair, other counts of the first", "a pair, other counts of the second"][place];
        seen.note_if(changed && row[0] == WHILE_PAIR, pair);
        seen.note_if(row[0] == PFALSE && before.counts[register] != [0; 4], "PFALSE over counts not 0");
        let other = before.p[register] != after.p[register];
        seen.note_if(other && !changed, "the same counts after another predicate");
        seen.note_if(after.counts[register][0] == 256, "a count of 256");
    }
}

#[cfg(test)]
mod tests {
    use super::*;
    use std::collections::HashSet;

    /// Each form that writes comes first at each length, from each start; what it writes is counted at each size.
    #[test]
    fn every_form_that_writes_is_made() {
        let mut cases = HashSet::new();
        for number in Chains::numbers() {
            let case = Case::new(number);
            let (start, state, words) = Chains::make(1, number);
            let rows: Vec<Row> = words.iter().map(|&word| decode(word).expect("one of ours")).collect();
            assert_eq!((rows[0][0], state.vl, start), (case.writer, case.vl, case.start));
            for (i, pm) in instructions::written(&rows[0]).into_iter().enumerate() {
                for size in 0..4 {
                    let row = rows[1 + 4 * i + size];
                    let named = if row[0] == INC_DEC { row[3] } else { row[5] };
                    assert_eq!((usize::from(row[1]), named), (size, pm));
                }
            }
            cases.insert(case);
        }
        assert_eq!(cases.len(), Case::COUNT / DRAWS);
    }

    /// The forms that write a predicate are those after which one may be another, and they write no other.
    #[test]
    fn writers_are_those_that_write() {
        let mut writing = HashSet::new();
        for number in 0..20_000 {
            let random = &mut Random::new(1, KIND, number);
            let vl = random.pick(&LENGTHS);
            let before = ready(random, vl);
            let row = instructions::row(random, number as usize % FORMS.len());
            let mut after = before.clone();
            let _ = model::step(&mut after, encode(&row).expect("its fields are in range"));
            let written = instructions::written(&row);
            for register in (0..16).filter(|&register| before.p[register] != after.p[register]) {
                assert!(written.contains(&(register as u8)), "{row:?}");
                writing.insert(row[0]);
            }
        }
        assert_eq!(writing, HashSet::from(WRITERS));
    }
}
