//! Counts worked out, of states of any length, whatever else is wrong with them.

use crate::boundary;
use crate::differences::{show_state, Differences, Outcome};
use crate::kind::{Forms, Kind};
use crate::seen::Seen;
use compare::random::Random;
use compare::states::{self, BAD_LENGTHS, LENGTHS, SHAPES};
use model::State;

const KIND: u64 = 30;

/// Each length below this, so many times; then any.
const EACH_BELOW: u64 = 2_200;
const DRAWS: u64 = 8;
const ANY: u64 = 40_000;

/// The most bits of a predicate, as a length.
const LARGEST: u64 = 2048;

fn length(random: &mut Random, number: u64) -> u64 {
    if number < EACH_BELOW * DRAWS {
        return number / DRAWS;
    }
    match random.below(5) {
        0 => random.pick(&BAD_LENGTHS),
        1 => random.next() >> random.below(64),
        2 => {
            let near = random.pick(&LENGTHS);
            random.near(near, 16)
        }
        _ => random.pick(&LENGTHS),
    }
}

/// Any counts: those that the state had, none, the most, right ones, others.
fn counts(random: &mut Random, state: &State) -> [[u16; 4]; 16] {
    match random.below(5) {
        0 => state.counts,
        1 => [[0; 4]; 16],
        2 => [[u16::MAX; 4]; 16],
        3 => states::recounted(state).counts,
        _ => state.counts.map(|counts| counts.map(|_| random.next() as u16)),
    }
}

/// States with bits anywhere and any counts.
pub struct Counted;

impl Kind for Counted {
    type Input = State;
    const NAME: &'static str = "counted";
    /// That of a run without words once the counts are right.
    const REPLIES: &'static [u8] = &[0, 4];
    const FORMS: Forms = Forms::None;
    const NOTES: &'static [&'static str] = &[
        "one of the five lengths",
        "none of them",
        "no element",
        "bits after the last whole element",
        "a length past the longest",
        "true bits past the vector",
        "wrong counts before",
        "right counts before",
        "a count of 256",
        "level above 3",
        "FFR not all false",
    ];

    fn numbers() -> impl Iterator<Item = u64> {
        0..EACH_BELOW * DRAWS + ANY
    }

    fn make(seed: u64, number: u64) -> State {
        let random = &mut Random::new(seed, KIND, number);
        let usual = random.pick(&LENGTHS);
        let mut state = states::legal(random, usual);
        for register in (0..16).filter(|_| random.one_in(2)).collect::<Vec<u8>>() {
            let shape = random.pick(&SHAPES);
            states::put(&mut state, register, states::shaped(random, LARGEST, shape));
        }
        state.vl = length(random, number);
        if random.one_in(8) {
            state.level = random.next() as u8;
        }
        state.counts = counts(random, &state);
        state
    }

    fn show(state: &State) -> String {
        show_state(state)
    }

    fn compare(state: &State, seen: &mut Seen) -> Outcome {
        let (library, second) = (boundary::counted(state), state.counted());
        let mut differences = Differences::default();
        differences.state(&library, &second);
        differences.counts(&library);
        differences.field("all else as it was", State { counts: state.counts, ..library.clone() } == *state, true);
        let (ran, reply) = (boundary::run(&library, &[]).reply, model::run(&second, &[]).reply);
        differences.field("reply of a run without words", ran, reply);
        seen.reply(reply);
        note(seen, state, &second);
        differences.outcome()
    }
}

fn note(seen: &mut Seen, state: &State, counted: &State) {
    let known = LENGTHS.contains(&state.vl);
    seen.note(if known { "one of the five lengths" } else { "none of them" });
    seen.note_if(state.vl < 8, "no element");
    seen.note_if(!(state.vl / 8).is_multiple_of(8), "bits after the last whole element");
    seen.note_if(state.vl > LARGEST, "a length past the longest");
    let past = states::faults(state).contains(&states::Fault::Predicate);
    seen.note_if(past, "true bits past the vector");
    let right = state.counts == counted.counts;
    seen.note(if right { "right counts before" } else { "wrong counts before" });
    seen.note_if(counted.counts.iter().any(|counts| counts[0] == 256), "a count of 256");
    seen.note_if(state.level > 3, "level above 3");
    seen.note_if(state.ffr != [0; 4], "FFR not all false");
}

#[cfg(test)]
mod tests {
    use super::*;
    use std::collections::HashSet;

    /// Each length from 0 on to past the longest has its cases, and so has each of the bad ones.
    #[test]
    fn every_length_is_made() {
        let lengths: HashSet<u64> = Counted::numbers().map(|number| Counted::make(1, number).vl).collect();
        assert!((0..EACH_BELOW).chain(BAD_LENGTHS).all(|vl| lengths.contains(&vl)));
    }
}
