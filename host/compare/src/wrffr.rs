//! WRFFR: each run of ones from bit 0 from each register, each run with one bit changed, and what comes before its refusal.

use crate::counters::ready;
use crate::differences::{show_state, show_word, Outcome};
use crate::kind::{Forms, Kind};
use crate::seen::Seen;
use crate::steps::by_either_way;
use compare::instructions::{short_word, WRFFR};
use compare::random::Random;
use compare::states::{self, Shape, LENGTHS};
use model::{decode, State};

const KIND: u64 = 27;

/// The bits of the longest predicate.
const LARGEST: usize = 256;

/// What Pn holds.
#[derive(Clone, Copy, PartialEq, Eq, Debug)]
enum Given {
    /// So many ones from bit 0, in this register.
    Run(usize, u8),
    /// So many ones from bit 0, but for this bit: a hole, or a bit above them.
    Changed(usize, usize),
    /// Anything, with a state that may be refused before.
    Any(u64),
}

#[derive(Clone, Copy, PartialEq, Eq, Debug)]
struct Case {
    vl: u64,
    given: Given,
}

const RUNS: u64 = (LARGEST as u64 + 1) * 16;
const CHANGED: u64 = (LARGEST as u64 + 1) * LARGEST as u64;
const ANY: u64 = 10_000;

impl Case {
    /// The numbers below have all combinations, also with bits that the predicate does not have.
    const END: u64 = LENGTHS.len() as u64 * (RUNS + CHANGED + ANY);

    fn new(number: u64) -> Case {
        let (vl, rest) = (LENGTHS[number as usize % LENGTHS.len()], number / LENGTHS.len() as u64);
        let given = match rest {
            _ if rest < RUNS => Given::Run(rest as usize / 16, rest as u8 % 16),
            _ if rest < RUNS + CHANGED => {
                let changed = (rest - RUNS) as usize;
                Given::Changed(changed / LARGEST, changed % LARGEST)
            }
            _ => Given::Any(rest - RUNS - CHANGED),
        };
        Case { vl, given }
    }

    fn is_within_predicate(&self) -> bool {
        let pl = self.vl as usize / 8;
        match self.given {
            Given::Run(length, _) => length <= pl,
            Given::Changed(length, bit) => length <= pl && bit < pl,
            Given::Any(_) => true,
        }
    }

    fn predicate(&self, random: &mut Random) -> [u64; 4] {
        match self.given {
            Given::Run(length, _) => states::run(length as u64),
            Given::Changed(length, bit) => {
                let mut predicate = states::run(length as u64);
                states::flip(&mut predicate, bit);
                predicate
            }
            Given::Any(number) if number.is_multiple_of(4) => states::shaped(random, self.vl, Shape::Dense),
            Given::Any(_) => states::near_run(random, self.vl),
        }
    }
}

/// A state on which a WRFFR of P(n) is mostly refused before anyone looks at Pn.
fn hinder(random: &mut Random, state: &mut State) {
    match random.below(5) {
        0 => state.level = 0,
        1 => state.access = false,
        2 => (state.level, state.access) = (0, false),
        3 => states::spoil(random, state),
        _ => {}
    }
}

/// Single steps of WRFFR, by either way.
pub struct Wrffr;

impl Kind for Wrffr {
    type Input = (State, u32);
    const NAME: &'static str = "wrffr";
    const REPLIES: &'static [u8] = &[0, 2, 3, 4, 14];
    const FORMS: Forms = Forms::None;
    const NOTES: &'static [&'static str] = &[
        "empty",
        "full",
        "ends within a word",
        "ends with a word",
        "over another FFR",
        "over an FFR not a run of ones",
        "bit 0 false",
        "the first hole in word 0",
        "the first hole in word 1",
        "the first hole in word 2",
        "the first hole in word 3",
        "the first hole at the end of a word",
        "the first hole at the start of a word",
        "one bit above the hole",
        "all bits above the hole",
        "each word is a run by itself",
        "no hole in a word after the first",
        "4 before 14",
        "2 before 14",
        "3 before 14",
        "2 before 3 before 14",
        "2 for a run",
        "3 for a run",
    ];

    fn numbers() -> impl Iterator<Item = u64> {
        (0..Case::END).filter(|&number| Case::new(number).is_within_predicate())
    }

    fn make(seed: u64, number: u64) -> (State, u32) {
        let random = &mut Random::new(seed, KIND, number);
        let case = Case::new(number);
        let mut state = ready(random, case.vl);
        state.level = 1 + random.below(3) as u8;
        let pn = match case.given {
            Given::Run(_, pn) => pn,
            _ => random.below(16) as u8,
        };
        states::put(&mut state, pn, case.predicate(random));
        if matches!(case.given, Given::Any(_)) {
            hinder(random, &mut state);
        }
        (state, short_word(WRFFR, &[pn]))
    }

    fn show((state, word): &(State, u32)) -> String {
        show_state(state) + &show_word(*word)
    }

    fn compare((state, word): &(State, u32), seen: &mut Seen) -> Outcome {
        let (differences, reply, _) = by_either_way(state, *word);
        seen.reply(reply);
        let pn = decode(*word).expect("WRFFR")[1];
        let predicate = &state.p[usize::from(pn)];
        match reply {
            0 => note_done(seen, state, predicate),
            14 => note_refused(seen, state, predicate),
            _ => note_before(seen, state, predicate, reply),
        }
        differences.outcome()
    }
}

fn note_done(seen: &mut Seen, state: &State, predicate: &[u64; 4]) {
    let length: u32 = predicate.iter().map(|word| word.count_ones()).sum();
    assert_eq!(*predicate, states::run(u64::from(length)), "what is written is a run of ones");
    seen.note_if(length == 0, "empty");
    seen.note_if(u64::from(length) == state.vl / 8, "full");
    seen.note_if(!length.is_multiple_of(64), "ends within a word");
    seen.note_if(length > 0 && length.is_multiple_of(64), "ends with a word");
    seen.note_if(state.ffr != *predicate, "over another FFR");
    seen.note_if(!states::is_run(&state.ffr), "over an FFR not a run of ones");
}

/// What a test that overlooks something would be noticed by.
fn note_refused(seen: &mut Seen, state: &State, predicate: &[u64; 4]) {
    let has = |bit: usize| predicate[bit / 64] >> (bit % 64) & 1 == 1;
    let pl = state.vl as usize / 8;
    let hole = (0..pl).find(|&bit| !has(bit)).expect("it is not full");
    let above = (hole + 1..pl).filter(|&bit| has(bit)).count();
    assert!(above > 0, "what is refused is no run of ones");
    seen.note_if(hole == 0, "bit 0 false");
    seen.note(match hole / 64 {
        0 => "the first hole in word 0",
        1 => "the first hole in word 1",
        2 => "the first hole in word 2",
        _ => "the first hole in word 3",
    });
    seen.note_if(hole % 64 == 63, "the first hole at the end of a word");
    seen.note_if(hole > 0 && hole % 64 == 0, "the first hole at the start of a word");
    seen.note_if(above == 1, "one bit above the hole");
    seen.note_if(above == pl - 1 - hole, "all bits above the hole");
    let is_run = |word: &u64| word & word.wrapping_add(1) == 0;
    seen.note_if(predicate.iter().all(is_run), "each word is a run by itself");
    let later = predicate[1..].iter().take(pl.div_ceil(64).saturating_sub(1));
    seen.note_if(pl > 64 && later.clone().all(|&word| word == u64::MAX), "no hole in a word after the first");
}

/// Refused by another reply, which comes before 14.
fn note_before(seen: &mut Seen, state: &State, predicate: &[u64; 4], reply: u8) {
    if states::is_run(predicate) {
        seen.note_if(reply == 2, "2 for a run");
        seen.note_if(reply == 3, "3 for a run");
        return;
    }
    match reply {
        4 => seen.note("4 before 14"),
        3 => seen.note("3 before 14"),
        _ => seen.note(if state.access { "2 before 14" } else { "2 before 3 before 14" }),
    }
}

#[cfg(test)]
mod tests {
    use super::*;

    /// Each run from each register, and each run with each bit changed, at each length; no others but any.
    #[test]
    fn every_combination_is_made() {
        let of_length = |vl: u64| (vl / 8 + 1) * (16 + vl / 8) + ANY;
        assert_eq!(Wrffr::numbers().count() as u64, LENGTHS.map(of_length).iter().sum());
        for number in Wrffr::numbers() {
            let case = Case::new(number);
            let (state, word) = Wrffr::make(1, number);
            let [form, pn, ..] = decode(word).expect("a word of FFR's");
            let predicate = state.p[usize::from(pn)];
            assert_eq!(form, WRFFR);
            match case.given {
                Given::Run(length, register) => {
                    assert_eq!((pn, predicate), (register, states::run(length as u64)))
                }
                Given::Changed(length, bit) => {
                    let run = bit + 1 == length || bit == length;
                    assert_eq!(states::is_run(&predicate), run, "{case:?}");
                }
                Given::Any(_) => {}
            }
        }
    }
}
