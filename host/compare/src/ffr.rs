//! FFR set and read: each pair of registers, under masks of each shape, from an FFR of each shape.

use crate::counters::ready;
use crate::differences::{show_state, show_word, Outcome};
use crate::digits::Digits;
use crate::kind::{Forms, Kind};
use crate::logic::flags_under;
use crate::seen::Seen;
use crate::steps::by_either_way;
use compare::instructions::{short_word, RDFFR, RDFFRS_PG, RDFFR_PG, SETFFR};
use compare::random::Random;
use compare::states::{self, Shape, LENGTHS, SHAPES};
use model::{decode, Row, State};

const KIND: u64 = 26;

const FORMS: [u8; 4] = [SETFFR, RDFFR, RDFFR_PG, RDFFRS_PG];

/// What a mask looks like.
#[derive(Clone, Copy, PartialEq, Eq, Hash, Debug)]
enum Mask {
    Empty,
    Full,
    OneBit,
    /// The words of its lowest bit and of its highest, as far as the length has them.
    Span(usize, usize),
    Any,
}

const MASKS: [Mask; 14] = [
    Mask::Empty,
    Mask::Full,
    Mask::OneBit,
    Mask::Span(0, 0),
    Mask::Span(0, 1),
    Mask::Span(0, 2),
    Mask::Span(0, 3),
    Mask::Span(1, 1),
    Mask::Span(1, 2),
    Mask::Span(1, 3),
    Mask::Span(2, 2),
    Mask::Span(2, 3),
    Mask::Span(3, 3),
    Mask::Any,
];

/// What a case is made of, beside random numbers. The numbers of the cases count through all combinations. Where a form names
/// no Pg or no Pd, that is 0.
#[derive(Clone, Copy, PartialEq, Eq, Debug)]
struct Case {
    form: u8,
    pg: u8,
    pd: u8,
    vl: u64,
    mask: Mask,
    /// None for a run of ones.
    ffr: Option<Shape>,
}

impl Case {
    /// The numbers below have all combinations, also of registers that a form does not name.
    const COUNT: usize = FORMS.len() * 16 * 16 * LENGTHS.len() * MASKS.len() * (SHAPES.len() + 1);

    fn new(number: u64) -> Case {
        let mut digits = Digits::of(number);
        Case {
            form: digits.pick(&FORMS),
            pg: digits.below(16) as u8,
            pd: digits.below(16) as u8,
            vl: digits.pick(&LENGTHS),
            mask: digits.pick(&MASKS),
            ffr: SHAPES.get(digits.below(SHAPES.len() + 1)).copied(),
        }
    }

    /// Whether the registers that the form does not name are 0.
    fn is_one_of_its_form(&self) -> bool {
        match self.form {
            SETFFR => self.pg == 0 && self.pd == 0,
            RDFFR => self.pg == 0,
            _ => true,
        }
    }

    fn word(&self) -> u32 {
        match self.form {
            SETFFR => short_word(SETFFR, &[]),
            RDFFR => short_word(RDFFR, &[self.pd]),
            form => short_word(form, &[self.pg, self.pd]),
        }
    }
}

fn mask(random: &mut Random, vl: u64, mask: Mask) -> [u64; 4] {
    let pl = vl as usize / 8;
    let words = pl.div_ceil(64);
    let in_word = |random: &mut Random, word: usize| word * 64 + random.index(pl.min(64));
    match mask {
        Mask::Empty => [0; 4],
        Mask::Full => states::full(vl),
        Mask::OneBit => only(&[random.index(pl)]),
        Mask::Span(low, high) => {
            let ends = [low, high].map(|word| in_word(random, word.min(words - 1)));
            let dense = states::shaped(random, vl, Shape::Dense);
            let (lowest, highest) = (ends[0].min(ends[1]), ends[0].max(ends[1]));
            within(dense, lowest, highest)
        }
        Mask::Any => {
            let shape = random.pick(&SHAPES);
            states::shaped(random, vl, shape)
        }
    }
}

/// The predicate with these bits alone.
fn only(bits: &[usize]) -> [u64; 4] {
    let mut predicate = [0; 4];
    bits.iter().for_each(|&bit| predicate[bit / 64] |= 1 << (bit % 64));
    predicate
}

/// The bits between two others, and these two.
fn within(predicate: [u64; 4], lowest: usize, highest: usize) -> [u64; 4] {
    let inner: Vec<usize> = (lowest + 1..highest).filter(|&bit| predicate[bit / 64] >> (bit % 64) & 1 == 1).collect();
    only(&[&inner[..], &[lowest, highest]].concat())
}

/// Single steps of SETFFR and of what reads FFR, by either way.
pub struct Ffr;

impl Kind for Ffr {
    type Input = (State, u32);
    const NAME: &'static str = "ffr";
    const REPLIES: &'static [u8] = &[0];
    const FORMS: Forms = Forms::None;
    const NOTES: &'static [&'static str] = &[
        "SETFFR over an FFR not all true",
        "RDFFR over another Pd",
        "FFR not a run of ones",
        "Pd = Pg",
        "another result without the mask",
        "another result without FFR",
        "mask empty",
        "mask full",
        "mask of one bit",
        LOWEST[0],
        LOWEST[1],
        LOWEST[2],
        LOWEST[3],
        HIGHEST[0],
        HIGHEST[1],
        HIGHEST[2],
        HIGHEST[3],
        "flags kept",
        "flags set",
        "NZC 000",
        "NZC 001",
        "NZC 011",
        "NZC 100",
        "NZC 101",
        "other flags under a full mask",
        "other flags under the result",
    ];

    fn numbers() -> impl Iterator<Item = u64> {
        (0..Case::COUNT as u64).filter(|&number| Case::new(number).is_one_of_its_form())
    }

    fn make(seed: u64, number: u64) -> (State, u32) {
        let random = &mut Random::new(seed, KIND, number);
        let case = Case::new(number);
        let mut state = ready(random, case.vl);
        state.level = 1 + random.below(3) as u8;
        states::put(&mut state, case.pg, mask(random, case.vl, case.mask));
        state.ffr = match case.ffr {
            Some(shape) => states::shaped(random, case.vl, shape),
            None => states::run(random.below(case.vl / 8 + 1)),
        };
        (state, case.word())
    }

    fn show((state, word): &(State, u32)) -> String {
        show_state(state) + &show_word(*word)
    }

    fn compare((state, word): &(State, u32), seen: &mut Seen) -> Outcome {
        let (differences, reply, after) = by_either_way(state, *word);
        seen.reply(reply);
        seen.note_if(!states::is_run(&state.ffr), "FFR not a run of ones");
        match decode(*word).expect("it was executed") {
            [SETFFR, ..] => seen.note_if(after.ffr != state.ffr, "SETFFR over an FFR not all true"),
            [RDFFR, pd, ..] => {
                seen.note_if(after.p[usize::from(pd)] != state.p[usize::from(pd)], "RDFFR over another Pd")
            }
            row => note_under(seen, state, &after, &row),
        }
        differences.outcome()
    }
}

/// The words of a mask's lowest bit and highest.
const LOWEST: [&str; 4] = [
    "lowest of the mask in word 0",
    "lowest of the mask in word 1",
    "lowest of the mask in word 2",
    "lowest of the mask in word 3",
];
const HIGHEST: [&str; 4] = [
    "highest of the mask in word 0",
    "highest of the mask in word 1",
    "highest of the mask in word 2",
    "highest of the mask in word 3",
];

fn note_under(seen: &mut Seen, before: &State, after: &State, &[form, pg, pd, ..]: &Row) {
    let [mask, result] = [before.p[usize::from(pg)], after.p[usize::from(pd)]];
    seen.note_if(pd == pg, "Pd = Pg");
    seen.note_if(result != before.ffr, "another result without the mask");
    seen.note_if(result != mask, "another result without FFR");
    seen.note_if(mask == [0; 4], "mask empty");
    seen.note_if(mask == states::full(before.vl), "mask full");
    seen.note_if(mask.iter().map(|word| word.count_ones()).sum::<u32>() == 1, "mask of one bit");
    if form == RDFFR_PG {
        let other = after.flags != flags_under(mask, after, pd);
        return seen.note_if(other && after.flags == before.flags, "flags kept");
    }
    seen.note_if(after.flags != before.flags, "flags set");
    if let Some(lowest) = mask.iter().position(|&word| word != 0) {
        let highest = mask.iter().rposition(|&word| word != 0).expect("there is one");
        seen.note(LOWEST[lowest]);
        seen.note(HIGHEST[highest]);
    }
    note_flags(seen, before, after, pd);
}

fn note_flags(seen: &mut Seen, before: &State, after: &State, pd: u8) {
    let flags = after.flags;
    seen.note(match (flags.n, flags.z, flags.c) {
        (false, false, false) => "NZC 000",
        (false, false, true) => "NZC 001",
        (true, false, false) => "NZC 100",
        (true, false, true) => "NZC 101",
        _ => "NZC 011",
    });
    // what a step that tests under another mask would be noticed by
    let full = states::full(before.vl);
    seen.note_if(flags != flags_under(full, after, pd), "other flags under a full mask");
    let result = after.p[usize::from(pd)];
    seen.note_if(flags != flags_under(result, after, pd), "other flags under the result");
}

#[cfg(test)]
mod tests {
    use super::*;
    use std::collections::HashSet;

    /// Each form of each length has each pair of registers, and each pair each mask and FFR.
    #[test]
    fn every_combination_is_made() {
        let mut made = HashSet::new();
        for number in Ffr::numbers() {
            let case = Case::new(number);
            let (state, word) = Ffr::make(1, number);
            let row = decode(word).expect("a word of FFR's");
            assert_eq!((row[0], state.vl), (case.form, case.vl));
            made.insert((row, state.vl, case.mask, case.ffr.map(|shape| shape as u8)));
        }
        let rows = 1 + 16 + 256 + 256;
        assert_eq!(made.len(), rows * LENGTHS.len() * MASKS.len() * (SHAPES.len() + 1));
    }

    /// The lowest and the highest bit of a mask lie in the words that its shape names.
    #[test]
    fn masks_reach_from_word_to_word() {
        let random = &mut Random::new(1, KIND, 0);
        for shape in MASKS {
            let Mask::Span(low, high) = shape else { continue };
            let words = mask(random, 2048, shape);
            let ends = (words.iter().position(|&word| word != 0), words.iter().rposition(|&word| word != 0));
            assert_eq!(ends, (Some(low), Some(high)));
        }
    }
}
