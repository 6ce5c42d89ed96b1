//! PNEXT's search: each element of the mask from each place of the cursor.

use crate::counters::ready;
use crate::differences::{show_state, show_word, Outcome};
use crate::digits::Digits;
use crate::kind::{Forms, Kind};
use crate::seen::Seen;
use crate::steps::by_either_way;
use compare::instructions::PNEXT;
use compare::random::Random;
use compare::states::{self, LENGTHS};
use model::{decode, encode, Row, State};
use std::ops::Range;

const KIND: u64 = 25;

/// By size.
const SIZES: [&str; 4] = ["B", "H", "S", "D"];

/// The elements of the longest vector.
const LARGEST: u64 = 256;

/// What a case is made of, beside random numbers.
#[derive(Clone, Copy, PartialEq, Eq, Debug)]
struct Case {
    length: u64,
    size: u8,
    /// Active in the mask.
    element: u64,
    /// The last that is active in the cursor; none if it is empty.
    last: Option<u64>,
    /// Whether there are others, anywhere in the mask and below the cursor's last.
    others: bool,
}

impl Case {
    /// The numbers below have all combinations, also with elements that the vector does not have.
    const END: u64 = 2 * (LENGTHS.len() * SIZES.len()) as u64 * LARGEST * (LARGEST + 1);

    fn new(number: u64) -> Case {
        let mut digits = Digits::of(number);
        Case {
            last: (digits.below(LARGEST as usize + 1) as u64).checked_sub(1),
            element: digits.below(LARGEST as usize) as u64,
            size: digits.below(SIZES.len()) as u8,
            length: digits.pick(&LENGTHS),
            others: digits.below(2) == 1,
        }
    }

    fn elements(&self) -> u64 {
        self.length / (8 << self.size)
    }

    fn is_within_vector(&self) -> bool {
        self.element.max(self.last.unwrap_or(0)) < self.elements()
    }

    fn mask(&self, random: &mut Random) -> [u64; 4] {
        let active = self.with_others(random, self.element, self.elements());
        states::with_elements(random, self.length, self.size, &active)
    }

    fn cursor(&self, random: &mut Random) -> [u64; 4] {
        let active = self.last.map_or(Vec::new(), |last| self.with_others(random, last, last + 1));
        states::with_elements(random, self.length, self.size, &active)
    }

    /// An element, and in a case with others one to three more below the end: so few that words between them are empty.
    fn with_others(&self, random: &mut Random, element: u64, end: u64) -> Vec<u64> {
        let count = if self.others { 1 + random.below(3) } else { 0 };
        let others = (0..count).map(|_| random.below(end));
        others.chain([element]).collect()
    }

    /// Pv and Pdn: half the time the same if the mask's element is the cursor's last.
    fn registers(&self, random: &mut Random) -> (u8, u8) {
        let pv = random.below(16) as u8;
        if self.last == Some(self.element) && random.one_in(2) {
            return (pv, pv);
        }
        (pv, (pv + 1 + random.below(15) as u8) % 16)
    }
}

/// Single steps of PNEXT, by either way.
pub struct Searches;

impl Kind for Searches {
    type Input = (State, u32);
    const NAME: &'static str = "searches";
    const REPLIES: &'static [u8] = &[0];
    const FORMS: Forms = Forms::None;
    const NOTES: &'static [&'static str] = &[
        "B",
        "H",
        "S",
        "D",
        "empty cursor",
        "mask is the cursor",
        "found in the word of the cursor",
        "found in a later word",
        "a whole word skipped",
        "two words skipped",
        "three words skipped",
        "found at the last element",
        "none left",
        "none left, a whole word skipped",
        "active elements before the start, in the word of the one found",
        "other bits of elements before the one found",
        "other bits of elements, but none left",
        "other bits of the cursor past the one found",
    ];

    fn numbers() -> impl Iterator<Item = u64> {
        (0..Case::END).filter(|&number| Case::new(number).is_within_vector())
    }

    fn make(seed: u64, number: u64) -> (State, u32) {
        let random = &mut Random::new(seed, KIND, number);
        let case = Case::new(number);
        let mut state = ready(random, case.length);
        let (pv, pdn) = case.registers(random);
        states::put(&mut state, pdn, case.cursor(random));
        states::put(&mut state, pv, case.mask(random));
        (state, encode(&[PNEXT, case.size, pv, pdn, 0, 0, 0, 0, 0]).expect("its fields are in range"))
    }

    fn show((state, word): &(State, u32)) -> String {
        show_state(state) + &show_word(*word)
    }

    fn compare((state, word): &(State, u32), seen: &mut Seen) -> Outcome {
        let (differences, reply, after) = by_either_way(state, *word);
        seen.reply(reply);
        note(seen, &Search::new(state, &after, &decode(*word).expect("it was executed")));
        differences.outcome()
    }
}

/// A search that was done, in bits of the mask.
struct Search {
    size: u8,
    mask: [u64; 4],
    cursor: [u64; 4],
    same_register: bool,
    /// The lowest bit of the cursor's last active element.
    last: Option<usize>,
    /// Where the first element stands that was looked at, and where there are none any more.
    start: usize,
    end: usize,
    /// The lowest bit of the element found.
    found: Option<usize>,
}

impl Search {
    fn new(before: &State, after: &State, &[_, size, pv, pdn, ..]: &Row) -> Search {
        let [mask, cursor] = [pv, pdn].map(|p| before.p[usize::from(p)]);
        let end = before.vl as usize / 8;
        let last = (0..end).rev().find(|&bit| has_bit(&cursor, lowest(size), bit));
        let start = last.map_or(0, |last| last + (1 << size));
        let found = (0..end).find(|&bit| has_bit(&after.p[usize::from(pdn)], u64::MAX, bit));
        Search { size, mask, cursor, same_register: pv == pdn, last, start, end, found }
    }

    /// Whether the mask has an active element there.
    fn active(&self, mut bits: Range<usize>) -> bool {
        bits.any(|bit| has_bit(&self.mask, lowest(self.size), bit))
    }

    /// Whether the mask has a bit there that is not the lowest of its element.
    fn ignored(&self, mut bits: Range<usize>) -> bool {
        bits.any(|bit| has_bit(&self.mask, !lowest(self.size), bit))
    }

    /// How many whole words lie between the start and the word of the one found, or the end.
    fn skipped(&self) -> usize {
        let until = self.found.unwrap_or(self.end);
        (until / 64).saturating_sub(self.start.div_ceil(64))
    }
}

/// The lowest bits of the elements, in each word.
fn lowest(size: u8) -> u64 {
    states::elements_of_size(u64::from(size))
}

/// Whether a predicate has a bit, if that is among those of its word.
fn has_bit(words: &[u64; 4], among: u64, bit: usize) -> bool {
    (words[bit / 64] & among) >> (bit % 64) & 1 == 1
}

fn note(seen: &mut Seen, search: &Search) {
    seen.note(SIZES[usize::from(search.size)]);
    seen.note_if(search.last.is_none(), "empty cursor");
    seen.note_if(search.same_register, "mask is the cursor");
    match search.found {
        Some(found) => note_found(seen, search, found),
        None => note_none_left(seen, search),
    }
}

fn note_found(seen: &mut Seen, search: &Search, found: usize) {
    seen.note_if(search.last.is_some_and(|last| last / 64 == found / 64), "found in the word of the cursor");
    seen.note_if(search.last.is_some_and(|last| last / 64 < found / 64), "found in a later word");
    match search.skipped() {
        0 => {}
        1 => seen.note("a whole word skipped"),
        2 => seen.note("two words skipped"),
        _ => seen.note("three words skipped"),
    }
    seen.note_if(found + (1 << search.size) == search.end, "found at the last element");
    // what a search that looks at bits before the start, or at more than lowest bits, would be noticed by
    let before = search.active(found / 64 * 64..search.start);
    seen.note_if(before, "active elements before the start, in the word of the one found");
    seen.note_if(search.ignored(search.start..found), "other bits of elements before the one found");
    let past = (found + 1..search.end).any(|bit| has_bit(&search.cursor, u64::MAX, bit));
    seen.note_if(past, "other bits of the cursor past the one found");
}

fn note_none_left(seen: &mut Seen, search: &Search) {
    seen.note("none left");
    seen.note_if(search.skipped() > 0, "none left, a whole word skipped");
    seen.note_if(search.ignored(search.start..search.end), "other bits of elements, but none left");
}

#[cfg(test)]
mod tests {
    use super::*;

    fn active(words: &[u64; 4], size: u8) -> Vec<u64> {
        (0..LARGEST >> size).filter(|element| has_bit(words, lowest(size), (element << size) as usize)).collect()
    }

    /// A case for each element and each place of the cursor, at each length and size; alone, and with others.
    #[test]
    fn every_combination_is_made() {
        let of_size = |elements: u64| elements * (elements + 1);
        let of_length = |length: u64| (0..4).map(|size| of_size(length / (8 << size))).sum::<u64>();
        let count = Searches::numbers().count() as u64;
        assert_eq!(count, 2 * LENGTHS.map(of_length).iter().sum::<u64>());
        for number in Searches::numbers() {
            let case = Case::new(number);
            let (state, word) = Searches::make(1, number);
            let [form, size, pv, pdn, ..] = decode(word).expect("PNEXT");
            assert_eq!((form, state.vl, size), (PNEXT, case.length, case.size));
            let [mask, cursor] = [pv, pdn].map(|p| active(&state.p[usize::from(p)], size));
            assert!(mask.contains(&case.element) && (case.others || mask.len() == 1), "{case:?}");
            assert!(cursor.last().copied() == case.last || (pv == pdn && case.last == Some(case.element)), "{case:?}");
        }
    }
}
