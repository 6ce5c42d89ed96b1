//! Each unit at each vector length.

use crate::differences::Outcome;
use crate::digits::Digits;
use crate::folds::{note_length, Fold};
use crate::kind::{Forms, Kind};
use crate::seen::Seen;
use compare::random::Random;
use compare::states::LENGTHS;
use compare::titles::drawn;

const KIND: u64 = 37;

const UNITS: usize = 0x1_0000;
/// The longest title; the longest vector has 128 lanes, and the shortest 8.
const LONGEST: usize = 20;

/// Each unit somewhere in a short title, at each vector length.
pub struct Units;

impl Kind for Units {
    /// The unit's place as well.
    type Input = (Fold, usize);
    const NAME: &'static str = "units";
    const REPLIES: &'static [u8] = &[0];
    const FORMS: Forms = Forms::None;
    const NOTES: &'static [&'static str] = &[
        "at 128",
        "at 256",
        "at 512",
        "at 1,024",
        "at 2,048",
        "alone",
        "the first of several",
        "the last of several",
        "within",
        "past a vector",
        "A to Z folded",
        "C0 to FF folded",
        "C0 to FF kept",
        "others below 100 kept",
        "100 and above kept",
    ];

    fn numbers() -> impl Iterator<Item = u64> {
        0..(UNITS * LENGTHS.len()) as u64
    }

    fn make(seed: u64, number: u64) -> (Fold, usize) {
        let random = &mut Random::new(seed, KIND, number);
        let (unit, vl) = unit_and_length(number);
        let units = 1 + random.index(LONGEST);
        let mut title = drawn(random, units);
        let place = random.index(units);
        title[place] = unit;
        (Fold::new(random, vl, &title), place)
    }

    fn show((fold, place): &(Fold, usize)) -> String {
        format!("{}the unit is at {place}\n", fold.show())
    }

    fn compare((fold, place): &(Fold, usize), seen: &mut Seen) -> Outcome {
        let (differences, reply, after) = fold.compare();
        seen.reply(reply);
        note_length(seen, fold.vl);
        note_place(seen, fold, *place);
        note_unit(seen, fold.title.held()[*place], after.held()[*place]);
        differences.outcome()
    }
}

fn unit_and_length(number: u64) -> (u16, u64) {
    let mut digits = Digits::of(number);
    let unit = digits.below(UNITS) as u16;
    (unit, digits.pick(&LENGTHS))
}

fn note_place(seen: &mut Seen, fold: &Fold, place: usize) {
    match (place, fold.title.held().len()) {
        (_, 1) => seen.note("alone"),
        (0, _) => seen.note("the first of several"),
        (place, units) if place + 1 == units => seen.note("the last of several"),
        _ => seen.note("within"),
    }
    seen.note_if(place as u64 >= fold.vl / 16, "past a vector");
}

fn note_unit(seen: &mut Seen, before: u16, after: u16) {
    match (before, before != after) {
        (0x41..=0x5A, true) => seen.note("A to Z folded"),
        (0xC0..=0xFF, true) => seen.note("C0 to FF folded"),
        (0xC0..=0xFF, false) => seen.note("C0 to FF kept"),
        (0..=0xFF, false) => seen.note("others below 100 kept"),
        (0x100.., false) => seen.note("100 and above kept"),
        _ => {}
    }
}

#[cfg(test)]
mod tests {
    use super::*;

    #[test]
    fn every_unit_is_made() {
        let mut made = vec![[false; LENGTHS.len()]; UNITS];
        for number in Units::numbers() {
            let (fold, place) = Units::make(1, number);
            let length = LENGTHS.iter().position(|&vl| vl == fold.vl).expect("it is one of the five");
            made[usize::from(fold.title.held()[place])][length] = true;
        }
        assert!(made.iter().flatten().all(|&made| made));
    }
}
