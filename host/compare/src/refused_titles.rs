//! Titles that are refused: of each bad vector length, and with too many units. Each stays as it was.

use crate::differences::{Differences, Outcome};
use crate::digits::Digits;
use crate::folds::Fold;
use crate::kind::{Forms, Kind};
use crate::seen::Seen;
use compare::random::Random;
use compare::states::LENGTHS;
use compare::titles::{drawn, LONGEST};

const KIND: u64 = 39;

/// Each vector length up to this.
const EACH: usize = 4200;
/// What is added to a power of two, or taken from it around the end of the numbers.
const BESIDE: [u64; 5] = [u64::MAX - 1, u64::MAX, 0, 1, 2];
/// A power of two, and what is added to it: so small a thing, or an allowed length.
const POWERS: usize = 64 * (BESIDE.len() + LENGTHS.len());

/// Titles of a bad vector length: empty, short, middle, full, long.
const TITLES: usize = 5;
/// Too many units at an allowed one, those that sixteen bits cut off among them.
const TOO_MANY: [usize; 9] = [4097, 4098, 4160, 8191, 8192, 65_535, 65_536, 65_556, 0x20_0000 + 20];

/// Titles that are refused with 4 or 11, with every vector length.
pub struct RefusedTitles;

impl Kind for RefusedTitles {
    type Input = Fold;
    const NAME: &'static str = "refused-titles";
    const REPLIES: &'static [u8] = &[4, 11];
    const FORMS: Forms = Forms::None;
    const NOTES: &'static [&'static str] = &[
        "vl 0",
        "beside an allowed length",
        "between two allowed lengths, a multiple of 128",
        "an allowed length with a bit above",
        "the largest number",
        "4 with no units",
        "4 with a short title",
        "4 with a full title",
        "4 with a long title",
        "11 with 4,097 units",
        "11 with more than 65,535 units",
        "a unit that would be folded",
    ];

    /// First those of the bad lengths, then those of the allowed.
    fn numbers() -> impl Iterator<Item = u64> {
        let of_bad = (0..BAD as u64).filter(|&number| !LENGTHS.contains(&bad_length(number)));
        of_bad.chain((BAD..BAD + LENGTHS.len() * TOO_MANY.len()).map(|number| number as u64))
    }

    fn make(seed: u64, number: u64) -> Fold {
        let random = &mut Random::new(seed, KIND, number);
        let (vl, units) = length_and_units(random, number);
        let title = drawn(random, units);
        Fold::new(random, vl, &title)
    }

    fn show(fold: &Fold) -> String {
        fold.show()
    }

    fn compare(fold: &Fold, seen: &mut Seen) -> Outcome {
        let ((reply, title), (second_reply, second_title)) = (fold.by_library(), fold.by_second());
        let mut differences = Differences::default();
        differences.field("reply", reply, second_reply);
        differences.lent("title, beside the given", &title, &fold.title);
        differences.lent("the given title, beside that", &fold.title, &second_title);
        seen.reply(second_reply);
        note_length(seen, fold.vl);
        note_units(seen, second_reply, fold.title.held().len());
        seen.note_if(fold.title.held().contains(&0x41), "a unit that would be folded");
        differences.outcome()
    }
}

/// The numbers of titles with a bad length are below this.
const BAD: usize = TITLES * (EACH + 1 + POWERS);

/// Of a title with such a number. Some of them are allowed after all.
fn bad_length(number: u64) -> u64 {
    let number = number as usize / TITLES;
    if number <= EACH {
        return number as u64;
    }
    let mut digits = Digits::of((number - EACH - 1) as u64);
    let power = 1 << digits.below(64);
    let added = digits.below(BESIDE.len() + LENGTHS.len());
    let added = BESIDE.iter().chain(&LENGTHS).nth(added).expect("there are so many");
    added.wrapping_add(power)
}

fn length_and_units(random: &mut Random, number: u64) -> (u64, usize) {
    if number as usize >= BAD {
        let mut digits = Digits::of(number - BAD as u64);
        return (digits.pick(&LENGTHS), digits.pick(&TOO_MANY));
    }
    let units = match number as usize % TITLES {
        0 => 0,
        1 => 1 + random.index(64),
        2 => 65 + random.index(LONGEST - 65),
        3 => LONGEST,
        _ => LONGEST + 1 + random.index(LONGEST),
    };
    (bad_length(number), units)
}

fn note_length(seen: &mut Seen, vl: u64) {
    let is_allowed = |vl: &u64| LENGTHS.contains(vl);
    let beside = [vl.wrapping_add(1), vl.wrapping_sub(1)];
    let without_highest = |vl: u64| vl & !(1 << vl.max(1).ilog2());
    seen.note_if(vl == 0, "vl 0");
    seen.note_if(beside.iter().any(is_allowed), "beside an allowed length");
    seen.note_if(vl.is_multiple_of(128) && (129..2048).contains(&vl), "between two allowed lengths, a multiple of 128");
    seen.note_if(vl > 1 << 31 && is_allowed(&without_highest(vl)), "an allowed length with a bit above");
    seen.note_if(vl == u64::MAX, "the largest number");
}

fn note_units(seen: &mut Seen, reply: u8, units: usize) {
    match (reply, units) {
        (4, 0) => seen.note("4 with no units"),
        (4, 1..=64) => seen.note("4 with a short title"),
        (4, LONGEST) => seen.note("4 with a full title"),
        (4, 4097..) => seen.note("4 with a long title"),
        (11, 4097) => seen.note("11 with 4,097 units"),
        (11, 65_536..) => seen.note("11 with more than 65,535 units"),
        _ => {}
    }
}

#[cfg(test)]
mod tests {
    use super::*;
    use std::collections::BTreeSet;

    #[test]
    fn every_bad_length_is_made() {
        let bad = RefusedTitles::numbers().filter(|&number| (number as usize) < BAD);
        let made: BTreeSet<u64> = bad.map(bad_length).collect();
        let near = |k: u32| BESIDE.map(|beside| (1u64 << k).wrapping_add(beside));
        let with_bit = |k: u32| LENGTHS.map(|vl| vl.wrapping_add(1 << k));
        let wanted = (0..=4200).chain((0..64).flat_map(near)).chain((0..64).flat_map(with_bit)).chain([u64::MAX]);
        for vl in wanted {
            assert_eq!(made.contains(&vl), !LENGTHS.contains(&vl), "{vl}");
        }
    }
}
