//! Titles folded, of each length around which something changes.

use crate::boundary;
use crate::differences::{Differences, Outcome};
use crate::digits::Digits;
use crate::kind::{Forms, Kind};
use crate::lent::{unit, Lent};
use crate::seen::Seen;
use compare::random::Random;
use compare::states::LENGTHS;
use compare::titles::{drawn, lanes, LONGEST};

const KIND: u64 = 38;

/// At most so many lines of a title are shown.
const SHOWN: usize = 300;

/// What is folded: a title, with canaries around it, at a vector length.
pub struct Fold {
    pub vl: u64,
    pub title: Lent<u16>,
}

impl Fold {
    pub fn new(random: &mut Random, vl: u64, title: &[u16]) -> Fold {
        Fold { vl, title: Lent::holding(title, random, unit) }
    }

    pub fn show(&self) -> String {
        let line = |units: &[u16]| units.iter().map(|unit| format!(" {unit:04x}")).collect::<String>() + "\n";
        let lines: String = self.title.held().chunks(16).take(SHOWN).map(line).collect();
        format!("vl {}, {} units:\n{lines}", self.vl, self.title.held().len())
    }

    /// The library's reply, and the title after it.
    pub fn by_library(&self) -> (u8, Lent<u16>) {
        let mut title = self.title.clone();
        (boundary::fold(title.part(), self.vl), title)
    }

    /// Those of the second program.
    pub fn by_second(&self) -> (u8, Lent<u16>) {
        let mut title = self.title.clone();
        (model::fold(title.part(), self.vl), title)
    }

    /// What differs, and the second program's answer.
    pub fn compare(&self) -> (Differences, u8, Lent<u16>) {
        let ((reply, title), (second_reply, second_title)) = (self.by_library(), self.by_second());
        let mut differences = Differences::default();
        differences.field("reply", reply, second_reply);
        differences.lent("title", &title, &second_title);
        (differences, second_reply, second_title)
    }
}

/// Of each length up to this.
const EACH: usize = 70;
/// So far around the longest.
const NEAR: usize = 5;
const DRAWS: usize = 4;

/// Titles of each length up to 70, around each multiple of the lanes, and around 4,096, at each vector length.
pub struct Titles;

impl Kind for Titles {
    type Input = Fold;
    const NAME: &'static str = "titles";
    const REPLIES: &'static [u8] = &[0, 11];
    const FORMS: Forms = Forms::None;
    const NOTES: &'static [&'static str] = &[
        "at 128",
        "at 256",
        "at 512",
        "at 1,024",
        "at 2,048",
        "no units",
        "one unit",
        "lanes - 1",
        "lanes",
        "lanes + 1",
        "a further multiple - 1",
        "a further multiple",
        "a further multiple + 1",
        "64 units",
        "65 units",
        "4,095 units",
        "4,096 units",
        "4,097 units",
        "more units",
        "every unit folded",
        "the first unit folded",
        "the last unit folded",
        "no unit folded",
    ];

    fn numbers() -> impl Iterator<Item = u64> {
        let end = LENGTHS.len() * (LONGEST + NEAR + 1) * DRAWS;
        (0..end as u64).filter(|&number| is_asked(length_and_units(number)))
    }

    fn make(seed: u64, number: u64) -> Fold {
        let random = &mut Random::new(seed, KIND, number);
        let (vl, units) = length_and_units(number);
        let title = drawn(random, units);
        Fold::new(random, vl, &title)
    }

    fn show(fold: &Fold) -> String {
        fold.show()
    }

    fn compare(fold: &Fold, seen: &mut Seen) -> Outcome {
        let (differences, reply, after) = fold.compare();
        seen.reply(reply);
        note_length(seen, fold.vl);
        note_units(seen, fold.title.held().len());
        if reply == 0 {
            note_lanes(seen, fold.title.held().len(), lanes(fold.vl));
            note_folded(seen, fold.title.held(), after.held());
        }
        differences.outcome()
    }
}

fn length_and_units(number: u64) -> (u64, usize) {
    let mut digits = Digits::of(number);
    let vl = digits.pick(&LENGTHS);
    (vl, digits.below(LONGEST + NEAR + 1))
}

fn is_asked((vl, units): (u64, usize)) -> bool {
    let lanes = lanes(vl);
    units <= EACH || units + NEAR >= LONGEST || [0, 1, lanes - 1].contains(&(units % lanes))
}

pub fn note_length(seen: &mut Seen, vl: u64) {
    seen.note(match vl {
        128 => "at 128",
        256 => "at 256",
        512 => "at 512",
        1024 => "at 1,024",
        _ => "at 2,048",
    });
}

fn note_units(seen: &mut Seen, units: usize) {
    match units {
        0 => seen.note("no units"),
        1 => seen.note("one unit"),
        64 => seen.note("64 units"),
        65 => seen.note("65 units"),
        4095 => seen.note("4,095 units"),
        4096 => seen.note("4,096 units"),
        4097 => seen.note("4,097 units"),
        _ => seen.note_if(units > LONGEST, "more units"),
    }
}

fn note_lanes(seen: &mut Seen, units: usize, lanes: usize) {
    match (units / lanes, units % lanes) {
        (1, 0) => seen.note("lanes"),
        (1, 1) => seen.note("lanes + 1"),
        (0, past) => seen.note_if(past + 1 == lanes, "lanes - 1"),
        (_, 0) => seen.note("a further multiple"),
        (_, 1) => seen.note("a further multiple + 1"),
        (_, past) => seen.note_if(past + 1 == lanes, "a further multiple - 1"),
    }
}

fn note_folded(seen: &mut Seen, before: &[u16], after: &[u16]) {
    let folded: Vec<bool> = before.iter().zip(after).map(|(before, after)| before != after).collect();
    seen.note_if(folded.len() > 1 && folded.iter().all(|&folded| folded), "every unit folded");
    seen.note_if(folded.first() == Some(&true), "the first unit folded");
    seen.note_if(folded.last() == Some(&true), "the last unit folded");
    seen.note_if(folded.len() > 1 && !folded.contains(&true), "no unit folded");
}

#[cfg(test)]
mod tests {
    use super::*;
    use std::collections::BTreeSet;

    /// Each length up to 70 and around 4,096, and three around each multiple of the lanes, at each vector length.
    #[test]
    fn every_length_is_made() {
        let made: BTreeSet<(u64, usize)> = Titles::numbers().map(length_and_units).collect();
        for vl in LENGTHS {
            let multiples = (1..=LONGEST / lanes(vl)).map(|rounds| rounds * lanes(vl));
            let around = multiples.flat_map(|units| [units - 1, units, units + 1]);
            for units in (0..=70).chain(4091..=4101).chain(around) {
                assert!(made.contains(&(vl, units)), "{units} units at {vl}");
            }
        }
        let number = Titles::numbers().last().expect("there are cases");
        let fold = Titles::make(1, number);
        assert_eq!((fold.vl, fold.title.held().len()), length_and_units(number));
    }
}
