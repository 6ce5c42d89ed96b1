//! Titles folded twice: the second folding changes nothing, at whatever vector length.

use crate::boundary;
use crate::differences::Outcome;
use crate::digits::Digits;
use crate::folds::{note_length, Fold};
use crate::kind::{Forms, Kind};
use crate::seen::Seen;
use compare::random::Random;
use compare::states::LENGTHS;
use compare::titles::{drawn, LONGEST};

const KIND: u64 = 40;

/// Titles of each length up to this.
const EACH: usize = 70;
/// Titles of any length.
const ANY: usize = 16;
/// Titles that have all units between them.
const WHOLE: usize = 0x1_0000 / LONGEST;
const TITLES: usize = EACH + 1 + ANY + WHOLE;

/// Titles folded at a vector length, and again at the same or another.
pub struct Twice;

impl Kind for Twice {
    /// The second vector length as well.
    type Input = (Fold, u64);
    const NAME: &'static str = "twice";
    const REPLIES: &'static [u8] = &[0];
    const FORMS: Forms = Forms::None;
    const NOTES: &'static [&'static str] = &[
        "at 128",
        "at 256",
        "at 512",
        "at 1,024",
        "at 2,048",
        "at the same length",
        "at a longer one",
        "at a shorter one",
        "no units",
        "4,096 units",
        "folded at first",
    ];

    fn numbers() -> impl Iterator<Item = u64> {
        0..(LENGTHS.len() * LENGTHS.len() * TITLES) as u64
    }

    fn make(seed: u64, number: u64) -> (Fold, u64) {
        let random = &mut Random::new(seed, KIND, number);
        let mut digits = Digits::of(number);
        let (vl, again) = (digits.pick(&LENGTHS), digits.pick(&LENGTHS));
        let title = title(random, digits.below(TITLES));
        (Fold::new(random, vl, &title), again)
    }

    fn show((fold, again): &(Fold, u64)) -> String {
        format!("{}then again at vl {again}\n", fold.show())
    }

    fn compare((fold, again): &(Fold, u64), seen: &mut Seen) -> Outcome {
        let (mut differences, reply, _) = fold.compare();
        let (_, once) = fold.by_library();
        let mut twice = once.clone();
        differences.field("reply of the second folding", boundary::fold(twice.part(), *again), 0);
        differences.lent("title folded twice, beside once", &twice, &once);
        let at_other = Fold { vl: *again, title: fold.title.clone() };
        differences.lent("title folded at the second length alone", &at_other.by_library().1, &once);
        seen.reply(reply);
        note_length(seen, fold.vl);
        seen.note_if(fold.vl == *again, "at the same length");
        seen.note_if(fold.vl < *again, "at a longer one");
        seen.note_if(fold.vl > *again, "at a shorter one");
        seen.note_if(fold.title.held().is_empty(), "no units");
        seen.note_if(fold.title.held().len() == LONGEST, "4,096 units");
        seen.note_if(fold.title != once, "folded at first");
        differences.outcome()
    }
}

/// A title by its number: of each length, of any, and those that have all units.
fn title(random: &mut Random, number: usize) -> Vec<u16> {
    if number <= EACH {
        return drawn(random, number);
    }
    let number = number - EACH - 1;
    if number < ANY {
        let units = random.index(LONGEST + 1);
        return drawn(random, units);
    }
    let first = (number - ANY) * LONGEST;
    (first..first + LONGEST).map(|unit| unit as u16).collect()
}

#[cfg(test)]
mod tests {
    use super::*;
    use std::collections::BTreeSet;

    /// Each unit at each pair of lengths.
    #[test]
    fn every_unit_is_folded_twice() {
        let mut made = BTreeSet::new();
        for number in Twice::numbers() {
            let (fold, again) = Twice::make(1, number);
            let title = fold.title.held();
            if title.len() == LONGEST && title[LONGEST - 1] == title[0] | 0xFFF {
                made.insert((fold.vl, again, title[0]));
            }
        }
        assert_eq!(made.len(), LENGTHS.len() * LENGTHS.len() * WHOLE);
    }
}
