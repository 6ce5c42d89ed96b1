//! Titles folded, in ns for each unit: by the library, and by a plain loop over the same table.

use crate::timing::best;
use crate::words::Dice;
use plokamyr::{fold, Reply};
use std::hint::black_box;

/// The units of a title. Up to 64 the library has a shorter list.
pub const UNITS: [usize; 5] = [20, 64, 65, 200, 4096];

/// A title is short: as many are timed together as have so many units.
const TIMED: usize = 20 * 4096;

/// What C0 to FF become, for the plain loop.
const LETTERS: [u16; 64] = [
    0x61, 0x61, 0x61, 0x61, 0x61, 0x61, 0xC6, 0x63, 0x65, 0x65, 0x65, 0x65, 0x69, 0x69, 0x69, 0x69, // C0
    0xD0, 0x6E, 0x6F, 0x6F, 0x6F, 0x6F, 0x6F, 0xD7, 0xD8, 0x75, 0x75, 0x75, 0x75, 0x79, 0xDE, 0xDF, // D0
    0x61, 0x61, 0x61, 0x61, 0x61, 0x61, 0xE6, 0x63, 0x65, 0x65, 0x65, 0x65, 0x69, 0x69, 0x69, 0x69, // E0
    0xF0, 0x6E, 0x6F, 0x6F, 0x6F, 0x6F, 0x6F, 0xF7, 0xF8, 0x75, 0x75, 0x75, 0x75, 0x79, 0xFE, 0x79, // F0
];

/// The library's time at a vector length.
pub fn by_library(vl: u64, units: usize) -> f64 {
    each(units, |title| assert_eq!(fold(title, vl), Reply::Done))
}

/// A loop over the units, without a walk; the vector length plays no part.
pub fn by_plain_loop(units: usize) -> f64 {
    each(units, |title| title.iter_mut().for_each(|unit| *unit = folded(*unit)))
}

fn folded(unit: u16) -> u16 {
    match unit {
        0x41..=0x5A => unit + 32,
        0xC0..=0xFF => LETTERS[usize::from(unit - 0xC0)],
        _ => unit,
    }
}

/// Folds titles of so many units, one after the other. That they are put back for each time is within it.
fn each(units: usize, fold: impl Fn(&mut [u16])) -> f64 {
    let given = text(TIMED / units * units);
    let mut titles = given.clone();
    let time = best(5, given.len() as u64, || {
        titles.copy_from_slice(black_box(&given));
        for title in titles.chunks_exact_mut(units) {
            fold(black_box(title));
        }
    });
    assert!(titles == by_second(given, units), "titles of {units} units, and those of the second program");
    time
}

fn by_second(mut titles: Vec<u16>, units: usize) -> Vec<u16> {
    titles.chunks_exact_mut(units).for_each(|title| assert_eq!(model::fold(title, 128), 0));
    titles
}

/// Small letters, and among eight units a large one, one of C0 to FF, and a space.
fn text(units: usize) -> Vec<u16> {
    let mut dice = Dice::new(0x9E37_79B9_7F4A_7C15);
    let mut unit = || match dice.below(8) {
        0 => 0x41 + dice.below(26) as u16,
        1 => 0xC0 + dice.below(64) as u16,
        2 => 0x20,
        _ => 0x61 + dice.below(26) as u16,
    };
    (0..units).map(|_| unit()).collect()
}

#[cfg(test)]
mod tests {
    use super::*;

    #[test]
    fn the_plain_loop_has_the_same_table() {
        for unit in 0..=u16::MAX {
            assert_eq!([folded(unit)], *by_second(vec![unit], 1), "{unit:#x}");
        }
    }
}
