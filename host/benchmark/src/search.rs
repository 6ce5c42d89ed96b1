//! The search for the next active element by itself, in ns per search: by words, as the library searches, and element by
//! element, as a scan does. Both are in `libscan.a`, for the benchmark alone.

use crate::timing::best;
use crate::words::only_last;
use plokamyr::Predicate;
use std::hint::black_box;

/// A search is short: so many are timed together.
const SEARCHES: u64 = 20_000;

extern "C" {
    fn plokamyr_next_by_words(mask: Predicate, size: u32, start: u64, elements: u64) -> u64;
    fn plokamyr_next_by_elements(mask: Predicate, size: u32, start: u64, elements: u64) -> u64;
}

fn next_by_words(mask: Predicate, size: u32, start: u64, elements: u64) -> u64 {
    // SAFETY: numbers and a struct of numbers go in, with C's layout; any of them are allowed.
    unsafe { plokamyr_next_by_words(mask, size, start, elements) }
}

fn next_by_elements(mask: Predicate, size: u32, start: u64, elements: u64) -> u64 {
    // SAFETY: as above.
    unsafe { plokamyr_next_by_elements(mask, size, start, elements) }
}

pub fn by_words(vl: u64) -> f64 {
    each(vl, next_by_words)
}

pub fn by_elements(vl: u64) -> f64 {
    each(vl, next_by_elements)
}

/// Searches from byte element 0, where only the last is active.
fn each(vl: u64, next: impl Fn(Predicate, u32, u64, u64) -> u64) -> f64 {
    let (mask, elements) = (only_last(vl), vl / 8);
    best(5, SEARCHES, || {
        for _ in 0..SEARCHES {
            assert_eq!(next(*black_box(&mask), 0, black_box(0), elements), elements - 1);
        }
    })
}

#[cfg(test)]
mod tests {
    use super::*;
    use crate::words::Dice;

    /// Any bits, or a few.
    fn mask(dice: &mut Dice) -> Predicate {
        let draws = 1 + dice.below(8);
        let mut word = || (0..draws).fold(u64::MAX, |word, _| word & (dice.below(1 << 32) << 32 | dice.below(1 << 32)));
        Predicate { words: [word(), word(), word(), word()] }
    }

    /// The mask's bits past the elements and between their lowest are not looked at.
    fn answer(mask: Predicate, size: u32, start: u64, elements: u64) -> u64 {
        let active = |element: &u64| mask.bit((element << size.min(3)) as usize);
        (start..elements).find(active).unwrap_or(start.max(elements))
    }

    #[test]
    fn both_find_the_first_active_element() {
        let mut dice = Dice::new(0x9E37_79B9_7F4A_7C15);
        for number in 0..2_000 {
            let (mask, size) = (mask(&mut dice), [0, 1, 2, 3, 4, u32::MAX][number % 6]);
            let elements = (16 << dice.below(5)) >> size.min(3);
            for start in (0..elements + 2).chain([1 << 32, u64::MAX]) {
                let answer = answer(mask, size, start, elements);
                assert_eq!(next_by_words(mask, size, start, elements), answer, "{mask:x?} {size} {start} {elements}");
                assert_eq!(
                    next_by_elements(mask, size, start, elements),
                    answer,
                    "{mask:x?} {size} {start} {elements}"
                );
            }
        }
    }
}
