//! Predicates as counters: what WHILE has counted, as the library reads and writes it.

use crate::assemble::assemble;
use crate::lanes::elements;
use crate::syntax::SIZES;
use plokamyr::{Predicate, Reply, State};

/// A counter as WHILE writes it.
#[derive(Clone, Copy, Debug, PartialEq, Eq)]
pub struct Counter {
    pub size: u32,
    /// Counting up, the lowest elements are true; counting down, the highest.
    pub up: bool,
    /// The true elements in a group of two vectors and in one of four, and how many there are.
    pub groups: [(u64, u64); 2],
}

impl Counter {
    /// `.s 3 of 8 counting up`, in a group of four vectors or of two.
    pub fn shown(&self, four: bool) -> String {
        let (count, of) = self.groups[usize::from(four)];
        format!(".{} {count} of {of} counting {}", SIZES[self.size as usize], if self.up { "up" } else { "down" })
    }

    /// `3 of 16 in four vectors`.
    pub fn of_four(&self) -> String {
        let (count, of) = self.groups[1];
        format!("{count} of {of} in four vectors")
    }
}

/// The counter that a predicate is if it is read as one: that which a WHILE of as many elements would have written there. None
/// for a predicate that no WHILE writes, for an empty one, which is a counter of no size, and at a level that has no counters.
pub fn counter(predicate: &Predicate, vl: u64, level: u8) -> Option<Counter> {
    if *predicate == Predicate::default() {
        return None;
    }
    let mut ways = (0..4).flat_map(|size| [true, false].map(|up| (size, up)));
    ways.find_map(|(size, up)| read(predicate, State::new(vl, level), size, up))
}

/// Reads a predicate on a state of the library's, which refuses that below the level of counters.
fn read(predicate: &Predicate, mut state: State, size: u32, up: bool) -> Option<Counter> {
    let letter = SIZES[size as usize];
    state.set_p(8, *predicate);
    step(&mut state, &format!("cntp x0, pn8.{letter}, vlx4"))?;
    step(&mut state, &format!("cntp x1, pn8.{letter}, vlx2"))?;
    let again = if up { "whilelo" } else { "whilehi" };
    let ends = if up { "xzr, x0" } else { "x0, xzr" };
    step(&mut state, &format!("{again} pn9.{letter}, {ends}, vlx4"))?;
    let elements = elements(state.vl(), size) as u64;
    let groups = [(state.x[1], 2 * elements), (state.x[0], 4 * elements)];
    (state.p()[9] == *predicate).then_some(Counter { size, up, groups })
}

fn step(state: &mut State, text: &str) -> Option<()> {
    let word = assemble(text).ok()?;
    (state.step(word) == Reply::Done).then_some(())
}

#[cfg(test)]
mod tests {
    use super::*;

    /// What a WHILE writes is read as what it was asked for, at every length and size, for eight counts.
    #[test]
    fn what_while_writes() {
        for vl in [128, 256, 512, 1024, 2048] {
            for (size, letter) in (0..).zip(SIZES) {
                let elements = (vl / 8) >> size;
                for true_elements in
                    [1, 2, elements - 1, elements, elements + 1, 2 * elements - 1, 2 * elements + 1, 4 * elements - 1]
                {
                    let of = |text: String| {
                        let mut state = State::new(vl, 3);
                        state.x[1] = true_elements;
                        step(&mut state, &text).unwrap();
                        counter(&state.p()[8], vl, 3).unwrap()
                    };
                    let up = of(format!("whilelo pn8.{letter}, xzr, x1, vlx4"));
                    assert_eq!((up.size, up.up), (size, true));
                    assert_eq!(
                        up.groups,
                        [(true_elements.min(2 * elements), 2 * elements), (true_elements, 4 * elements)]
                    );
                    let down = of(format!("whilehi pn8.{letter}, x1, xzr, vlx4"));
                    assert_eq!((down.size, down.up, down.groups[1]), (size, false, (true_elements, 4 * elements)));
                }
            }
        }
    }

    #[test]
    fn no_counter() {
        assert_eq!(counter(&Predicate::default(), 128, 3), None);
        assert_eq!(counter(&Predicate::from(0x8000), 128, 3), None); // bit 15 alone has no mark of a size
        assert_eq!(counter(&Predicate::from(0x0081), 128, 3), None); // at 128 bits a count ends at bit 6
        assert_eq!(counter(&Predicate::from(0x1_0003), 256, 3), None); // a counter has 16 bits
    }

    #[test]
    fn none_below_the_level_of_counters() {
        let of = |level| counter(&Predicate::from(0b11_100), 128, level).is_some();
        assert_eq!([0, 1, 2, 3].map(of), [false, false, false, true]);
    }

    #[test]
    fn in_words() {
        let three = counter(&Predicate::from(0b11_100), 128, 3).unwrap();
        assert_eq!([three.shown(false), three.shown(true)], [".s 3 of 8 counting up", ".s 3 of 16 counting up"]);
    }
}
