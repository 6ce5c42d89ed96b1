//! States that are illegal by their counts alone: each count of each register, wrong in each of many ways, in steps, runs,
//! walks and writes.

use crate::boundary;
use crate::differences::Outcome;
use crate::digits::Digits;
use crate::illegal::Asked;
use crate::kind::{Forms, Kind};
use crate::seen::Seen;
use compare::random::Random;
use compare::routes::{route, Bounds};
use compare::states::{self, Fault, LENGTHS};
use model::State;

const KIND: u64 = 29;
const DRAWS: usize = 4;

/// How a count is wrong.
#[derive(Clone, Copy, PartialEq, Eq, Hash, Debug)]
enum Wrong {
    More,
    Less,
    None,
    Most,
    /// It stands in the place of that of the next size, and that in its own.
    Exchanged,
    /// It is one more, and that of the next size one less.
    Moved,
    /// It is one more, and that of the next register one less.
    MovedOn,
    /// One bit of it is changed.
    Bit(usize),
}

const WAYS: [Wrong; 7] =
    [Wrong::More, Wrong::Less, Wrong::None, Wrong::Most, Wrong::Exchanged, Wrong::Moved, Wrong::MovedOn];
const BITS: usize = u16::BITS as usize;

/// What a case is made of, beside random numbers. The numbers of the cases count through all combinations.
#[derive(Clone, Copy, PartialEq, Eq, Hash, Debug)]
struct Case {
    vl: u64,
    register: usize,
    size: usize,
    wrong: Wrong,
}

impl Case {
    const COUNT: usize = LENGTHS.len() * 16 * 4 * (WAYS.len() + BITS) * DRAWS;

    fn new(number: u64) -> Case {
        let mut digits = Digits::of(number);
        Case {
            vl: digits.pick(&LENGTHS),
            register: digits.below(16),
            size: digits.below(4),
            wrong: match digits.below(WAYS.len() + BITS) {
                bit if bit < BITS => Wrong::Bit(bit),
                way => WAYS[way - BITS],
            },
        }
    }

    fn next_size(&self) -> usize {
        (self.size + 1) % 4
    }

    fn next_register(&self) -> usize {
        (self.register + 1) % 16
    }

    /// Sets bits so that each way is a wrong one: an element that is true at each size, of this register and of the next, and
    /// one that is true at the smaller of two sizes alone. Where a count may be 0, the predicate is now and then empty.
    fn prepare(&self, random: &mut Random, state: &mut State) {
        let smaller = self.size.min(self.next_size());
        for register in [self.register, self.next_register()] {
            let mut predicate = state.p[register];
            predicate[0] |= 1 | 1 << (1 << smaller);
            states::put(state, register as u8, predicate);
        }
        if matches!(self.wrong, Wrong::More | Wrong::Most | Wrong::Bit(_)) && random.one_in(4) {
            states::put(state, self.register as u8, [0; 4]);
        }
    }

    fn spoil(&self, counts: &mut [[u16; 4]; 16]) {
        let count = &mut counts[self.register][self.size];
        match self.wrong {
            Wrong::More => *count += 1,
            Wrong::Less => *count -= 1,
            Wrong::None => *count = 0,
            Wrong::Most => *count = u16::MAX,
            Wrong::Bit(bit) => *count ^= 1 << bit,
            Wrong::Exchanged => counts[self.register].swap(self.size, self.next_size()),
            Wrong::Moved => {
                *count += 1;
                counts[self.register][self.next_size()] -= 1;
            }
            Wrong::MovedOn => {
                *count += 1;
                counts[self.next_register()][self.size] -= 1;
            }
        }
    }
}

/// Each count of each register at each length, wrong in each way.
pub struct Counts;

impl Kind for Counts {
    type Input = Asked;
    const NAME: &'static str = "counts";
    const REPLIES: &'static [u8] = &[4];
    const FORMS: Forms = Forms::None;
    const NOTES: &'static [&'static str] = &[
        "P0",
        "P1",
        "P2",
        "P3",
        "P4",
        "P5",
        "P6",
        "P7",
        "P8",
        "P9",
        "P10",
        "P11",
        "P12",
        "P13",
        "P14",
        "P15",
        "B",
        "H",
        "S",
        "D",
        "one more",
        "one less",
        "0 for another",
        "another for 0",
        "65,535",
        "wrong above the low byte alone",
        "two sizes of a register",
        "two registers",
        "a word that is none of ours",
        "level 0",
        "without access",
    ];

    fn numbers() -> impl Iterator<Item = u64> {
        0..Case::COUNT as u64
    }

    fn make(seed: u64, number: u64) -> Asked {
        let random = &mut Random::new(seed, KIND, number);
        let case = Case::new(number);
        let mut route = route(random, case.vl, &Bounds { far: 40, bytes: false });
        case.prepare(random, &mut route.state);
        case.spoil(&mut route.state.counts);
        Asked::new(random, route)
    }

    fn show(asked: &Asked) -> String {
        asked.show()
    }

    fn compare(asked: &Asked, seen: &mut Seen) -> Outcome {
        let state = &asked.route.state;
        assert!(states::is_illegal_by(state, Fault::Count), "it is illegal by its counts alone");
        let (mut differences, reply) = asked.compare();
        let right = states::recounted(state);
        differences.state(&boundary::counted(state), &right);
        differences.field("reply with the counts worked out", boundary::run(&right, &[]).reply, 0);
        seen.reply(reply);
        note(seen, state, &right);
        asked.note(seen);
        differences.outcome()
    }
}

/// Which counts are wrong, and how.
fn note(seen: &mut Seen, state: &State, right: &State) {
    let places = (0..16).flat_map(|register| (0..4).map(move |size| (register, size)));
    let wrong: Vec<(usize, usize)> =
        places.filter(|&(register, size)| state.counts[register][size] != right.counts[register][size]).collect();
    for &(register, size) in &wrong {
        seen.note(Counts::NOTES[register]);
        seen.note(Counts::NOTES[16 + size]);
    }
    match wrong[..] {
        [(register, size)] => note_one(seen, state.counts[register][size], right.counts[register][size]),
        [(one, _), (other, _)] => seen.note(if one == other { "two sizes of a register" } else { "two registers" }),
        _ => panic!("one count is wrong, or two are"),
    }
}

fn note_one(seen: &mut Seen, count: u16, right: u16) {
    seen.note_if(count == right.wrapping_add(1), "one more");
    seen.note_if(count == right.wrapping_sub(1), "one less");
    seen.note_if(count == 0, "0 for another");
    seen.note_if(right == 0, "another for 0");
    seen.note_if(count == u16::MAX, "65,535");
    seen.note_if(count % 256 == right % 256, "wrong above the low byte alone");
}

#[cfg(test)]
mod tests {
    use super::*;
    use std::collections::HashSet;

    /// Each count of each register at each length is wrong in each way, one more and one less among them, and nothing else is.
    #[test]
    fn every_count_is_made() {
        let (mut cases, mut by_one) = (HashSet::new(), HashSet::new());
        for number in Counts::numbers() {
            let case = Case::new(number);
            let state = Counts::make(1, number).route.state;
            let right = states::recounted(&state);
            let (count, right) = (state.counts[case.register][case.size], right.counts[case.register][case.size]);
            assert_eq!((state.vl, states::faults(&state)), (case.vl, vec![Fault::Count]), "{case:?}");
            assert_ne!(count, right, "{case:?}");
            cases.insert(case);
            if matches!(case.wrong, Wrong::More | Wrong::Less) {
                by_one.insert((case.vl, case.register, case.size, count.wrapping_sub(right)));
            }
        }
        assert_eq!((cases.len(), by_one.len()), (Case::COUNT / DRAWS, LENGTHS.len() * 16 * 4 * 2));
    }
}
