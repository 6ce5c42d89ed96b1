//! Predicate logic: each operation with all ways in which its registers coincide.

use crate::differences::{show_state, show_word, Outcome};
use crate::digits::Digits;
use crate::kind::{Forms, Kind};
use crate::seen::Seen;
use crate::steps::by_either_way;
use compare::instructions::{logic_word, LOGIC};
use compare::random::Random;
use compare::states::{self, Shape, LENGTHS, SHAPES};
use model::{decode, encode, Flags, Row, State};

const KIND: u64 = 22;

/// By op, o2, o3.
const OPERATIONS: [&str; 8] = ["AND", "BIC", "EOR", "SEL", "ORR", "ORN", "NOR", "NAND"];

/// The ways in which Pd, Pg, Pn and Pm coincide: the same number stands for the same register.
const PATTERNS: [[usize; 4]; 15] = [
    [0, 0, 0, 0],
    [0, 0, 0, 1],
    [0, 0, 1, 0],
    [0, 1, 0, 0],
    [0, 1, 1, 1],
    [0, 0, 1, 1],
    [0, 1, 0, 1],
    [0, 1, 1, 0],
    [0, 0, 1, 2],
    [0, 1, 0, 2],
    [0, 1, 2, 0],
    [0, 1, 1, 2],
    [0, 1, 2, 1],
    [0, 1, 2, 2],
    [0, 1, 2, 3],
];

/// What a case is made of, beside random numbers. The numbers of the cases count through all combinations.
#[derive(Clone, Copy, PartialEq, Eq, Debug)]
struct Case {
    pattern: [usize; 4],
    operation: usize,
    s: u8,
    vl: u64,
    /// Those of Pg, Pn and Pm; where they coincide, the last.
    shapes: [Shape; 3],
}

impl Case {
    const COUNT: usize = PATTERNS.len() * OPERATIONS.len() * 2 * LENGTHS.len() * SHAPES.len().pow(3);

    fn new(number: u64) -> Case {
        let mut digits = Digits::of(number);
        Case {
            pattern: digits.pick(&PATTERNS),
            operation: digits.below(OPERATIONS.len()),
            s: digits.below(2) as u8,
            vl: digits.pick(&LENGTHS),
            shapes: [(); 3].map(|()| digits.pick(&SHAPES)),
        }
    }
}

/// Single steps of predicate logic, by either way.
pub struct Logic;

impl Kind for Logic {
    type Input = (State, u32);
    const NAME: &'static str = "logic";
    const REPLIES: &'static [u8] = &[0, 13];
    const FORMS: Forms = Forms::None;
    const NOTES: &'static [&'static str] = &[
        "AND",
        "BIC",
        "EOR",
        "SEL",
        "ORR",
        "ORN",
        "NOR",
        "NAND",
        "SEL with S refused",
        "Pd = Pg",
        "Pd = Pn",
        "Pd = Pm",
        "mask empty",
        "mask full",
        "flags kept",
        "flags set",
        "other flags under a full mask",
        "other flags under Pd = Pg as it is after",
    ];

    fn numbers() -> impl Iterator<Item = u64> {
        0..Case::COUNT as u64
    }

    fn make(seed: u64, number: u64) -> (State, u32) {
        let random = &mut Random::new(seed, KIND, number);
        let case = Case::new(number);
        let mut state = states::legal(random, case.vl);
        state.level = 1 + random.below(3) as u8;
        state.access = true;
        let registers = four_registers(random);
        let [pd, pg, pn, pm] = case.pattern.map(|place| registers[place]);
        for (p, shape) in [pg, pn, pm].into_iter().zip(case.shapes) {
            states::put(&mut state, p, states::shaped(random, case.vl, shape));
        }
        let [op, o2, o3] = [2, 1, 0].map(|bit| (case.operation >> bit & 1) as u8);
        (state, logic_word(&[LOGIC, op, case.s, pm, pg, o2, pn, o3, pd]))
    }

    fn show((state, word): &(State, u32)) -> String {
        show_state(state) + &show_word(*word)
    }

    fn compare((state, word): &(State, u32), seen: &mut Seen) -> Outcome {
        let (differences, reply, after) = by_either_way(state, *word);
        seen.reply(reply);
        match decode(*word) {
            Some(row) => note(seen, state, &after, &row),
            None => seen.note_if(reply == 13 && after == *state, "SEL with S refused"),
        }
        differences.outcome()
    }
}

/// Four registers, all different.
fn four_registers(random: &mut Random) -> [u8; 4] {
    let mut registers: Vec<u8> = (0..16).collect();
    [(); 4].map(|()| registers.swap_remove(random.index(registers.len())))
}

fn note(seen: &mut Seen, before: &State, after: &State, &[_, op, s, pm, pg, o2, pn, o3, pd]: &Row) {
    seen.note(OPERATIONS[usize::from(4 * op + 2 * o2 + o3)]);
    seen.note_if(pd == pg, "Pd = Pg");
    seen.note_if(pd == pn, "Pd = Pn");
    seen.note_if(pd == pm, "Pd = Pm");
    let [mask, result] = [before.p[usize::from(pg)], after.p[usize::from(pd)]];
    let full = states::full(before.vl);
    seen.note_if(mask == [0; 4], "mask empty");
    seen.note_if(mask == full, "mask full");
    let by_mask = flags_under(mask, after, pd);
    seen.note_if(s == 0 && after.flags == before.flags && before.flags != by_mask, "flags kept");
    seen.note_if(s == 1 && after.flags == by_mask && before.flags != by_mask, "flags set");
    // what a step that tests under another mask would be noticed by
    seen.note_if(s == 1 && after.flags != flags_under(full, after, pd), "other flags under a full mask");
    let under_result = flags_under(result, after, pd);
    seen.note_if(s == 1 && pd == pg && after.flags != under_result, "other flags under Pd = Pg as it is after");
}

/// The flags that PTEST of Pd gives under a mask.
pub fn flags_under(mask: [u64; 4], state: &State, d: u8) -> Flags {
    let mut state = state.clone();
    let g = (d + 1) % 16; // any but Pd
    states::put(&mut state, g, mask);
    let ptest = encode(&[9, g, d, 0, 0, 0, 0, 0, 0]).expect("its fields are in range");
    assert_eq!(model::step(&mut state, ptest), 0, "the state is legal, with a level and access");
    state.flags
}

#[cfg(test)]
mod tests {
    use super::*;
    use std::collections::HashSet;

    /// Whether the same places hold the same.
    fn coincide_alike<A: PartialEq, B: PartialEq>(a: &[A; 4], b: &[B; 4]) -> bool {
        (0..4).all(|i| (0..4).all(|j| (a[i] == a[j]) == (b[i] == b[j])))
    }

    #[test]
    fn any_four_registers_have_one_of_the_patterns() {
        for number in 0..4 * 4 * 4 * 4 {
            let registers = [number % 4, number / 4 % 4, number / 16 % 4, number / 64];
            let patterns = PATTERNS.iter().filter(|pattern| coincide_alike(pattern, &registers));
            assert_eq!(patterns.count(), 1, "{registers:?}");
        }
    }

    /// The words and states of the cases hold every combination of pattern, operation, S and length.
    #[test]
    fn every_combination_is_made() {
        let mut made = HashSet::new();
        for number in Logic::numbers() {
            let (state, word) = Logic::make(1, number);
            let registers = [0, 10, 5, 16].map(|low| word >> low & 15);
            let pattern = PATTERNS.iter().position(|pattern| coincide_alike(pattern, &registers));
            let operation = [23, 22, 9, 4].map(|bit| word >> bit & 1);
            made.insert((pattern, operation, state.vl));
        }
        assert_eq!(made.len(), 15 * 16 * 5);
    }
}
