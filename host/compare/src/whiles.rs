//! Counters that WHILE writes, read back.

use crate::counters::{cntp, ready, step, GROUPS};
use crate::differences::{show_state, show_word, show_words, Outcome};
use crate::digits::Digits;
use crate::kind::{Forms, Kind};
use crate::seen::Seen;
use compare::counter::{group, last_bit, Reading, BELOW_INVERSION};
use compare::instructions::WHILE_COUNTER;
use compare::random::Random;
use compare::states::LENGTHS;
use model::{decode, encode, Row, State};

const KIND: u64 = 24;

/// By U, lt, eq.
const CONDITIONS: [&str; 8] = ["WHILEGE", "WHILEGT", "WHILELT", "WHILELE", "WHILEHS", "WHILEHI", "WHILELO", "WHILELS"];

/// The elements of the largest group.
const LARGEST: u64 = 1024;

/// What a case is made of, beside random numbers.
#[derive(Clone, Copy, PartialEq, Eq, Debug)]
pub struct Case {
    length: u64,
    size: u8,
    vl: u8,
    condition: usize,
    count: u64,
}

impl Case {
    /// The numbers below have all combinations, also with counts that are too large for the group.
    const END: u64 = (LENGTHS.len() * GROUPS.len() * CONDITIONS.len()) as u64 * (LARGEST + 1);

    fn new(number: u64) -> Case {
        let mut digits = Digits::of(number);
        let count = digits.below(LARGEST as usize + 1) as u64;
        let (size, vl) = digits.pick(&GROUPS);
        let condition = digits.below(CONDITIONS.len());
        Case { length: digits.pick(&LENGTHS), size, vl, condition, count }
    }

    fn group(&self) -> u64 {
        group(self.length, self.size, self.vl)
    }

    /// U, lt and eq.
    fn bits(&self) -> [u8; 3] {
        [2, 1, 0].map(|bit| (self.condition >> bit & 1) as u8)
    }

    /// Operands of which as many comparisons hold, far from where they wrap; for the whole group, sometimes more.
    fn operands(&self, random: &mut Random) -> (u64, u64) {
        let [u, lt, eq] = self.bits();
        let start = random.near(u64::from(u) << 63, 2_000);
        let more = if self.count == self.group() { random.below(3) } else { 0 };
        let with_equal = u64::from(lt == eq); // less or equal, greater or equal
        let distance = (self.count + more).wrapping_sub(with_equal);
        let limit = if lt == 1 { start.wrapping_add(distance) } else { start.wrapping_sub(distance) };
        (start, limit)
    }
}

/// Every count of a group under each condition: WHILE, then CNTP of its counter at each size and group.
pub struct Whiles;

impl Kind for Whiles {
    /// WHILE, and a CNTP for each size and group.
    type Input = (Case, State, u32, [u32; GROUPS.len()]);
    const NAME: &'static str = "whiles";
    const REPLIES: &'static [u8] = &[0];
    const FORMS: Forms = Forms::None;
    const NOTES: &'static [&'static str] = &[
        "WHILEGE",
        "WHILEGT",
        "WHILELT",
        "WHILELE",
        "WHILEHS",
        "WHILEHI",
        "WHILELO",
        "WHILELS",
        "none",
        "some",
        "the whole group",
        "inverted",
        "the count's last bit set",
        "another number at another size or group",
    ];

    fn numbers() -> impl Iterator<Item = u64> {
        (0..Case::END).filter(|&number| Case::new(number).count <= Case::new(number).group())
    }

    fn make(seed: u64, number: u64) -> Self::Input {
        let random = &mut Random::new(seed, KIND, number);
        let case = Case::new(number);
        let mut state = ready(random, case.length);
        let (rn, pnd, rd) = (random.below(31) as u8, random.below(8) as u8, random.below(31) as u8);
        let rm = (rn + 1 + random.below(30) as u8) % 31;
        (state.x[usize::from(rn)], state.x[usize::from(rm)]) = case.operands(random);
        let [u, lt, eq] = case.bits();
        let row = [WHILE_COUNTER, case.size, rm, case.vl, u, lt, rn, eq, pnd];
        let word = encode(&row).expect("its fields are in range");
        (case, state, word, GROUPS.map(|(size, vl)| cntp(size, vl, 8 + pnd, rd)))
    }

    fn show((case, state, word, readings): &Self::Input) -> String {
        format!("{case:?}\n{}{}{}", show_state(state), show_word(*word), show_words(readings))
    }

    fn compare((case, state, word, readings): &Self::Input, seen: &mut Seen) -> Outcome {
        let written = step(state, *word, seen)?;
        note_while(seen, case);
        for &word in readings {
            let after = step(&written, word, seen)?;
            read_back(case, &written, &after, &decode(word).expect("it was executed"), seen)?;
        }
        Ok(())
    }
}

fn note_while(seen: &mut Seen, case: &Case) {
    seen.note(CONDITIONS[case.condition]);
    seen.note(match case.count {
        0 => "none",
        count if count == case.group() => "the whole group",
        _ => "some",
    });
}

/// CNTP of WHILE's own size and group answers WHILE's count, and every CNTP what it would if counts ended at bit 14.
fn read_back(case: &Case, written: &State, after: &State, row: &Row, seen: &mut Seen) -> Outcome {
    let [_, size, vl, _, rd, ..] = *row;
    let reading = Reading::of(written, row);
    let answer = after.x[usize::from(rd)];
    let same = (size, vl) == (case.size, case.vl);
    if same && answer != case.count {
        return Err(vec![format!("of a WHILE that counts {}, CNTP answers {answer}", case.count)]);
    }
    if answer != reading.answer(BELOW_INVERSION) {
        return Err(vec![format!("CNTP answers {answer} of {:04x}, which has bits past its count", reading.counter)]);
    }
    seen.note_if(same && reading.is_inverted(), "inverted");
    seen.note_if(same && reading.counter >> last_bit(written.vl) & 1 == 1, "the count's last bit set");
    seen.note_if(answer != case.count, "another number at another size or group");
    Ok(())
}

#[cfg(test)]
mod tests {
    use super::*;

    /// A case for each count from 0 to the group's elements, of each group at each length, under each condition.
    #[test]
    fn every_count_has_a_case() {
        // B, H, S and D have 15 elements for every 8 bytes, and their groups are of two vectors and of four
        let elements = |length: u64| (2 + 4) * 15 * (length / 64);
        let counts: u64 = LENGTHS.map(|length| elements(length) + GROUPS.len() as u64).iter().sum();
        assert_eq!(Whiles::numbers().count() as u64, 8 * counts);
    }
}
