//! Counters: all values of their sixteen bits, read at each length, size and group.

use crate::differences::{show_state, show_word, show_words, Outcome};
use crate::kind::{Forms, Kind};
use crate::seen::Seen;
use crate::steps::by_either_way;
use compare::counter::{last_bit, Reading};
use compare::instructions::CNTP_COUNTER;
use compare::random::Random;
use compare::states::{self, Shape, LENGTHS};
use model::{encode, Row, State};

const KIND: u64 = 23;

/// The sizes and groups of an instruction, as size and vl.
pub const GROUPS: [(u8, u8); 8] = [(0, 0), (1, 0), (2, 0), (3, 0), (0, 1), (1, 1), (2, 1), (3, 1)];

/// CNTP of a counter.
pub fn cntp(size: u8, vl: u8, pnn: u8, rd: u8) -> u32 {
    encode(&[CNTP_COUNTER, size, vl, pnn, rd, 0, 0, 0, 0]).expect("its fields are in range")
}

/// A legal state of this length that executes words of every level.
pub fn ready(random: &mut Random, length: u64) -> State {
    let mut state = states::legal(random, length);
    (state.level, state.access) = (3, true);
    state
}

/// The state after a step, by either way; if something differs, the word is named with it.
pub fn step(state: &State, word: u32, seen: &mut Seen) -> Result<State, Vec<String>> {
    let (differences, reply, after) = by_either_way(state, word);
    seen.reply(reply);
    let named = |lines: Vec<String>| [vec![show_word(word).trim_end().to_string()], lines].concat();
    differences.outcome().map(|()| after).map_err(named)
}

/// Every counter at every length, with any bits above it, in any register: CNTP at each size and group.
pub struct Counters;

/// A count up to bit 14 gives another answer, at each length.
const OTHERS_UP_TO_14: [&str; LENGTHS.len()] = [
    "another answer up to bit 14 at 128",
    "another answer up to bit 14 at 256",
    "another answer up to bit 14 at 512",
    "another answer up to bit 14 at 1024",
    "another answer up to bit 14 at 2048",
];

impl Kind for Counters {
    type Input = (State, [u32; GROUPS.len()]);
    const NAME: &'static str = "counters";
    const REPLIES: &'static [u8] = &[0];
    const FORMS: Forms = Forms::None;
    const NOTES: &'static [&'static str] = &[
        "no mark",
        "mark below the size",
        "mark at the size",
        "mark above the size",
        "inverted",
        "answer 0 of a mark, over another X",
        "answer the whole group",
        "another answer up to bit 14",
        OTHERS_UP_TO_14[0],
        OTHERS_UP_TO_14[1],
        OTHERS_UP_TO_14[2],
        OTHERS_UP_TO_14[3],
        OTHERS_UP_TO_14[4],
        "another answer up to bit 14, inverted",
        "another answer with a bit more",
        "another answer with a bit less",
        "bits above the counter",
        "PNn below 8",
        "Rd = 31",
    ];

    fn numbers() -> impl Iterator<Item = u64> {
        0..(LENGTHS.len() as u64) << 16
    }

    fn make(seed: u64, number: u64) -> Self::Input {
        let random = &mut Random::new(seed, KIND, number);
        let (counter, length) = (number & 0xFFFF, LENGTHS[number as usize >> 16]);
        let mut state = ready(random, length);
        let pnn = random.below(16) as u8;
        let mut predicate = states::shaped(random, length, Shape::Dense);
        predicate[0] = predicate[0] & !0xFFFF | counter;
        states::put(&mut state, pnn, predicate);
        (state, GROUPS.map(|(size, vl)| cntp(size, vl, pnn, random.below(32) as u8)))
    }

    fn show((state, words): &Self::Input) -> String {
        show_state(state) + &show_words(words)
    }

    fn compare((state, words): &Self::Input, seen: &mut Seen) -> Outcome {
        for &word in words {
            let after = step(state, word, seen)?;
            note(seen, state, &after, &model::decode(word).expect("it was executed"));
        }
        Ok(())
    }
}

fn note(seen: &mut Seen, before: &State, after: &State, row: &Row) {
    let [_, size, _, pnn, rd, ..] = *row;
    let reading = Reading::of(before, row);
    seen.note_if(before.p[usize::from(pnn)][0] >> 16 != 0, "bits above the counter");
    seen.note_if(pnn < 8, "PNn below 8");
    let Some(&x) = after.x.get(usize::from(rd)) else {
        return seen.note("Rd = 31");
    };
    assert_eq!(x, reading.right_answer(), "the second program's answer, and the one that the notes go by");
    match reading.mark() {
        None => seen.note("no mark"),
        Some(mark) if mark < size => seen.note("mark below the size"),
        Some(mark) if mark == size => seen.note("mark at the size"),
        Some(_) => seen.note("mark above the size"),
    }
    let marked = reading.mark().is_some();
    seen.note_if(marked && reading.is_inverted(), "inverted");
    seen.note_if(marked && x == 0 && before.x[usize::from(rd)] != 0, "answer 0 of a mark, over another X");
    seen.note_if(x == reading.group(), "answer the whole group");
    note_ends(seen, &reading);
}

/// What a step that ends the count elsewhere would be noticed by.
fn note_ends(seen: &mut Seen, reading: &Reading) {
    let last = last_bit(reading.length);
    seen.note_if(reading.answer(last + 1) != reading.right_answer(), "another answer with a bit more");
    seen.note_if(reading.answer(last - 1) != reading.right_answer(), "another answer with a bit less");
    if !reading.has_junk_that_matters() {
        return;
    }
    seen.note("another answer up to bit 14");
    seen.note_if(reading.is_inverted(), "another answer up to bit 14, inverted");
    let length = LENGTHS.iter().position(|&length| length == reading.length).expect("one of the five");
    seen.note(OTHERS_UP_TO_14[length]);
}

#[cfg(test)]
mod tests {
    use super::*;

    /// Each counter at each length has a case, whose words have each size and group.
    #[test]
    fn every_combination_is_made() {
        assert_eq!(Counters::numbers().count(), LENGTHS.len() * 65_536);
        for number in Counters::numbers() {
            let (state, words) = Counters::make(1, number);
            let rows = words.map(|word| model::decode(word).expect("CNTP of a counter"));
            assert_eq!(rows.map(|row| (row[1], row[2])), GROUPS);
            for row in rows {
                let Reading { length, counter, .. } = Reading::of(&state, &row);
                assert_eq!((length, u64::from(counter)), (LENGTHS[number as usize / 65_536], number % 65_536));
            }
        }
    }
}
