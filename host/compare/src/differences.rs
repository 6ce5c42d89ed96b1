//! What differs between two answers, field by field, and how inputs are shown.

use crate::lent::Lent;
use compare::instructions::FORMS;
use compare::states;
use model::{Shared, State};
use std::fmt::{Debug, LowerHex, Write};

/// A line for each field that differs.
#[derive(Default)]
pub struct Differences(Vec<String>);

/// At most so many places of a list are shown.
const SHOWN: usize = 20;

impl Differences {
    pub fn field<T: PartialEq + Debug>(&mut self, name: &str, library: T, second: T) {
        if library != second {
            self.0.push(format!("{name}: library {library:?}, second program {second:?}"));
        }
    }

    pub fn hex<T: PartialEq + LowerHex>(&mut self, name: &str, library: T, second: T) {
        if library != second {
            self.0.push(format!("{name}: library {library:#x}, second program {second:#x}"));
        }
    }

    pub fn state(&mut self, library: &State, second: &State) {
        if library == second {
            return;
        }
        self.field("vl", library.vl, second.vl);
        self.field("level", library.level, second.level);
        self.field("access", library.access, second.access);
        self.field("flags", library.flags, second.flags);
        for i in 0..31 {
            self.hex(&format!("x{i}"), library.x[i], second.x[i]);
        }
        for i in 0..16 {
            self.field(&format!("p{i}"), predicate(&library.p[i]), predicate(&second.p[i]));
        }
        self.field("ffr", predicate(&library.ffr), predicate(&second.ffr));
        for i in 0..16 {
            self.field(&format!("counts of p{i}"), library.counts[i], second.counts[i]);
        }
    }

    pub fn shared(&mut self, library: &Shared, second: &Shared) {
        self.state(&library.state, &second.state);
        self.field("flags of the second kernel", library.second, second.second);
    }

    /// The counts that a state has, against those of its predicates.
    pub fn counts(&mut self, state: &State) {
        let anew = states::recounted(state).counts;
        for (i, (kept, anew)) in state.counts.iter().zip(anew).enumerate() {
            if *kept != anew {
                self.0.push(format!("counts of p{i}: kept {kept:?}, counted anew {anew:?}"));
            }
        }
    }

    /// Lent memory, with its canaries.
    pub fn lent<T: Copy + PartialEq + LowerHex>(&mut self, name: &str, library: &Lent<T>, second: &Lent<T>) {
        let pairs = library.numbered().zip(second.numbered());
        let different = pairs.filter(|(ours, theirs)| ours.1 != theirs.1);
        for ((place, ours), (_, theirs)) in different.take(SHOWN) {
            self.hex(&format!("{name}[{place}]"), ours, theirs);
        }
    }

    pub fn outcome(self) -> Outcome {
        if self.0.is_empty() {
            Ok(())
        } else {
            Err(self.0)
        }
    }
}

/// The differences, if there are any.
pub type Outcome = Result<(), Vec<String>>;

fn predicate(words: &[u64; 4]) -> String {
    words.iter().rev().map(|word| format!("{word:016x}")).collect::<Vec<_>>().join("_")
}

pub fn show_state(state: &State) -> String {
    let mut text = format!("vl {} level {} access {} {:?}\n", state.vl, state.level, state.access, state.flags);
    for (i, x) in state.x.iter().enumerate() {
        writeln!(text, "x{i} {x:#x}").expect("a string has room");
    }
    for (i, (words, counts)) in state.p.iter().zip(state.counts).enumerate() {
        writeln!(text, "p{i} {}, counts {counts:?}", predicate(words)).expect("a string has room");
    }
    text + &format!("ffr {}\n", predicate(&state.ffr))
}

pub fn show_shared(shared: &Shared) -> String {
    format!("{}flags of the second kernel {:?}\n", show_state(&shared.state), shared.second)
}

/// The word and its row.
pub fn show_word(word: u32) -> String {
    match model::decode(word) {
        None => format!("word {word:08x}, refused with {}\n", model::decode_refusal(word)),
        Some(row) => format!("word {word:08x}, {}, row {row:?}\n", FORMS[usize::from(row[0])]),
    }
}

pub fn show_words(words: &[u32]) -> String {
    words.iter().map(|&word| show_word(word)).collect()
}

pub fn show_bytes(bytes: &[u8]) -> String {
    let lines = bytes.chunks(32).map(|line| line.iter().map(|byte| format!("{byte:02x}")).collect::<String>() + "\n");
    format!("{} bytes:\n{}", bytes.len(), lines.collect::<String>())
}
