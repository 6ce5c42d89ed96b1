//! A kind of comparison, and how its cases are run.

use crate::differences::Outcome;
use crate::seen::Seen;
use std::panic::{catch_unwind, AssertUnwindSafe};

pub trait Kind {
    /// What a case is made of.
    type Input;
    const NAME: &'static str;
    /// The replies that its calls can give.
    const REPLIES: &'static [u8];
    /// Whether it executes or reads instructions, so that every form must have been seen, and at which lengths.
    const FORMS: Forms;
    /// Other things that must have been seen.
    const NOTES: &'static [&'static str];

    /// The numbers of its cases.
    fn numbers() -> impl Iterator<Item = u64>;
    fn make(seed: u64, number: u64) -> Self::Input;
    fn show(input: &Self::Input) -> String;
    fn compare(input: &Self::Input, seen: &mut Seen) -> Outcome;
}

#[derive(Clone, Copy, PartialEq, Eq)]
pub enum Forms {
    None,
    Each,
    EachAtEachLength,
    /// As before, but none of FFR's: neither of two kernels may execute one.
    EachButFfrsAtEachLength,
}

/// Runs every case; false if one differs or if something was never seen.
pub fn run_all<K: Kind>(seed: u64) -> bool {
    let mut seen = Seen::new(K::NOTES);
    for number in K::numbers() {
        if !run_one::<K>(seed, number, &mut seen) {
            return false;
        }
    }
    seen.say(K::NAME);
    let missing = seen.missing(K::REPLIES, K::FORMS);
    for what in &missing {
        println!("{}: there was none of: {what}", K::NAME);
    }
    missing.is_empty()
}

/// Runs one case by itself.
pub fn run_case<K: Kind>(seed: u64, number: u64) -> bool {
    if !K::numbers().any(|known| known == number) {
        println!("{} has no case {number}", K::NAME);
        return false;
    }
    let same = run_one::<K>(seed, number, &mut Seen::new(K::NOTES));
    if same {
        println!("{}no difference", K::show(&K::make(seed, number)));
    }
    same
}

fn run_one<K: Kind>(seed: u64, number: u64, seen: &mut Seen) -> bool {
    let input = K::make(seed, number);
    seen.cases += 1;
    let differences = match catch_unwind(AssertUnwindSafe(|| K::compare(&input, seen))) {
        Ok(Ok(())) => return true,
        Ok(Err(differences)) => differences,
        Err(panic) => vec![panic.downcast_ref().cloned().unwrap_or("a panic, told above".to_string())],
    };
    println!("MISMATCH in {} {number}, seed {seed}. The input:", K::NAME);
    print!("{}", K::show(&input));
    println!("What differs:\n{}", differences.join("\n"));
    println!("To run it again: compare {seed} case {} {number}", K::NAME);
    false
}
