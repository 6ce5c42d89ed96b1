//! Compares the proved library with the second program.
//!
//! `compare [seed]` runs everything; `compare [seed] KIND` one kind; `compare [seed] case KIND NUMBER` one case by itself.
//! It ends with 1 if an answer differs, or if something that a kind can come to was never seen.
#![deny(unsafe_code)]

mod boundary;
mod budgets;
mod chains;
mod counted;
mod counters;
mod counts;
mod differences;
mod digits;
mod ffr;
mod folds;
mod illegal;
mod images;
mod kind;
mod lent;
mod logic;
mod owners;
mod refused_titles;
mod schedules;
mod searches;
mod seen;
mod steps;
mod strays;
mod taken;
mod texts;
mod twice;
mod units;
mod walk_owners;
mod walks;
mod whiles;
mod why;
mod words;
mod wrffr;
mod writes;

use kind::{run_all, run_case, Kind};
use std::process::ExitCode;
use std::time::Instant;

const SEED: u64 = 20_251_115;

/// A kind's name, and how to run all its cases or one.
struct Entry {
    name: &'static str,
    all: fn(u64) -> bool,
    one: fn(u64, u64) -> bool,
}

fn entry<K: Kind>() -> Entry {
    Entry { name: K::NAME, all: run_all::<K>, one: run_case::<K> }
}

fn entries() -> [Entry; 29] {
    [
        entry::<steps::Steps>(),
        entry::<steps::Runs>(),
        entry::<logic::Logic>(),
        entry::<counters::Counters>(),
        entry::<whiles::Whiles>(),
        entry::<searches::Searches>(),
        entry::<ffr::Ffr>(),
        entry::<wrffr::Wrffr>(),
        entry::<strays::Strays>(),
        entry::<counts::Counts>(),
        entry::<counted::Counted>(),
        entry::<chains::Chains>(),
        entry::<walks::Walks>(),
        entry::<budgets::Budgets>(),
        entry::<owners::Owners>(),
        entry::<walk_owners::WalkOwners>(),
        entry::<schedules::Schedules>(),
        entry::<why::Why>(),
        entry::<units::Units>(),
        entry::<folds::Titles>(),
        entry::<refused_titles::RefusedTitles>(),
        entry::<twice::Twice>(),
        entry::<images::Reads>(),
        entry::<images::Cuts>(),
        entry::<images::Damages>(),
        entry::<writes::Writes>(),
        entry::<texts::Texts>(),
        entry::<words::Words>(),
        entry::<words::Rows>(),
    ]
}

fn main() -> ExitCode {
    let arguments: Vec<String> = std::env::args().skip(1).collect();
    let seeded = arguments.first().and_then(|first| first.parse().ok());
    let rest: Vec<&str> = arguments.iter().skip(usize::from(seeded.is_some())).map(String::as_str).collect();
    let seed = seeded.unwrap_or(SEED);
    let good = match rest[..] {
        [] => run(seed, entries()),
        [kind] => found(kind).is_some_and(|entry| run(seed, [entry])),
        ["case", kind, number] => found(kind).is_some_and(|entry| one(seed, &entry, number)),
        _ => say_usage(),
    };
    if good {
        ExitCode::SUCCESS
    } else {
        ExitCode::FAILURE
    }
}

fn say_usage() -> bool {
    eprintln!("compare [seed], compare [seed] KIND, or compare [seed] case KIND NUMBER");
    false
}

fn found(kind: &str) -> Option<Entry> {
    let entry = entries().into_iter().find(|entry| entry.name == kind);
    if entry.is_none() {
        eprintln!("the kinds are {}", entries().map(|entry| entry.name).join(", "));
    }
    entry
}

fn run<const COUNT: usize>(seed: u64, entries: [Entry; COUNT]) -> bool {
    println!("seed {seed}");
    let start = Instant::now();
    for entry in entries {
        if !(entry.all)(seed) {
            return false;
        }
        eprintln!("{} s", start.elapsed().as_secs());
    }
    println!("no difference");
    true
}

fn one(seed: u64, entry: &Entry, number: &str) -> bool {
    match number.parse() {
        Ok(number) => (entry.one)(seed, number),
        Err(_) => say_usage(),
    }
}
