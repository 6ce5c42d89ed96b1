//! Nanoseconds per instruction of the library, beside the second program, QEMU and an earlier library.
//! All are timed in turn, round after round; each time printed is the best of its rounds.
#![deny(unsafe_code)]

mod builds;
#[cfg(before)]
#[allow(unsafe_code)]
mod copies;
mod library;
mod qemu;
#[allow(unsafe_code)]
mod search;
mod second;
mod table;
mod timing;
mod titles;
mod words;

use builds::{BUILDS, NOW};
use library::walk_instructions;
use plokamyr::Kernel;
use qemu::Qemu;
use table::{Table, LENGTHS};

const WORDS: usize = 4096;
const POSITIONS: u64 = 2_000_000;
/// The positions of a title, and how many titles are walked in a time.
const TITLE: usize = 20;
const TITLES: u64 = 4_000;
const ROUNDS: usize = 8;

/// What is divided by what, under the table of times, where both were timed.
const RATIOS: [(&str, &str); 18] = [
    ("step, lent", "step"),
    ("step, second program", "step"),
    ("step, shared", "step, nine forms"),
    ("run, second program", "run"),
    ("run, nine forms, qemu", "run, nine forms"),
    ("walk, second program", "walk"),
    ("walk, qemu", "walk"),
    ("walk, qemu, no positions", "walk"),
    ("walk, shared", "walk"),
    ("walk, titles, shared", "walk, titles"),
    ("fold, 20 units", "loop, 20 units"),
    ("fold, 200 units", "loop, 200 units"),
    ("fold, 4096 units", "loop, 4096 units"),
    ("search, by elements", "search, by words"),
    ("run, before", "run"),
    ("run, PNEXT, before", "run, PNEXT"),
    ("walk, before", "walk"),
    ("walk, titles, before", "walk, titles"),
];

const NOTES: &str = "
step, run: 4,096 words, the seventeen forms in turn, their fields drawn at random, at level 3; but a WRFFR writes what the
RDFFR before it has read, so that none is refused. The library's state after them was compared with the second program's.
Step, lent: by way of the step by value. Step, refused for its word: that the state is legal is tested, its counts among
that, and little else is done. Counted: all counts worked out, the state copied in and back. Both in ns for each call, with any
bits in the predicates. Nine forms: those of levels 1 and 2 without FFR's. Step, nine forms, and step, shared: the same words of
nine forms, of two kernels in turn, as ordinary steps, and as steps of the kernels, which copy the state in and back.
Logic: predicate logic alone, all operations, with and without flags.
FFR: its five forms alone, in turn, from an FFR that is empty.
Counters: CNTP of counters alone, all sizes and groups, of all marks, half of them inverted.
search: from byte element 0 of a mask in which only the last is active, in ns for each search. By words: as the library
does it. By elements: a scan that tests one after the other.
run, PNEXT: 15 words of PNEXT through that mask, each from an empty cursor; the state is set and tested for each run.
walk: 2,000,000 byte positions (the second program: 20,000). Instructions are the walk's own, D + 3R + 2.
Titles: walks of 20 positions, one after the other. Shared: of the second of two kernels.
fold: titles of so many units, in ns for each unit, put back before each time. Small letters, and among eight units a large one,
one of C0 to FF, and a space. The library's list has 64 places for titles of up to 64 units, else 4,096.
loop: the same titles by a plain loop over the same table, in Rust, with no walk and at no vector length. What either leaves
was compared with the second program.";

#[cfg(before)]
const COPIES: &str = "timed as the other is: by a copy, each of whose functions is at a multiple of 64 bytes.";

const QEMU_NOTES: &str = "
run, qemu: the words as straight code. The library's state after them was compared with QEMU's.
walk, qemu: finds each position by BRKB and CNTP and stores it, as the walk does. No positions: PFALSE, WHILELO, PNEXT and
INCP alone, so less than the walk does. Both have branches besides, which are not counted as instructions.";

struct Bench {
    all: Vec<u32>,
    base: Vec<u32>,
    of_kernels: Vec<(Kernel, u32)>,
    logic: Vec<u32>,
    counters: Vec<u32>,
    ffr: Vec<u32>,
    list: Vec<u64>,
    qemu: Option<Qemu>,
    table: Table,
}

fn main() {
    #[cfg(before)]
    stop_unless_laid_out_alike();
    let base = words::base_forms(WORDS);
    let qemu = Qemu::build(&base).map_err(|missing| println!("Without QEMU: {missing}.\n")).ok();
    let all = words::all_forms(WORDS);
    let of_kernels = words::of_kernels(WORDS);
    let logic = words::logic(WORDS);
    let counters = words::counters(WORDS);
    let ffr = words::ffr(WORDS);
    let list = vec![1; POSITIONS as usize];
    let mut bench = Bench { all, base, of_kernels, logic, counters, ffr, list, qemu, table: Table::default() };
    for _ in 0..ROUNDS {
        for (column, vl) in LENGTHS.into_iter().enumerate() {
            bench.words_round(column, vl);
            bench.shared_round(column, vl);
            bench.counts_round(column, vl);
            bench.base_words_round(column, vl);
            bench.logic_round(column, vl);
            bench.counters_round(column, vl);
            bench.ffr_round(column, vl);
            bench.search_round(column, vl);
            bench.walk_round(column, vl);
            bench.titles_round(column, vl);
        }
    }
    bench.table.print(&RATIOS);
    println!("{NOTES}");
    #[cfg(before)]
    println!("before: the library in {}, {COPIES}", env!("PLOKAMYR_BEFORE"));
    println!("Each time is the best of {ROUNDS} rounds, in which all are timed in turn.");
    if bench.qemu.is_some() {
        println!("{QEMU_NOTES}");
        println!("{}", qemu::version().unwrap_or_default());
    }
}

/// The two libraries are lent the same states.
#[cfg(before)]
fn stop_unless_laid_out_alike() {
    if !copies::are_laid_out_alike() {
        eprintln!(
            "The states of the library in {} are laid out otherwise than those of the one at hand. Without PLOKAMYR_BEFORE, \
             that one alone is timed.",
            env!("PLOKAMYR_BEFORE")
        );
        std::process::exit(1);
    }
}

impl Bench {
    /// Times the words of all forms once at a length.
    fn words_round(&mut self, column: usize, vl: u64) {
        let start = words::start(vl);
        let Bench { table, all, .. } = self;
        table.take("step", column, library::step(&start, all));
        table.take("step, lent", column, library::step_lent(&start, all));
        table.take("step, second program", column, second::step(&start, all));
        for build in BUILDS {
            table.take(&build.line("run"), column, library::run(build, &start, all));
        }
        table.take("run, second program", column, second::run(&start, all));
    }

    /// Times steps of two kernels in turn, and the same words as ordinary steps.
    fn shared_round(&mut self, column: usize, vl: u64) {
        let start = words::start(vl);
        let Bench { table, of_kernels, .. } = self;
        let words: Vec<u32> = of_kernels.iter().map(|(_, word)| *word).collect();
        table.take("step, nine forms", column, library::step(&start, &words));
        table.take("step, shared", column, library::shared_step(&start, of_kernels));
    }

    /// Times what the counts cost by themselves.
    fn counts_round(&mut self, column: usize, vl: u64) {
        let start = words::start_of_logic(vl);
        let table = &mut self.table;
        table.take("step, refused for its word", column, library::refused_step(&start));
        table.take("counted", column, library::counted(&start));
    }

    /// Times the words that QEMU executes too.
    fn base_words_round(&mut self, column: usize, vl: u64) {
        let start = words::start(vl);
        let Bench { table, base, .. } = self;
        table.take("run, nine forms", column, library::run(NOW, &start, base));
        if let Some(qemu) = &self.qemu {
            let (time, state) = qemu.run(vl);
            assert_eq!(state, library::after(&start, base), "QEMU's state after the run, and ours");
            table.take("run, nine forms, qemu", column, time / WORDS as f64);
        }
    }

    /// Times the words of predicate logic.
    fn logic_round(&mut self, column: usize, vl: u64) {
        let start = words::start_of_logic(vl);
        let Bench { table, logic, .. } = self;
        table.take("run, logic", column, library::run(NOW, &start, logic));
        table.take("run, logic, second program", column, second::step(&start, logic));
    }

    /// Times CNTP of counters.
    fn counters_round(&mut self, column: usize, vl: u64) {
        let start = words::start_of_counters(vl);
        let Bench { table, counters, .. } = self;
        table.take("run, counters", column, library::run(NOW, &start, counters));
        table.take("run, counters, second program", column, second::step(&start, counters));
    }

    /// Times the words of FFR.
    fn ffr_round(&mut self, column: usize, vl: u64) {
        let start = words::start_of_logic(vl);
        let Bench { table, ffr, .. } = self;
        table.take("run, FFR", column, library::run(NOW, &start, ffr));
        table.take("run, FFR, second program", column, second::step(&start, ffr));
    }

    /// Times the search for the last element, by itself and as PNEXT.
    fn search_round(&mut self, column: usize, vl: u64) {
        let table = &mut self.table;
        table.take("search, by words", column, search::by_words(vl));
        table.take("search, by elements", column, search::by_elements(vl));
        for build in BUILDS {
            table.take(&build.line("run, PNEXT"), column, library::run_pnext(build, vl));
        }
    }

    fn walk_round(&mut self, column: usize, vl: u64) {
        let Bench { table, list, .. } = self;
        for build in BUILDS {
            table.take(&build.line("walk"), column, library::walk(build, vl, list, 1));
            table.take(&build.line("walk, titles"), column, library::walk(build, vl, &mut [0; TITLE], TITLES));
        }
        table.take("walk, shared", column, library::shared_walk(vl, list, 1));
        table.take("walk, titles, shared", column, library::shared_walk(vl, &mut [0; TITLE], TITLES));
        table.take("walk, second program", column, second::walk(vl));
        if let Some(qemu) = &self.qemu {
            let count = walk_instructions(vl, POSITIONS) as f64;
            let (stored, bare) = qemu.walk(vl, POSITIONS);
            table.take("walk, qemu", column, stored / count);
            table.take("walk, qemu, no positions", column, bare / count);
        }
    }
    /// Times titles folded, by the walk and by a plain loop.
    fn titles_round(&mut self, column: usize, vl: u64) {
        for units in titles::UNITS {
            self.table.take(&format!("fold, {units} units"), column, titles::by_library(vl, units));
            self.table.take(&format!("loop, {units} units"), column, titles::by_plain_loop(units));
        }
    }
}
