//! The library's times, in ns per instruction.

use crate::builds::Build;
use crate::timing::best;
use crate::words;
use plokamyr::{Flags, Kernel, Reply, Shared, State};
use std::hint::black_box;

/// A run is short: as many are timed together as have so many words.
const TIMED: usize = 20 * 4096;

/// A call that does little is short too: so many are timed together.
const CALLS: u64 = 20_000;

/// The step where the state stands, called for each word.
pub fn step(start: &State, words: &[u32]) -> f64 {
    each(start, words, State::step)
}

/// The same by way of the step by value.
pub fn step_lent(start: &State, words: &[u32]) -> f64 {
    each(start, words, State::step_lent)
}

fn each(start: &State, words: &[u32], step: impl Fn(&mut State, u32) -> Reply) -> f64 {
    let runs = TIMED / words.len();
    let mut state = start.clone();
    let time = best(5, (runs * words.len()) as u64, || {
        for _ in 0..runs {
            state.clone_from(black_box(start));
            for word in words {
                assert_eq!(step(black_box(&mut state), *word), Reply::Done);
            }
        }
    });
    assert_eq!(state, after(start, words), "stepped, and run");
    time
}

/// The step of a kernel, called for each word, from the start with no flags for the second.
pub fn shared_step(start: &State, words: &[(Kernel, u32)]) -> f64 {
    let runs = TIMED / words.len();
    let start = Shared { state: start.clone(), second: Flags::default() };
    let mut shared = start.clone();
    let time = best(5, (runs * words.len()) as u64, || {
        for _ in 0..runs {
            shared.clone_from(black_box(&start));
            for (kernel, word) in words {
                assert_eq!(black_box(&mut shared).step(*kernel, *word), Reply::Done);
            }
        }
    });
    let mut expected = after(&start.state, &words.iter().map(|(_, word)| *word).collect::<Vec<_>>());
    expected.flags = shared.state.flags; // no register goes by them
    assert_eq!(shared.state, expected, "two kernels, and a run");
    time
}

/// A step that is refused for its word: that the state is legal is tested, and little else is done.
pub fn refused_step(start: &State) -> f64 {
    let mut state = start.clone();
    let time = best(5, CALLS, || {
        for _ in 0..CALLS {
            assert_eq!(black_box(&mut state).step(black_box(words::FOREIGN)), Reply::ForeignWord);
        }
    });
    assert_eq!(state, *start, "a refused step");
    time
}

/// The counts worked out.
pub fn counted(start: &State) -> f64 {
    best(5, CALLS, || {
        for _ in 0..CALLS {
            let counted = black_box(start).counted();
            assert_eq!(black_box(&counted).count(0, 0), start.count(0, 0));
        }
    })
}

pub fn run(build: &Build, start: &State, words: &[u32]) -> f64 {
    time_and_state(build, start, words).0
}

/// Runs of PNEXT from empty cursors through a mask in which only the last byte element is active.
pub fn run_pnext(build: &Build, vl: u64) -> f64 {
    let start = words::start_of_pnext(vl);
    let (time, state) = time_and_state(build, &start, &words::pnext());
    assert!(state.p().iter().all(|cursor| *cursor == start.p()[0]), "each cursor has found the last element");
    time
}

/// The time of a run, and the state after it.
fn time_and_state(build: &Build, start: &State, words: &[u32]) -> (f64, State) {
    let runs = TIMED / words.len();
    let mut state = start.clone();
    let time = best(5, (runs * words.len()) as u64, || {
        for _ in 0..runs {
            state.clone_from(black_box(start));
            assert_eq!((build.run)(black_box(&mut state), words), Some(words.len()));
        }
    });
    (time, state)
}

/// The state after a run of the words.
pub fn after(start: &State, words: &[u32]) -> State {
    let mut state = start.clone();
    let ran = state.run(words);
    assert_eq!((ran.reply, ran.done), (Reply::Done, words.len()));
    state
}

/// Walks of as many byte positions as the list has places, one after the other.
pub fn walk(build: &Build, vl: u64, list: &mut [u64], walks: u64) -> f64 {
    let mut state = State::new(vl, 1);
    state.x[1] = list.len() as u64;
    each_walk(vl, list, walks, |list, budget| (build.walk)(black_box(&state), list, budget))
}

/// The same walks of the second kernel.
pub fn shared_walk(vl: u64, list: &mut [u64], walks: u64) -> f64 {
    let mut shared = Shared::new(vl, 1);
    shared.state.x[17] = list.len() as u64;
    each_walk(vl, list, walks, |list, budget| {
        let walked = black_box(&shared).walk(Kernel::Second, 0, 16, 17, 8, 9, list, budget);
        (walked.reply == Reply::Done).then_some(walked.count)
    })
}

/// A walk fills the list within its budget, and answers how many instructions were executed; none if it did not end.
fn each_walk(vl: u64, list: &mut [u64], walks: u64, walk: impl Fn(&mut [u64], u64) -> Option<u64>) -> f64 {
    let positions = list.len() as u64;
    let budget = walk_instructions(vl, positions);
    list.fill(u64::MAX);
    let time = best(3, walks * budget, || {
        for _ in 0..walks {
            assert_eq!(walk(list, budget), Some(budget));
        }
    });
    assert!(list.iter().copied().eq(0..positions), "the positions of the walk");
    time
}

/// The instructions of a walk of byte positions: D + 3R + 2.
pub fn walk_instructions(vl: u64, positions: u64) -> u64 {
    positions + 3 * positions.div_ceil(vl / 8) + 2
}
