//! The second program's times, in ns per instruction. It is slow, so that it is given less to do.

use crate::library::{after, walk_instructions};
use crate::timing::best;
use plokamyr::{Counts, State};
use std::hint::black_box;

const POSITIONS: u64 = 20_000;

fn state_of(state: &State) -> model::State {
    let plokamyr::Flags { n, z, c, v } = state.flags;
    model::State {
        vl: state.vl(),
        level: state.level,
        access: state.access,
        flags: model::Flags { n, z, c, v },
        x: state.x,
        p: state.p().map(|p| p.words),
        ffr: state.ffr.words,
        counts: state.counts().map(|Counts { b, h, s, d }| [b, h, s, d]),
    }
}

pub fn step(start: &State, words: &[u32]) -> f64 {
    let mut state = state_of(start);
    let time = best(1, words.len() as u64, || {
        for word in words {
            assert_eq!(model::step(black_box(&mut state), *word), 0);
        }
    });
    assert_eq!(state, state_of(&after(start, words)), "the second program, and the library");
    time
}

pub fn run(start: &State, words: &[u32]) -> f64 {
    let start = state_of(start);
    best(1, words.len() as u64, || {
        assert_eq!(black_box(model::run(black_box(&start), words)).done, words.len());
    })
}

pub fn walk(vl: u64) -> f64 {
    let mut state = state_of(&State::new(vl, 1));
    state.x[1] = POSITIONS;
    let mut list = vec![0; POSITIONS as usize];
    let budget = walk_instructions(vl, POSITIONS);
    best(1, budget, || {
        let walked = model::walk(&state, 0, 0, 1, 0, 1, &mut list, budget);
        assert_eq!((walked.reply, walked.count), (0, budget));
    })
}
