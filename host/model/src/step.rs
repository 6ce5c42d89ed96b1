//! One word, and words one after the other.

use crate::execute::{execute, is_run_from_bit_0, BYTES};
use crate::forms::WRFFR;
use crate::reply::*;
use crate::state::State;
use crate::words::{decode, decode_refusal, level, Row};

/// The run's own reply, that to the word it stopped at, and the words done before.
#[derive(Clone, PartialEq, Eq, Debug)]
pub struct Ran {
    pub reply: u8,
    pub refused: u8,
    pub done: usize,
    pub state: State,
}

/// Executes a word on the state where it stands. "Step order: 4, 1, 2, 3", "13 stands in 1's place in every order", and "new
/// reply 14, after 3": 4, 1 or 13, 2, 3, 14. Refused, it leaves the state as it was.
pub fn step(state: &mut State, word: u32) -> u8 {
    match admitted(state, word) {
        Ok(row) => finish(state, &row),
        Err(refusal) => refusal,
    }
}

/// The instruction of a word, if it is past 4, 1 or 13, 2 and 3.
pub fn admitted(state: &State, word: u32) -> Result<Row, u8> {
    if !state.legal() {
        return Err(ILLEGAL_STATE);
    }
    let Some(row) = decode(word) else {
        return Err(decode_refusal(word));
    };
    if state.level < level(&row) {
        return Err(LEVEL_TOO_LOW);
    }
    if !state.access {
        return Err(ACCESS_OFF);
    }
    Ok(row)
}

/// Executes an instruction, or refuses it with 14.
pub fn finish(state: &mut State, row: &Row) -> u8 {
    if !may_be_written(state, row) {
        return NOT_MONOTONIC;
    }
    execute(state, row);
    DONE
}

/// "WRFFR of anything but a run of ones from bit 0 (an empty or full one counts) is refused". All else is never refused so.
fn may_be_written(state: &State, row: &Row) -> bool {
    match *row {
        [WRFFR, pn, ..] => is_run_from_bit_0(&state.read_p(pn, BYTES)),
        _ => true,
    }
}

/// Steps the words until one is refused. An illegal state is refused even if there are none.
pub fn run(state: &State, words: &[u32]) -> Ran {
    let mut state = state.clone();
    if !state.legal() {
        return Ran { reply: ILLEGAL_STATE, refused: DONE, done: 0, state };
    }
    for (done, &word) in words.iter().enumerate() {
        let refused = step(&mut state, word);
        if refused != DONE {
            return Ran { reply: DONE, refused, done, state };
        }
    }
    Ran { reply: DONE, refused: DONE, done: words.len(), state }
}
