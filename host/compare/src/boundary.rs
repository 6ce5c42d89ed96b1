//! The library's calls, in the second program's types so that answers can be compared as they are.
//! Rows go past the Rust wrapper too, so that what a refusal leaves in row and word is seen.

use compare::actions::Tour;
use compare::routes::Route;
use model::{Flags, Kernel, Ran, Reading, Row, Shared, SharedWalked, State, Walked, Written};
use plokamyr::{Counts, Predicate, Reply};
use std::hint::black_box;

const CANARY: u64 = 0xC0DE_CAFE_F00D_D00D;

/// A state, or a shared one, with canary places around it.
#[repr(C)]
struct Guarded<S> {
    before: [u64; 16],
    state: S,
    after: [u64; 16],
}

/// What a call answers that changes what it is given where it stands, and this after it.
fn guarded<S: Clone, T>(state: S, call: impl FnOnce(&mut S) -> T) -> (T, S) {
    let mut guarded = Guarded { before: [CANARY; 16], state, after: [CANARY; 16] };
    let answer = call(&mut black_box(&mut guarded).state);
    let guarded = black_box(&guarded);
    assert_eq!((guarded.before, guarded.after), ([CANARY; 16], [CANARY; 16]), "the library wrote past the state");
    (answer, guarded.state.clone())
}

fn in_place<T>(state: &State, call: impl FnOnce(&mut plokamyr::State) -> T) -> (T, State) {
    let (answer, state) = guarded(to_library(state), call);
    (answer, from_library(&state))
}

pub fn step(state: &State, word: u32) -> (u8, State) {
    let (reply, state) = in_place(state, |state| state.step(word));
    (number(reply), state)
}

pub fn step_lent(state: &State, word: u32) -> (u8, State) {
    let (reply, state) = in_place(state, |state| state.step_lent(word));
    (number(reply), state)
}

pub fn run(state: &State, words: &[u32]) -> Ran {
    let (ran, state) = in_place(state, |state| state.run(words));
    Ran { reply: number(ran.reply), refused: number(ran.refused), done: ran.done, state }
}

pub fn counted(state: &State) -> State {
    from_library(&to_library(state).counted())
}

pub fn walk(route: &Route, list: &mut [u64]) -> Walked {
    let Route { state, size, n, m, d, k, budget, .. } = route;
    let walked = plokamyr::walk(&to_library(state), *size, *n, *m, *d, *k, list, *budget);
    let (reply, state) = (number(walked.reply), from_library(&walked.state));
    Walked { reply, count: walked.count, visited: walked.visited, state }
}

pub fn fold(title: &mut [u16], vl: u64) -> u8 {
    number(plokamyr::fold(title, vl))
}

pub fn shared_step(shared: &Shared, kernel: Kernel, word: u32) -> (u8, Shared) {
    let (reply, shared) = guarded(to_shared(shared), |shared| shared.step(to_kernel(kernel), word));
    (number(reply), from_shared(&shared))
}

pub fn shared_walk(shared: &Shared, kernel: Kernel, tour: &Tour, list: &mut [u64]) -> SharedWalked {
    let Tour { size, n, m, d, k, budget, .. } = *tour;
    let walked = to_shared(shared).walk(to_kernel(kernel), size, n, m, d, k, list, budget);
    let (reply, shared) = (number(walked.reply), from_shared(&walked.shared));
    SharedWalked { reply, count: walked.count, visited: walked.visited, shared }
}

pub fn read(image: &[u8], words: &mut [u32]) -> Reading {
    let reading = plokamyr::read(image, words);
    Reading { reply: number(reading.reply), count: reading.count, state: from_library(&reading.state) }
}

pub fn write(state: &State, words: &[u32], image: &mut [u8]) -> Written {
    let written = plokamyr::write(&to_library(state), words, image);
    Written { reply: number(written.reply), length: written.length }
}

pub fn text_in(image: &[u8], text: &mut [u8]) -> usize {
    plokamyr::text_in(image, text)
}

extern "C" {
    fn plokamyr_decode(word: u32, row: *mut u8) -> u32;
    fn plokamyr_encode(row: *const u8, word: *mut u32) -> u32;
}

#[allow(unsafe_code)]
pub fn decode(word: u32, row: &mut Row) -> u32 {
    // SAFETY: the row has the nine places that the library writes.
    unsafe { plokamyr_decode(word, row.as_mut_ptr()) }
}

#[allow(unsafe_code)]
pub fn encode(row: &Row, word: &mut u32) -> u32 {
    // SAFETY: the row has the nine places that the library reads.
    unsafe { plokamyr_encode(row.as_ptr(), word) }
}

/// A number past the second program's own is one that it never gives.
fn number(reply: Reply) -> u8 {
    u8::try_from(reply.number()).unwrap_or(u8::MAX)
}

fn to_kernel(kernel: Kernel) -> plokamyr::Kernel {
    match kernel {
        Kernel::First => plokamyr::Kernel::First,
        Kernel::Second => plokamyr::Kernel::Second,
    }
}

fn to_shared(shared: &Shared) -> plokamyr::Shared {
    plokamyr::Shared { state: to_library(&shared.state), second: to_flags(shared.second) }
}

fn from_shared(shared: &plokamyr::Shared) -> Shared {
    Shared { state: from_library(&shared.state), second: from_flags(shared.second) }
}

fn to_flags(Flags { n, z, c, v }: Flags) -> plokamyr::Flags {
    plokamyr::Flags { n, z, c, v }
}

fn from_flags(plokamyr::Flags { n, z, c, v }: plokamyr::Flags) -> Flags {
    Flags { n, z, c, v }
}

fn to_library(state: &State) -> plokamyr::State {
    let mut library = plokamyr::State::new(state.vl, state.level);
    library.access = state.access;
    library.flags = to_flags(state.flags);
    library.x = state.x;
    library.set_all_p(state.p.map(|words| Predicate { words }));
    library.ffr = Predicate { words: state.ffr };
    // as they are, right or wrong; the setter before has worked them out
    library.set_counts(state.counts.map(|[b, h, s, d]| Counts { b, h, s, d }));
    library
}

fn from_library(state: &plokamyr::State) -> State {
    State {
        vl: state.vl(),
        level: state.level,
        access: state.access,
        flags: from_flags(state.flags),
        x: state.x,
        p: state.p().map(|predicate| predicate.words),
        ffr: state.ffr.words,
        counts: state.counts().map(|Counts { b, h, s, d }| [b, h, s, d]),
    }
}
