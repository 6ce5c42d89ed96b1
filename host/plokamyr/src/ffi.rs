//! The calls to the library, and all `unsafe` of this crate. The structs are those of `include/plokamyr.h`.
//!
//! Each call is safe if what the header asks of a caller is there: pointers valid for their counts, buffers that do not
//! overlap, bools of 0 or 1. A `bool` of Rust is one, and the library hands back no other. The structs are those of the
//! library only if its layout has the number that [`bind`] names.

use crate::{Counts, Flags, Kernel, Predicate, Reply, Shared, State};
use std::mem::{align_of, size_of};
use std::ptr::{addr_of, addr_of_mut};

/// A reply as C hands it over: a number, since an enum of Rust must not hold a stranger.
pub type Number = u32;

#[repr(C)]
pub struct Ran {
    pub reply: Number,
    pub refused: Number,
    pub done: usize,
}

#[repr(C)]
pub struct Walked {
    pub reply: Number,
    pub count: u64,
    pub visited: usize,
    pub state: State,
}

#[repr(C)]
pub struct SharedStepped {
    pub reply: Number,
    pub shared: Shared,
}

#[repr(C)]
pub struct SharedWalked {
    pub reply: Number,
    pub count: u64,
    pub visited: usize,
    pub shared: Shared,
}

#[repr(C)]
pub struct Reading {
    pub reply: Number,
    pub count: usize,
    pub state: State,
}

#[repr(C)]
pub struct Written {
    pub reply: Number,
    pub length: usize,
}

/// A form's number, then its fields.
pub type RawRow = [u8; 9];

/// P0 to P15 and then FFR.
pub type Predicates = [Predicate; 17];

/// Those of P0 to P15; FFR has none.
pub type AllCounts = [Counts; 16];

/// What the walk is told beside state, list and budget.
#[derive(Clone, Copy)]
pub struct Route {
    pub size: u32,
    pub n: u32,
    pub m: u32,
    pub d: u32,
    pub k: u32,
}

// Where the fields lie, the tests below say.
const _: () = {
    assert!(size_of::<Predicate>() == 32 && size_of::<Flags>() == 4 && size_of::<Counts>() == 8);
    assert!(size_of::<State>() == 936 && align_of::<State>() == 8);
    assert!(size_of::<Ran>() == 16 && size_of::<Walked>() == 960);
    assert!(size_of::<Shared>() == 944 && align_of::<Shared>() == 8);
    assert!(size_of::<SharedStepped>() == 952 && size_of::<SharedWalked>() == 968);
    assert!(size_of::<Reading>() == 952 && size_of::<Written>() == 16);
};

extern "C" {
    fn plokamyr_layout_3() -> u32;
    fn plokamyr_counted(state: State) -> State;
    fn plokamyr_step_parts(
        vl: u64,
        level: u8,
        access: bool,
        flags: *mut Flags,
        x: *mut [u64; 31],
        p: *mut Predicates,
        counts: *mut AllCounts,
        word: u32,
    ) -> Number;
    fn plokamyr_step_lent(state: *mut State, word: u32) -> Number;
    fn plokamyr_run_parts(
        vl: u64,
        level: u8,
        access: bool,
        flags: *mut Flags,
        x: *mut [u64; 31],
        p: *mut Predicates,
        counts: *mut AllCounts,
        words: *const u32,
        count: usize,
    ) -> Ran;
    fn plokamyr_walk(
        state: State,
        size: u32,
        n: u32,
        m: u32,
        d: u32,
        k: u32,
        list: *mut u64,
        places: usize,
        budget: u64,
    ) -> Walked;
    fn plokamyr_fold(title: *mut u16, units: usize, vl: u64) -> Number;
    fn plokamyr_shared_step(shared: Shared, second: bool, word: u32) -> SharedStepped;
    fn plokamyr_shared_walk(
        shared: Shared,
        second: bool,
        size: u32,
        n: u32,
        m: u32,
        d: u32,
        k: u32,
        list: *mut u64,
        places: usize,
        budget: u64,
    ) -> SharedWalked;
    fn plokamyr_read(image: *const u8, length: usize, words: *mut u32, places: usize) -> Reading;
    fn plokamyr_write(state: State, words: *const u32, count: usize, image: *mut u8, room: usize) -> Written;
    fn plokamyr_text(image: *const u8, length: usize, text: *mut u8, room: usize) -> usize;
    fn plokamyr_decode(word: u32, row: *mut RawRow) -> Number;
    fn plokamyr_encode(row: *const RawRow, word: *mut u32) -> Number;
}

/// The function that only a library of this layout has.
static LAYOUT: unsafe extern "C" fn() -> u32 = plokamyr_layout_3;

/// Each call refers to [`LAYOUT`], so that it does not link with a library of another layout. The read is volatile, since a
/// reference that nothing reads is left out.
#[inline(always)]
fn bind() {
    // SAFETY: a static is readable.
    unsafe { addr_of!(LAYOUT).read_volatile() };
}

pub fn counted(state: &State) -> State {
    bind();
    // SAFETY: the state is a copy, and any is taken.
    unsafe { plokamyr_counted(state.clone()) }
}

/// What a step or a run is lent of a state: its flags, its X, its P with FFR, and its counts. Each pointer is derived from the
/// one to the whole state, so that the third may reach past `p` to `ffr`, which lies right after it.
fn parts(state: &mut State) -> (*mut Flags, *mut [u64; 31], *mut Predicates, *mut AllCounts) {
    let state: *mut State = state;
    // SAFETY: the state is valid, and its parts are named by their places alone: no reference to one is made.
    unsafe {
        let (flags, x) = (addr_of_mut!((*state).flags), addr_of_mut!((*state).x));
        (flags, x, addr_of_mut!((*state).p).cast(), addr_of_mut!((*state).counts))
    }
}

pub fn step(state: &mut State, word: u32) -> Reply {
    bind();
    let State { vl, level, access, .. } = *state;
    let (flags, x, p, counts) = parts(state);
    // SAFETY: the parts are lent for writing and for this call alone, lie apart, and have C's layout. `p` and `ffr` are
    // seventeen predicates one after the other, and the pointer to them comes from that to the state that holds both.
    Reply::from_number(unsafe { plokamyr_step_parts(vl, level, access, flags, x, p, counts, word) })
}

pub fn step_lent(state: &mut State, word: u32) -> Reply {
    bind();
    // SAFETY: the state is lent for writing and for this call alone, and its layout is C's.
    Reply::from_number(unsafe { plokamyr_step_lent(state, word) })
}

pub fn run(state: &mut State, words: &[u32]) -> Ran {
    bind();
    let State { vl, level, access, .. } = *state;
    let (flags, x, p, counts) = parts(state);
    // SAFETY: the slice is readable for its length; of the parts the same holds as for a step.
    unsafe { plokamyr_run_parts(vl, level, access, flags, x, p, counts, words.as_ptr(), words.len()) }
}

pub fn walk(state: &State, route: Route, list: &mut [u64], budget: u64) -> Walked {
    bind();
    let Route { size, n, m, d, k } = route;
    let (places, length) = (list.as_mut_ptr(), list.len());
    // SAFETY: the list is lent for writing, for its length and for this call alone; the state is a copy.
    unsafe { plokamyr_walk(state.clone(), size, n, m, d, k, places, length, budget) }
}

pub fn fold(title: &mut [u16], vl: u64) -> Reply {
    bind();
    let (units, length) = (title.as_mut_ptr(), title.len());
    // SAFETY: the title is lent for writing, for its length and for this call alone.
    Reply::from_number(unsafe { plokamyr_fold(units, length, vl) })
}

/// What C is told of a kernel.
fn is_second(kernel: Kernel) -> bool {
    kernel == Kernel::Second
}

pub fn shared_step(shared: &Shared, kernel: Kernel, word: u32) -> SharedStepped {
    bind();
    // SAFETY: the shared state is a copy, and any is taken.
    unsafe { plokamyr_shared_step(shared.clone(), is_second(kernel), word) }
}

pub fn shared_walk(shared: &Shared, kernel: Kernel, route: Route, list: &mut [u64], budget: u64) -> SharedWalked {
    bind();
    let Route { size, n, m, d, k } = route;
    let (places, length) = (list.as_mut_ptr(), list.len());
    // SAFETY: the list is lent for writing, for its length and for this call alone; the shared state is a copy.
    unsafe { plokamyr_shared_walk(shared.clone(), is_second(kernel), size, n, m, d, k, places, length, budget) }
}

pub fn read(image: &[u8], words: &mut [u32]) -> Reading {
    bind();
    let (places, length) = (words.as_mut_ptr(), words.len());
    // SAFETY: both slices are valid for their lengths, and a slice lent for writing overlaps no other.
    unsafe { plokamyr_read(image.as_ptr(), image.len(), places, length) }
}

pub fn write(state: &State, words: &[u32], image: &mut [u8]) -> Written {
    bind();
    let (bytes, room) = (image.as_mut_ptr(), image.len());
    // SAFETY: both slices are valid for their lengths, and a slice lent for writing overlaps no other; the state is a copy.
    unsafe { plokamyr_write(state.clone(), words.as_ptr(), words.len(), bytes, room) }
}

pub fn text(image: &[u8], text: &mut [u8]) -> usize {
    bind();
    let (bytes, room) = (text.as_mut_ptr(), text.len());
    // SAFETY: both slices are valid for their lengths, and a slice lent for writing overlaps no other.
    unsafe { plokamyr_text(image.as_ptr(), image.len(), bytes, room) }
}

pub fn decode(word: u32, row: &mut RawRow) -> Reply {
    bind();
    // SAFETY: the row has the nine places that the library writes.
    Reply::from_number(unsafe { plokamyr_decode(word, row) })
}

pub fn encode(row: &RawRow, word: &mut u32) -> Reply {
    bind();
    // SAFETY: the row has the nine places that the library reads; the word is another local.
    Reply::from_number(unsafe { plokamyr_encode(row, word) })
}

#[cfg(test)]
mod tests {
    use super::*;

    /// Where a part lies in a whole, in bytes.
    fn at<Whole, Part>(whole: &Whole, part: &Part) -> usize {
        part as *const Part as usize - whole as *const Whole as usize
    }

    #[test]
    fn fields_lie_where_c_has_them() {
        let state = State::new(128, 1);
        assert_eq!((at(&state, &state.vl), at(&state, &state.level), at(&state, &state.access)), (0, 8, 9));
        assert_eq!((at(&state, &state.flags), at(&state, &state.x)), (10, 16));
        assert_eq!((at(&state, &state.p), at(&state, &state.ffr)), (264, 264 + 16 * 32));
        assert_eq!(at(&state, &state.counts), 264 + 17 * 32);
        let Flags { n, z, c, v } = &state.flags;
        assert_eq!([n, z, c, v].map(|flag| at(&state.flags, flag)), [0, 1, 2, 3]);
        let Counts { b, h, s, d } = &state.counts[0];
        assert_eq!([b, h, s, d].map(|count| at(&state.counts[0], count)), [0, 2, 4, 6]);
    }

    #[test]
    fn answers_lie_where_c_has_them() {
        let state = State::new(128, 1);
        let ran = Ran { reply: 0, refused: 0, done: 0 };
        assert_eq!((at(&ran, &ran.reply), at(&ran, &ran.refused), at(&ran, &ran.done)), (0, 4, 8));
        let walked = Walked { reply: 0, count: 0, visited: 0, state: state.clone() };
        assert_eq!((at(&walked, &walked.reply), at(&walked, &walked.count)), (0, 8));
        assert_eq!((at(&walked, &walked.visited), at(&walked, &walked.state)), (16, 24));
        let reading = Reading { reply: 0, count: 0, state };
        let parts = (at(&reading, &reading.reply), at(&reading, &reading.count), at(&reading, &reading.state));
        assert_eq!(parts, (0, 8, 16));
        let written = Written { reply: 0, length: 0 };
        assert_eq!((at(&written, &written.reply), at(&written, &written.length)), (0, 8));
    }

    #[test]
    fn shared_states_lie_where_c_has_them() {
        let shared = Shared::new(128, 1);
        assert_eq!((at(&shared, &shared.state), at(&shared, &shared.second)), (0, 936));
        let stepped = SharedStepped { reply: 0, shared: shared.clone() };
        assert_eq!((at(&stepped, &stepped.reply), at(&stepped, &stepped.shared)), (0, 8));
        let walked = SharedWalked { reply: 0, count: 0, visited: 0, shared };
        assert_eq!((at(&walked, &walked.reply), at(&walked, &walked.count)), (0, 8));
        assert_eq!((at(&walked, &walked.visited), at(&walked, &walked.shared)), (16, 24));
    }
}
