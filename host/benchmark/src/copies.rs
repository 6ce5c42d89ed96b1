//! The library at hand and an earlier one in the same program. The build script copies both, with other names for their calls
//! and with each function at a multiple of 64 bytes: else a walk may be a tenth slower for the address alone.

use crate::builds::Build;
use plokamyr::{Counts, Flags, Predicate, State};
use std::mem::size_of;
use std::ptr::{addr_of_mut, null, null_mut};

/// A state as the header lays it out, to be lent by its parts; `p` has FFR after it.
#[repr(C)]
struct Parts {
    vl: u64,
    level: u8,
    access: bool,
    flags: Flags,
    x: [u64; 31],
    p: [Predicate; 17],
    counts: [Counts; 16],
}

const _: () = assert!(size_of::<Parts>() == size_of::<State>());

#[repr(C)]
struct Ran {
    reply: u32,
    refused: u32,
    done: usize,
}

#[repr(C)]
struct Walked {
    reply: u32,
    count: u64,
    visited: usize,
    state: State,
}

/// The calls of a copy, by the prefix of their names.
macro_rules! copy {
    ($suffix:literal, $prefix:literal) => {{
        #[allow(improper_ctypes)] // `State` is open to more fields, for its users; it has C's layout
        extern "C" {
            #[link_name = concat!($prefix, "plokamyr_run_parts")]
            fn run_parts(
                vl: u64,
                level: u8,
                access: bool,
                flags: *mut Flags,
                x: *mut [u64; 31],
                p: *mut [Predicate; 17],
                counts: *mut [Counts; 16],
                words: *const u32,
                count: usize,
            ) -> Ran;
            #[link_name = concat!($prefix, "plokamyr_walk")]
            fn walk(
                state: State,
                size: u32,
                n: u32,
                m: u32,
                d: u32,
                k: u32,
                list: *mut u64,
                places: usize,
                budget: u64,
            ) -> Walked;
        }
        Build {
            suffix: $suffix,
            run: |state, words| {
                let state: *mut State = state;
                let parts: *mut Parts = state.cast();
                // SAFETY: a state has C's layout, which is that of its parts. They are lent for writing and for this call
                // alone, and lie apart. The words are readable for their length.
                let ran = unsafe {
                    let Parts { vl, level, access, .. } = *parts;
                    let (flags, x) = (addr_of_mut!((*parts).flags), addr_of_mut!((*parts).x));
                    let (p, counts) = (addr_of_mut!((*parts).p), addr_of_mut!((*parts).counts));
                    run_parts(vl, level, access, flags, x, p, counts, words.as_ptr(), words.len())
                };
                (ran.reply == 0).then_some(ran.done)
            },
            walk: |state, list, budget| {
                let (places, length) = (list.as_mut_ptr(), list.len());
                // SAFETY: the list is lent for writing, for its length and for this call alone; the state is a copy.
                let walked = unsafe { walk(state.clone(), 0, 0, 1, 0, 1, places, length, budget) };
                (walked.reply == 0).then_some(walked.count)
            },
        }
    }};
}

pub const NOW: Build = copy!("", "now_");
pub const BEFORE: Build = copy!(", before", "before_");

/// `plokamyr_read` with the place of its answer, which on x86-64 Linux is a hidden first parameter.
type ReadInto = unsafe extern "C" fn(*mut u64, *const u8, usize, *mut u32, usize) -> *mut u64;

extern "C" {
    #[link_name = "now_plokamyr_read"]
    fn now_read(answer: *mut u64, image: *const u8, length: usize, words: *mut u32, places: usize) -> *mut u64;
    #[link_name = "before_plokamyr_read"]
    fn before_read(answer: *mut u64, image: *const u8, length: usize, words: *mut u32, places: usize) -> *mut u64;
}

/// Whether states have one size in both copies, so that one program can lend them to either.
pub fn are_laid_out_alike() -> bool {
    size_of_answer(now_read) == size_of_answer(before_read)
}

/// How far an answer to a reading goes, in words of eight bytes: it ends with a state.
fn size_of_answer(read: ReadInto) -> usize {
    const UNTOUCHED: u64 = 0xA5A5_A5A5_A5A5_A5A5;
    let mut answer = [UNTOUCHED; 1024];
    // SAFETY: an image of no bytes is read, so that nulls will do; the answer, a refusal with a state that is all zero but for
    // its length, has room for any state that there may be.
    unsafe { read(answer.as_mut_ptr(), null(), 0, null_mut(), 0) };
    answer.iter().rposition(|&word| word != UNTOUCHED).map_or(0, |last| last + 1)
}
