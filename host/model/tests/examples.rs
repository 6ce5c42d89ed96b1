//! Document 01's fourteen examples, and the errors that it has seen made; the subjects of the modules; what all of them share.

#[path = "examples/counters.rs"]
mod counters;
#[path = "examples/counts.rs"]
mod counts;
#[path = "examples/ffr.rs"]
mod ffr;
#[path = "examples/images.rs"]
mod images;
#[path = "examples/kernels.rs"]
mod kernels;
#[path = "examples/logic.rs"]
mod logic;
#[path = "examples/steps.rs"]
mod steps;
#[path = "examples/walks.rs"]
mod walks;
#[path = "examples/words.rs"]
mod words;

use model::forms::{RDFFR, RDFFRS_PG, RDFFR_PG, SETFFR, WRFFR};
use model::*;

const LENGTHS: [u64; 5] = [128, 256, 512, 1024, 2048];

const B: u8 = 0;
const H: u8 = 1;
const S: u8 = 2;
const D: u8 = 3;

// The conditions, as U, lt, eq.
const LT: [u8; 3] = [0, 1, 0];
const LE: [u8; 3] = [0, 1, 1];
const GT: [u8; 3] = [0, 0, 1];
const LO: [u8; 3] = [1, 1, 0];
const LS: [u8; 3] = [1, 1, 1];
const HS: [u8; 3] = [1, 0, 0];
const HI: [u8; 3] = [1, 0, 1];

/// VL 128, level 3, access on, all else zero.
fn ready() -> State {
    State { level: 3, access: true, ..nothing() }
}

/// VL 128, all else zero.
fn nothing() -> State {
    let (flags, p, counts) = (Flags::default(), [[0; 4]; 16], [[0; 4]; 16]);
    State { vl: 128, level: 0, access: false, flags, x: [0; 31], p, ffr: [0; 4], counts }
}

/// Writes a predicate, with its counts.
fn put(state: &mut State, number: usize, predicate: [u64; 4]) {
    state.p[number] = predicate;
    *state = state.counted();
}

fn nzc(n: u8, z: u8, c: u8) -> Flags {
    Flags { n: n == 1, z: z == 1, c: c == 1, v: false }
}

fn low(predicate: u64) -> [u64; 4] {
    [predicate, 0, 0, 0]
}

/// The bits from `low` up to `high`, without it.
fn bits(low: usize, high: usize) -> [u64; 4] {
    let mut predicate = [0; 4];
    for b in low..high {
        predicate[b / 64] |= 1 << (b % 64);
    }
    predicate
}

fn do_step(state: &mut State, row: &[u8]) {
    let mut whole = [0; 9];
    whole[..row.len()].copy_from_slice(row);
    assert_eq!(step(state, encode(&whole).unwrap()), 0);
}

/// All combinations of a bit of Pg, Pn and Pm, and flags that no PredTest gives.
fn truth_table() -> State {
    let mut state = ready();
    (state.p[1], state.p[2], state.p[3], state.p[4]) = (low(0xf0), low(0xcc), low(0xaa), low(0xffff));
    state.flags = Flags { n: true, z: true, c: false, v: true };
    state.counted()
}

/// WHILE P0, X1, X2 with these operands.
fn while_one(size: u8, sf: u8, [u, lt, eq]: [u8; 3], first: u64, second: u64) -> (u64, Flags) {
    let mut state = ready();
    (state.x[1], state.x[2]) = (first, second);
    do_step(&mut state, &[0, size, 2, sf, u, lt, 1, eq, 0]);
    assert_eq!((state.x[1], state.x[2]), (first, second));
    (state.p[0][0], state.flags)
}

/// WHILE PN8, X1, X2 with these operands, over a group of two vectors.
fn while_counter(size: u8, [u, lt, eq]: [u8; 3], first: u64, second: u64) -> (u64, Flags) {
    let mut state = ready();
    (state.x[1], state.x[2]) = (first, second);
    do_step(&mut state, &[2, size, 2, 0, u, lt, 1, eq, 0]);
    (state.p[8][0], state.flags)
}

/// SQ/UQ INCP/DECP X0 by P0, of bytes.
fn saturated(d: u8, u: u8, sf: u8, value: u64, mask: u64) -> u64 {
    let mut state = ready();
    state.x[0] = value;
    put(&mut state, 0, low(mask));
    do_step(&mut state, &[3, B, d, u, sf, 0, 0]);
    state.x[0]
}

/// PNEXT P0 over P1, of bytes where size is B.
fn pnext(state: &mut State, size: u8) -> (u64, Flags) {
    do_step(state, &[7, size, 1, 0]);
    (state.p[0][0], state.flags)
}

/// CNTP X0 of P1 taken as a counter, at VL 128.
fn cntp_counter(size: u8, vl: u8, counter: u64) -> u64 {
    cntp_counter_at(128, size, vl, counter)
}

fn cntp_counter_at(length: u64, size: u8, vl: u8, counter: u64) -> u64 {
    let mut state = State { vl: length, ..ready() };
    put(&mut state, 1, low(counter));
    do_step(&mut state, &[6, size, vl, 1, 0]);
    state.x[0]
}

// ---- the fourteen examples ----

#[test]
fn examples_1_to_6_while() {
    let max = i64::MAX as u64;
    assert_eq!(while_one(S, 1, LO, 10, 13), (0x0111, nzc(1, 0, 1)));
    assert_eq!(while_one(B, 1, LE, max - 1, max), (0xffff, nzc(1, 0, 0)));
    assert_eq!(while_one(B, 1, LT, max - 1, max), (0x0001, nzc(1, 0, 1)));
    assert_eq!(while_one(H, 1, HI, 5, 2), (0x5400, nzc(0, 0, 0)));
    let mut state = ready();
    (state.x[1], state.x[2]) = (3, 2);
    do_step(&mut state, &[1, D, 2, 1, 0, 1, 0, 1]);
    assert_eq!((state.p[0], state.p[1], state.flags), (low(0), low(0x0100), nzc(0, 0, 0)));
    assert_eq!(while_one(S, 1, HS, 0, 0), (0x1111, nzc(1, 0, 0)));
}

#[test]
fn examples_7_to_9_counters() {
    assert_eq!(while_counter(S, LE, 0, 2), (0x001c, nzc(1, 0, 1)));
    assert_eq!(while_counter(S, LE, 0, 7), (0x8004, nzc(1, 0, 0)));
    assert_eq!(while_counter(S, GT, 3, 0), (0x802c, nzc(0, 0, 0)));
}

#[test]
fn examples_10_and_11_pnext() {
    let mut state = ready();
    put(&mut state, 1, low(0x0024));
    assert_eq!(pnext(&mut state, B), (0x0004, nzc(1, 0, 1)));
    assert_eq!(pnext(&mut state, B), (0x0020, nzc(0, 0, 0)));
    assert_eq!(pnext(&mut state, B), (0x0000, nzc(0, 1, 1)));
    put(&mut state, 1, low(0x0022));
    assert_eq!(pnext(&mut state, S), (0x0000, nzc(0, 1, 1)));
}

#[test]
fn examples_12_and_13_counts() {
    assert_eq!(saturated(1, 0, 0, 0xffff_ffff_8000_0001, 0b111), 0xffff_ffff_8000_0000);
    let mut state = ready();
    state.x[0] = u64::MAX;
    put(&mut state, 0, low(0b11));
    do_step(&mut state, &[4, B, 0, 0, 0]);
    assert_eq!(state.x[0], 1);
}

#[test]
fn example_14_words() {
    assert_eq!(decode(0x25a2_4438), Some([2, S, 2, 0, 0, 1, 1, 1, 0])); // WHILELE pn8.s, x1, x2, x2-group
    assert_eq!(decode(0x25e5_5893), Some([1, D, 5, 1, 0, 4, 1, 1, 0])); // WHILEHI p2.d/p3.d, x4, x5
    assert_eq!(decode(0x252a_8c23), Some([3, B, 1, 0, 1, 1, 3, 0, 0])); // SQDECP x3, p1.b (64)
}

// ---- errors we have seen made ----

/// "Letting a comparison that becomes true again after a wrap switch lanes back on".
#[test]
fn the_latch_outlasts_a_wrap() {
    assert_eq!(while_one(B, 1, LO, u64::MAX - 1, 5).0, 0);
    assert_eq!(while_one(B, 1, LO, u64::MAX - 1, u64::MAX).0, 1);
    assert_eq!(while_one(B, 0, LT, 0x7fff_fffe, 0x7fff_ffff).0, 1);
    assert_eq!(while_one(B, 1, LS, u64::MAX, u64::MAX).0, 0xffff);
    assert_eq!(while_one(B, 1, GT, i64::MIN as u64 + 1, i64::MIN as u64).0, 0x8000);
}

/// "32 where the one-predicate form has sf=0, reading low words".
#[test]
fn narrow_operands() {
    assert_eq!(while_one(B, 0, LO, 0xdead_beef_0000_0000, 3).0, 0b111);
    assert_eq!(while_one(B, 0, LT, 0x0000_0000_ffff_ffff, 1).0, 0b11);
    assert_eq!(while_one(B, 1, LT, 0x0000_0000_ffff_ffff, 1).0, 0);
    assert_eq!(while_one(B, 0, LE, 0x7fff_fffe, 0xffff_ffff_7fff_ffff).0, 0xffff);
}

/// "Saturating the 32-bit form on the whole register".
#[test]
fn saturation_at_its_own_width() {
    assert_eq!(saturated(0, 0, 0, 0x7fff_ffff, 1), 0x7fff_ffff);
    assert_eq!(saturated(0, 1, 0, 0xffff_ffff_ffff_ffff, 1), 0xffff_ffff);
    assert_eq!(saturated(1, 1, 0, 0xffff_ffff_0000_0001, 0b11), 0);
    assert_eq!(saturated(0, 0, 1, i64::MAX as u64, 1), i64::MAX as u64);
    assert_eq!(saturated(1, 0, 1, i64::MIN as u64, 1), i64::MIN as u64);
    assert_eq!(saturated(0, 1, 1, u64::MAX, 1), u64::MAX);
    assert_eq!(saturated(1, 0, 1, 1, 0b11), u64::MAX);
}
