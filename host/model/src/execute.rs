//! "What each does". Every function reads all the registers it needs, masks included, before it writes any.

use crate::counter::{counter_to_predicate, encode_pred_count, pred_count_test};
use crate::forms::*;
use crate::state::{psize, Flags, State};
use crate::words::*;

/// Executes an instruction, on a legal state, past every refusal.
pub fn execute(state: &mut State, row: &Row) {
    match *row {
        [WHILE_ONE, size, rm, sf, u, lt, rn, eq, pd] => while_one(state, size, &While::new(rn, rm, sf, u, lt, eq), pd),
        [WHILE_PAIR, size, rm, u, lt, rn, pd, eq, _] => while_pair(state, size, &While::new(rn, rm, 1, u, lt, eq), pd),
        [WHILE_COUNTER, size, rm, vl, u, lt, rn, eq, pnd] => {
            while_counter(state, size, &While::new(rn, rm, 1, u, lt, eq), vl, pnd)
        }
        [SATURATING, size, d, u, sf, pm, rdn, ..] => saturating(state, size, d == 1, u == 1, width(sf), pm, rdn),
        [INC_DEC, size, d, pm, rdn, ..] => inc_dec(state, size, d == 1, pm, rdn),
        [CNTP, size, pg, pn, rd, ..] => cntp(state, size, pg, pn, rd),
        [CNTP_COUNTER, size, vl, pnn, rd, ..] => cntp_counter(state, size, vl, pnn, rd),
        [PNEXT, size, pv, pdn, ..] => pnext(state, size, pv, pdn),
        [PFIRST, pg, pdn, ..] => pfirst(state, pg, pdn),
        [PTEST, pg, pn, ..] => ptest(state, pg, pn),
        [PFALSE, pd, ..] => pfalse(state, pd),
        [LOGIC, op, s, pm, pg, o2, pn, o3, pd] => logic(state, [op, o2, o3], s == 1, pm, pg, pn, pd),
        [SETFFR, ..] => setffr(state),
        [WRFFR, pn, ..] => wrffr(state, pn),
        [RDFFR, pd, ..] => rdffr(state, pd),
        [RDFFR_PG, pg, pd, ..] => rdffr_under(state, false, pg, pd),
        [RDFFRS_PG, pg, pd, ..] => rdffr_under(state, true, pg, pd),
        _ => unreachable!("no row has such a form"),
    }
}

// ---- WHILE ----

/// The operands of a WHILE, and what it asks of them.
struct While {
    n: u8,
    m: u8,
    width: u32,
    unsigned: bool,
    lt: bool,
    eq: bool,
}

impl While {
    fn new(n: u8, m: u8, sf: u8, u: u8, lt: u8, eq: u8) -> While {
        While { n, m, width: width(sf), unsigned: u == 1, lt: lt == 1, eq: eq == 1 }
    }

    /// "Conditions by (lt, eq)".
    fn condition(&self, operand1: i128, operand2: i128) -> bool {
        match (self.lt, self.eq) {
            (true, false) => operand1 < operand2,
            (true, true) => operand1 <= operand2,
            (false, false) => operand1 >= operand2,
            (false, true) => operand1 > operand2,
        }
    }

    /// "An element is true if its comparison and all earlier ones held".
    fn result(&self, state: &State, elements: usize) -> Vec<bool> {
        let mut operand1 = int(state.read_x(self.n), self.width, self.unsigned);
        let operand2 = int(state.read_x(self.m), self.width, self.unsigned);
        let mut result = vec![false; elements];
        let mut last = true;
        for turn in 0..elements {
            last = last && self.condition(operand1, operand2);
            let e = if self.lt { turn } else { elements - 1 - turn };
            result[e] = last;
            let stepped = if self.lt { operand1 + 1 } else { operand1 - 1 };
            operand1 = int(stepped as u64, self.width, self.unsigned); // "wraps at its own width"
        }
        result
    }
}

fn while_one(state: &mut State, size: u8, operands: &While, d: u8) {
    let elements = state.elements(size);
    let result = operands.result(state, elements);
    state.flags = pred_test(&vec![true; elements], &result);
    state.write_p(d, size, &result);
}

fn while_pair(state: &mut State, size: u8, operands: &While, d: u8) {
    let elements = state.elements(size);
    let result = operands.result(state, 2 * elements);
    state.flags = pred_test(&vec![true; 2 * elements], &result);
    state.write_p(2 * d, size, &result[..elements]);
    state.write_p(2 * d + 1, size, &result[elements..]);
}

fn while_counter(state: &mut State, size: u8, operands: &While, vl: u8, d: u8) {
    let elements = group(state, size, vl);
    let count = count_active(&operands.result(state, elements));
    let invert = !operands.lt;
    state.flags = pred_count_test(elements, count, invert);
    state.write_counter(8 + d, encode_pred_count(size, elements, count, invert));
}

// ---- counts ----
//
// INCP, DECP and the saturating forms may read the counts that the state keeps. Here they are counted anew: in a legal state
// that is the same.

fn saturating(state: &mut State, size: u8, decrement: bool, unsigned: bool, width: u32, m: u8, dn: u8) {
    let operand1 = int(state.read_x(dn), width, unsigned);
    let count = count_active(&state.read_p(m, size)) as i128;
    let exact = if decrement { operand1 - count } else { operand1 + count };
    let (lowest, highest) = match unsigned {
        true => (0, (1 << width) - 1),
        false => (-(1 << (width - 1)), (1 << (width - 1)) - 1),
    };
    // The low 64 bits of the number are its sign- or zero-extension.
    state.write_x(dn, exact.clamp(lowest, highest) as u64);
}

fn inc_dec(state: &mut State, size: u8, decrement: bool, m: u8, dn: u8) {
    let operand1 = state.read_x(dn);
    let count = count_active(&state.read_p(m, size)) as u64;
    let result = if decrement { operand1.wrapping_sub(count) } else { operand1.wrapping_add(count) };
    state.write_x(dn, result);
}

fn cntp(state: &mut State, size: u8, g: u8, n: u8, d: u8) {
    let mask = state.read_p(g, size);
    let operand = state.read_p(n, size);
    let mut sum = 0;
    for e in 0..state.elements(size) {
        if mask[e] && operand[e] {
            sum += 1;
        }
    }
    state.write_x(d, sum);
}

/// The counter has a size of its own; it is laid out as bits first, and these are read at the size asked for.
fn cntp_counter(state: &mut State, size: u8, vl: u8, n: u8, d: u8) {
    let bits = counter_to_predicate(state.read_counter(n), state.pl());
    let mut sum = 0;
    for e in 0..group(state, size, vl) {
        if bits[e * psize(size)] {
            sum += 1;
        }
    }
    state.write_x(d, sum);
}

// ---- predicates ----

fn pnext(state: &mut State, size: u8, v: u8, dn: u8) {
    let elements = state.elements(size);
    let mask = state.read_p(v, size);
    let operand = state.read_p(dn, size);
    let mut result = vec![false; elements];
    let mut next = last_active_element(&operand).map_or(0, |last| last + 1);
    while next < elements && !mask[next] {
        next += 1;
    }
    if next < elements {
        result[next] = true;
    }
    state.flags = pred_test(&mask, &result);
    state.write_p(dn, size, &result);
}

fn pfirst(state: &mut State, g: u8, dn: u8) {
    let mask = state.read_p(g, BYTES);
    let mut result = state.read_p(dn, BYTES);
    if let Some(first) = first_active_element(&mask) {
        result[first] = true;
    }
    state.flags = pred_test(&mask, &result);
    state.write_p(dn, BYTES, &result);
}

fn ptest(state: &mut State, g: u8, n: u8) {
    state.flags = pred_test(&state.read_p(g, BYTES), &state.read_p(n, BYTES));
}

fn pfalse(state: &mut State, d: u8) {
    state.write_p(d, BYTES, &vec![false; state.elements(BYTES)]);
}

fn logic(state: &mut State, operation: Operation, sets_flags: bool, m: u8, g: u8, n: u8, d: u8) {
    let mask = state.read_p(g, BYTES);
    let operand1 = state.read_p(n, BYTES);
    let operand2 = state.read_p(m, BYTES);
    let mut result = Vec::new();
    for e in 0..state.elements(BYTES) {
        result.push(logic_element(operation, mask[e], operand1[e], operand2[e]));
    }
    if sets_flags {
        state.flags = pred_test(&mask, &result);
    }
    state.write_p(d, BYTES, &result);
}

/// "Where Pg is false the result is false, except SEL, which takes Pm there and Pn elsewhere".
fn logic_element(operation: Operation, g: bool, n: bool, m: bool) -> bool {
    match operation {
        SEL if g => n,
        SEL => m,
        _ if !g => false,
        AND => n && m,
        BIC => n && !m,
        EOR => n != m,
        ORR => n || m,
        ORN => n || !m,
        NOR => !(n || m),
        NAND => !(n && m),
        _ => unreachable!("op, o2 and o3 have one bit each"),
    }
}

// ---- the first-fault register ----

/// "SETFFR (all true)".
fn setffr(state: &mut State) {
    let bits = state.pl();
    state.write_ffr(&vec![true; bits]);
}

/// Past reply 14, so that Pn is a run of ones from bit 0.
fn wrffr(state: &mut State, n: u8) {
    let operand = state.read_p(n, BYTES);
    state.write_ffr(&operand);
}

fn rdffr(state: &mut State, d: u8) {
    let ffr = state.read_ffr();
    state.write_p(d, BYTES, &ffr);
}

/// "Under Pg the result is FFR and Pg", and for the flag-setting form "flags by PredTest(Pg, result) over bytes".
fn rdffr_under(state: &mut State, sets_flags: bool, g: u8, d: u8) {
    let mask = state.read_p(g, BYTES);
    let ffr = state.read_ffr();
    let mut result = Vec::new();
    for e in 0..state.elements(BYTES) {
        result.push(ffr[e] && mask[e]);
    }
    if sets_flags {
        state.flags = pred_test(&mask, &result);
    }
    state.write_p(d, BYTES, &result);
}

/// "A run of ones from bit 0 (an empty or full one counts)": no bit is true after one that is false.
pub fn is_run_from_bit_0(bits: &[bool]) -> bool {
    let mut ended = false;
    for &bit in bits {
        if ended && bit {
            return false;
        }
        ended = !bit;
    }
    true
}

// ---- what they share ----

/// The size of PFIRST, PTEST, PFALSE, predicate logic and FFR's words, where each bit of a predicate is an element.
pub const BYTES: u8 = 0;

/// The operand's width by sf.
fn width(sf: u8) -> u32 {
    match sf {
        0 => 32,
        _ => 64,
    }
}

/// Arm's UInt and SInt of the low `width` bits.
fn int(bits: u64, width: u32, unsigned: bool) -> i128 {
    match (width, unsigned) {
        (32, true) => i128::from(bits as u32),
        (32, false) => i128::from(bits as i32),
        (_, true) => i128::from(bits),
        (_, false) => i128::from(bits as i64),
    }
}

/// G, the elements of a counter's group: 2E (vl = 0) or 4E.
fn group(state: &State, size: u8, vl: u8) -> usize {
    match vl {
        0 => 2 * state.elements(size),
        _ => 4 * state.elements(size),
    }
}

fn count_active(elements: &[bool]) -> usize {
    let mut count = 0;
    for &active in elements {
        if active {
            count += 1;
        }
    }
    count
}

fn first_active_element(elements: &[bool]) -> Option<usize> {
    (0..elements.len()).find(|&e| elements[e])
}

pub fn last_active_element(elements: &[bool]) -> Option<usize> {
    (0..elements.len()).rev().find(|&e| elements[e])
}

/// PredTest: First, None and not Last. An empty mask has no first and no last element, which gives N0 Z1 C1.
fn pred_test(mask: &[bool], result: &[bool]) -> Flags {
    let first = first_active_element(mask).is_some_and(|e| result[e]);
    let any = (0..mask.len()).any(|e| mask[e] && result[e]);
    let last = last_active_element(mask).is_some_and(|e| result[e]);
    Flags { n: first, z: !any, c: !last, v: false }
}
