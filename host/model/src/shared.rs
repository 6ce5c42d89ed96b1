//! Two kernels that take turns on one register file: request K7.

use crate::forms::*;
use crate::reply::NOT_OWNED;
use crate::state::{Flags, State};
use crate::walk::{Registers, Walked};
use crate::words::Row;
use crate::{step, walk};

/// The index kernel and the query kernel.
#[derive(Clone, Copy, PartialEq, Eq, Hash, Debug)]
pub enum Kernel {
    First,
    Second,
}

/// "Each has its own NZCV": the flags of the state are the first kernel's. All else of the state is there once.
#[derive(Clone, PartialEq, Eq, Debug)]
pub struct Shared {
    pub state: State,
    pub second: Flags,
}

#[derive(Clone, PartialEq, Eq, Debug)]
pub struct SharedWalked {
    pub reply: u8,
    pub count: u64,
    pub visited: usize,
    pub shared: Shared,
}

/// A step of one kernel. "Refused with new reply 15, after 3 and before 14": 4, 1 or 13, 2, 3, 15, 14. Refused, it leaves the
/// shared state as it was.
pub fn shared_step(shared: &mut Shared, kernel: Kernel, word: u32) -> u8 {
    let mut state = shared.state_of(kernel);
    let row = match step::admitted(&state, word) {
        Ok(row) => row,
        Err(refusal) => return refusal,
    };
    if !kernel.may_execute(&row) {
        return NOT_OWNED;
    }
    let reply = step::finish(&mut state, &row);
    *shared = shared.with(kernel, state);
    reply
}

/// A walk of one kernel. "After 3 and before 11 for a walk": 4, 10, 2, 3, 15, 11, 12.
#[allow(clippy::too_many_arguments)] // the interface's own
pub fn shared_walk(
    shared: &Shared,
    kernel: Kernel,
    size: u32,
    n: u32,
    m: u32,
    d: u32,
    k: u32,
    list: &mut [u64],
    budget: u64,
) -> SharedWalked {
    let refused = |reply| SharedWalked { reply, count: 0, visited: 0, shared: shared.clone() };
    let state = shared.state_of(kernel);
    let registers = match walk::admitted(&state, size, n, m, d, k) {
        Ok(registers) => registers,
        Err(refusal) => return refused(refusal),
    };
    if !kernel.may_walk(&registers) {
        return refused(NOT_OWNED);
    }
    let Walked { reply, count, visited, state } = walk::finish(&state, &registers, list, budget);
    SharedWalked { reply, count, visited, shared: shared.with(kernel, state) }
}

impl Kernel {
    /// "The first owns X0 to X15, the second X16 to X30"; "register 31 is open to both".
    fn may_name_x(self, number: u8) -> bool {
        matches!((self, number), (Kernel::First, 0..=15) | (Kernel::Second, 16..=30) | (_, 31))
    }

    /// "The first owns P0 to P7, the second P8 to P15".
    fn may_name_p(self, number: u8) -> bool {
        matches!((self, number), (Kernel::First, 0..=7) | (Kernel::Second, 8..=15))
    }

    /// Whether an instruction names no "register of the other, as source, mask or target", and does not touch FFR.
    fn may_execute(self, row: &Row) -> bool {
        let Some((x, p)) = named(row) else {
            return false;
        };
        x.iter().all(|&number| self.may_name_x(number)) && p.iter().all(|&number| self.may_name_p(number))
    }

    /// "All four registers from one kernel's own, or 31 as the limit": n = 31 is refused with 10 before.
    fn may_walk(self, registers: &Registers) -> bool {
        let &Registers { n, m, d, k, .. } = registers;
        self.may_name_x(n) && self.may_name_x(m) && self.may_name_p(d) && self.may_name_p(k)
    }
}

/// The X and the P registers that an instruction names; None for one that touches FFR, which no kernel may.
fn named(row: &Row) -> Option<(Vec<u8>, Vec<u8>)> {
    let (x, p) = match *row {
        [WHILE_ONE, _size, rm, _sf, _u, _lt, rn, _eq, pd] => (vec![rn, rm], vec![pd]),
        [WHILE_PAIR, _size, rm, _u, _lt, rn, pd, ..] => (vec![rn, rm], vec![2 * pd, 2 * pd + 1]),
        [WHILE_COUNTER, _size, rm, _vl, _u, _lt, rn, _eq, pnd] => (vec![rn, rm], vec![8 + pnd]),
        [SATURATING, _size, _d, _u, _sf, pm, rdn, ..] => (vec![rdn], vec![pm]),
        [INC_DEC, _size, _d, pm, rdn, ..] => (vec![rdn], vec![pm]),
        [CNTP, _size, pg, pn, rd, ..] => (vec![rd], vec![pg, pn]),
        [CNTP_COUNTER, _size, _vl, pnn, rd, ..] => (vec![rd], vec![pnn]),
        [PNEXT, _size, pv, pdn, ..] => (vec![], vec![pv, pdn]),
        [PFIRST, pg, pdn, ..] => (vec![], vec![pg, pdn]),
        [PTEST, pg, pn, ..] => (vec![], vec![pg, pn]),
        [PFALSE, pd, ..] => (vec![], vec![pd]),
        [LOGIC, _op, _s, pm, pg, _o2, pn, _o3, pd] => (vec![], vec![pm, pg, pn, pd]),
        [SETFFR | WRFFR | RDFFR | RDFFR_PG | RDFFRS_PG, ..] => return None,
        _ => unreachable!("no row has such a form"),
    };
    Some((x, p))
}

impl Shared {
    /// The state as a kernel has it: with its own flags.
    pub fn state_of(&self, kernel: Kernel) -> State {
        match kernel {
            Kernel::First => self.state.clone(),
            Kernel::Second => State { flags: self.second, ..self.state.clone() },
        }
    }

    /// The shared state after a kernel has left this state: the flags are its own, and the other keeps those it had.
    pub fn with(&self, kernel: Kernel, state: State) -> Shared {
        match kernel {
            Kernel::First => Shared { state, second: self.second },
            Kernel::Second => Shared { second: state.flags, state: State { flags: self.state.flags, ..state } },
        }
    }
}
