//! The plain walk, as document 01 words it.

use crate::execute::{execute, last_active_element};
use crate::forms::{INC_DEC, PFALSE, PNEXT, WHILE_ONE};
use crate::reply::*;
use crate::state::State;
use crate::words::Row;

#[derive(Clone, PartialEq, Eq, Debug)]
pub struct Walked {
    pub reply: u8,
    pub count: u64,
    pub visited: usize,
    pub state: State,
}

/// The walk's registers: Xn (start), Xm (limit), Pd (lanes), Pk (cursor), and the size.
pub struct Registers {
    size: u8,
    pub n: u8,
    pub m: u8,
    pub d: u8,
    pub k: u8,
}

/// The instructions of the walk.
enum Instruction {
    Pfalse,
    Whilelo,
    Pnext,
    Incp,
}

#[allow(clippy::too_many_arguments)] // the interface's own
pub fn walk(state: &State, size: u32, n: u32, m: u32, d: u32, k: u32, list: &mut [u64], budget: u64) -> Walked {
    match admitted(state, size, n, m, d, k) {
        Ok(registers) => finish(state, &registers, list, budget),
        Err(refusal) => refused(state, refusal),
    }
}

fn refused(state: &State, reply: u8) -> Walked {
    Walked { reply, count: 0, visited: 0, state: state.clone() }
}

/// The walk's registers, if it is past 4, 10, 2 and 3.
pub fn admitted(state: &State, size: u32, n: u32, m: u32, d: u32, k: u32) -> Result<Registers, u8> {
    if !state.legal() {
        return Err(ILLEGAL_STATE);
    }
    let Some(registers) = Registers::new(size, n, m, d, k) else {
        return Err(BAD_WALK_REGISTERS);
    };
    if state.level == 0 {
        return Err(LEVEL_TOO_LOW);
    }
    if !state.access {
        return Err(ACCESS_OFF);
    }
    Ok(registers)
}

/// Walks, or refuses to with 11 or, on the way, with 12.
pub fn finish(state: &State, registers: &Registers, list: &mut [u64], budget: u64) -> Walked {
    if (list.len() as u64) < registers.distance(state) {
        return refused(state, LIST_TOO_SHORT);
    }
    plain_walk(state.clone(), registers, list, budget)
}

fn plain_walk(mut state: State, registers: &Registers, list: &mut [u64], budget: u64) -> Walked {
    let mut count = 0;
    let mut visited = 0;
    let mut to_come = Some(Instruction::Pfalse);
    while let Some(instruction) = to_come {
        if count == budget {
            return Walked { reply: BUDGET_SPENT, count, visited, state };
        }
        execute(&mut state, &registers.row(&instruction));
        count += 1;
        to_come = match instruction {
            Instruction::Pfalse | Instruction::Incp => Some(Instruction::Whilelo),
            Instruction::Whilelo if state.flags.z => None,
            Instruction::Whilelo => Some(Instruction::Pnext),
            Instruction::Pnext if state.flags.z => Some(Instruction::Incp),
            Instruction::Pnext => {
                list[visited] = registers.position(&state);
                visited += 1;
                Some(Instruction::Pnext)
            }
        };
    }
    Walked { reply: DONE, count, visited, state }
}

impl Registers {
    /// None (reply 10) for a "register number past 31 (X) or 15 (P), size past 3, n = 31, n = m, or d = k".
    fn new(size: u32, n: u32, m: u32, d: u32, k: u32) -> Option<Registers> {
        let past = n > 31 || m > 31 || d > 15 || k > 15 || size > 3;
        if past || n == 31 || n == m || d == k {
            return None;
        }
        Some(Registers { size: size as u8, n: n as u8, m: m as u8, d: d as u8, k: k as u8 })
    }

    /// D, "limit − start, both as handed in, or 0 if start is at or above limit".
    fn distance(&self, state: &State) -> u64 {
        let start = state.read_x(self.n);
        let limit = state.read_x(self.m);
        limit.saturating_sub(start)
    }

    fn row(&self, instruction: &Instruction) -> Row {
        let Registers { size, n, m, d, k } = *self;
        let (sf, u, lt, eq) = (1, 1, 1, 0); // 64-bit, unsigned, less: LO
        let increment = 0;
        match instruction {
            Instruction::Pfalse => [PFALSE, k, 0, 0, 0, 0, 0, 0, 0],
            Instruction::Whilelo => [WHILE_ONE, size, m, sf, u, lt, n, eq, d],
            Instruction::Pnext => [PNEXT, size, d, k, 0, 0, 0, 0, 0],
            Instruction::Incp => [INC_DEC, size, increment, d, n, 0, 0, 0, 0],
        }
    }

    /// "Xn plus the number of Pk's true element", of which there is one after a PNEXT without Z.
    fn position(&self, state: &State) -> u64 {
        let element = last_active_element(&state.read_p(self.k, self.size)).expect("PNEXT set one");
        state.read_x(self.n) + element as u64
    }
}
