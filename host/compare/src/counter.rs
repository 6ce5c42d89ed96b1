//! Where the count of a counter ends, and what CNTP would answer if it ended elsewhere: what a wrong end is noticed by.

use model::{Row, State};

/// The bit below the inversion: a count that ended there would take in every bit above its mark.
pub const BELOW_INVERSION: u32 = 14;

/// The bit at which a count ends: the highest set one of 4·PL.
pub fn last_bit(vl: u64) -> u32 {
    (4 * vl / 8).ilog2()
}

/// G, the elements of a group: 2E (vl = 0) or 4E.
pub fn group(length: u64, size: u8, vl: u8) -> u64 {
    (2 << vl) * length / (8 << size)
}

/// A CNTP of a counter: the vector length, the counter, and the instruction's size and vl.
#[derive(Clone, Copy)]
pub struct Reading {
    pub length: u64,
    pub counter: u16,
    pub size: u8,
    pub vl: u8,
}

impl Reading {
    /// That of a row of CNTP counter, executed on this state.
    pub fn of(state: &State, row: &Row) -> Reading {
        let [_, size, vl, pnn, ..] = *row;
        Reading { length: state.vl, counter: state.p[usize::from(pnn)][0] as u16, size, vl }
    }

    /// The size by the mark; none if there is no mark.
    pub fn mark(&self) -> Option<u8> {
        (self.counter & 15 != 0).then(|| self.counter.trailing_zeros() as u8)
    }

    pub fn is_inverted(&self) -> bool {
        self.counter >> 15 == 1
    }

    /// The elements that the instruction looks at.
    pub fn group(&self) -> u64 {
        group(self.length, self.size, self.vl)
    }

    /// What CNTP answers if the count ends at a bit.
    pub fn answer(&self, last: u32) -> u64 {
        let Some(mark) = self.mark() else { return 0 };
        let count = (u64::from(self.counter) % (2 << last)) >> (mark + 1);
        // the predicate bits that are the lowest of an element at both sizes lie so far apart
        let apart = 1 << mark.max(self.size);
        let both = (self.group() << self.size) / apart;
        let below = (count << mark).div_ceil(apart).min(both);
        if self.is_inverted() {
            both - below
        } else {
            below
        }
    }

    /// What CNTP answers.
    pub fn right_answer(&self) -> u64 {
        self.answer(last_bit(self.length))
    }

    /// Whether a count of every bit up to 14 would give another answer.
    pub fn has_junk_that_matters(&self) -> bool {
        self.answer(BELOW_INVERSION) != self.right_answer()
    }
}
