//! Predicates that hold a count of elements, in place of a bit for each.
//! The names are Arm's: EncodePredCount, PredCountTest, CounterToPredicate.

use crate::state::{psize, Flags};

/// The encoding of a group of `elements` of which `count` are true: the lowest ones, or the highest if `invert`.
pub fn encode_pred_count(size: u8, elements: usize, count: usize, invert: bool) -> u16 {
    if count == 0 {
        return 0;
    }
    let (inversion, stored) = if invert {
        (1, elements - count)
    } else if count == elements {
        (1, 0)
    } else {
        (0, count)
    };
    let mark = 1 << size; // 1, 10, 100, 1000 for B, H, S, D
    inversion << 15 | (stored as u16) << (size + 1) | mark
}

/// The flags come from the count itself, not from what is stored of it.
pub fn pred_count_test(elements: usize, count: usize, invert: bool) -> Flags {
    let none = count == 0;
    let all = count == elements;
    if invert {
        Flags { n: all, z: none, c: none, v: false }
    } else {
        Flags { n: !none, z: none, c: !all, v: false }
    }
}

/// The predicate bits of four vectors, of `pl` bits each, that a counter stands for.
pub fn counter_to_predicate(counter: u16, pl: usize) -> Vec<bool> {
    let mut bits = vec![false; 4 * pl];
    let Some(size) = marked_size(counter) else {
        return bits;
    };
    let maxbit = highest_set_bit(pl * 4);
    let count = uint(counter, maxbit, u32::from(size) + 1); // pred<maxbit:1> for B to pred<maxbit:4> for D
    let invert = counter >> 15 == 1;
    for e in 0..4 * pl / psize(size) {
        let below = e < count;
        bits[e * psize(size)] = if invert { !below } else { below };
    }
    bits
}

/// "The lowest bit set is the mark and gives the size"; none if the low four bits are zero.
fn marked_size(counter: u16) -> Option<u8> {
    (0..4).find(|&size| (counter >> size) & 1 == 1)
}

/// Arm's HighestSetBit: the position of the highest bit that is 1.
fn highest_set_bit(number: usize) -> u32 {
    number.ilog2()
}

/// Arm's UInt(bits<high:low>).
fn uint(bits: u16, high: u32, low: u32) -> usize {
    usize::from(bits >> low) % (1 << (high - low + 1))
}
