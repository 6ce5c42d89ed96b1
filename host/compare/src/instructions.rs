//! Instruction words: of every form, near misses, and any numbers.

use crate::random::Random;
use crate::states;
pub use model::forms::*;
use model::{encode, Row, State};

pub const FORMS: [&str; 17] = [
    "WHILE one",
    "WHILE pair",
    "WHILE counter",
    "SQ/UQ INCP/DECP",
    "INCP/DECP",
    "CNTP",
    "CNTP counter",
    "PNEXT",
    "PFIRST",
    "PTEST",
    "PFALSE",
    "predicate logic",
    "SETFFR",
    "WRFFR",
    "RDFFR",
    "RDFFR under Pg",
    "RDFFRS under Pg",
];

/// The names of each form's fields, from the highest bit of the word down.
pub const FIELDS: [&[&str]; FORMS.len()] = [
    &["size", "Rm", "sf", "U", "lt", "Rn", "eq", "Pd"],
    &["size", "Rm", "U", "lt", "Rn", "Pd", "eq"],
    &["size", "Rm", "vl", "U", "lt", "Rn", "eq", "PNd"],
    &["size", "D", "U", "sf", "Pm", "Rdn"],
    &["size", "D", "Pm", "Rdn"],
    &["size", "Pg", "Pn", "Rd"],
    &["size", "vl", "PNn", "Rd"],
    &["size", "Pv", "Pdn"],
    &["Pg", "Pdn"],
    &["Pg", "Pn"],
    &["Pd"],
    &["op", "S", "Pm", "Pg", "o2", "Pn", "o3", "Pd"],
    &[],
    &["Pn"],
    &["Pd"],
    &["Pg", "Pd"],
    &["Pg", "Pd"],
];

/// The widths of each form's fields.
pub const WIDTHS: [&[u8]; FORMS.len()] = [
    &[2, 5, 1, 1, 1, 5, 1, 4],
    &[2, 5, 1, 1, 5, 3, 1],
    &[2, 5, 1, 1, 1, 5, 1, 3],
    &[2, 1, 1, 1, 4, 5],
    &[2, 1, 4, 5],
    &[2, 4, 4, 5],
    &[2, 1, 4, 5],
    &[2, 4, 4],
    &[4, 4],
    &[4, 4],
    &[4],
    &[1, 1, 4, 4, 1, 4, 1, 4],
    &[],
    &[4],
    &[4],
    &[4, 4],
    &[4, 4],
];

/// The word of one of FFR's forms, or of another with as few fields.
pub fn short_word(form: u8, fields: &[u8]) -> u32 {
    let mut row = [0; 9];
    row[0] = form;
    row[1..=fields.len()].copy_from_slice(fields);
    encode(&row).expect("its fields are in range")
}

/// The highest byte of our words.
pub const HIGHEST: u32 = 0x25;

/// Whether a word has another highest byte than ours: exactly these are refused with 1.
pub fn is_foreign(word: u32) -> bool {
    word >> 24 != HIGHEST
}

/// What a form leaves out: of predicate logic, SEL with S = 1. No other leaves anything out.
pub fn is_left_out(row: &Row) -> bool {
    matches!(*row, [LOGIC, 0, 1, _, _, 1, _, 1, _])
}

/// The bits of a row of predicate logic, also of one that is left out.
pub fn logic_word(row: &Row) -> u32 {
    let lowest_bits = [23, 22, 16, 10, 9, 5, 4, 0];
    row[1..].iter().zip(lowest_bits).fold(0x2500_4000, |word, (&field, low)| word | u32::from(field) << low)
}

/// Whether a word has the bits of a row that is left out, with any registers.
pub fn is_left_out_word(word: u32) -> bool {
    let [none, all] = [0, 15].map(|p| logic_word(&[LOGIC, 0, 1, p, p, 1, p, 1, p]));
    word & !(none ^ all) == none
}

/// The lowest level at which a word of ours is not refused with 2.
pub fn level_of(word: u32) -> u8 {
    let at = |level: u8| model::step(&mut State { level, access: true, ..State::zero() }, word);
    (0..=3).find(|&level| at(level) != 2).expect("no form asks more than 3")
}

/// A row that the form has: every field in range, often with the same register twice, or X31.
pub fn row(random: &mut Random, form: usize) -> Row {
    let widths = WIDTHS[form];
    let mut row = [0; 9];
    row[0] = form as u8;
    for (i, &width) in widths.iter().enumerate() {
        row[1 + i] = random.below(1 << width) as u8;
    }
    if widths.is_empty() {
        return row;
    }
    let (i, j) = (random.index(widths.len()), random.index(widths.len()));
    if widths[i] >= 4 && widths[j] == widths[i] {
        row[1 + i] = row[1 + j];
    }
    if widths[i] == 5 && random.one_in(4) {
        row[1 + i] = 31;
    }
    if is_left_out(&row) {
        row[2] = 0; // S
    }
    row
}

/// A word of the form.
pub fn word_of(random: &mut Random, form: usize) -> u32 {
    let row = row(random, form);
    encode(&row).unwrap_or_else(|| panic!("the second program refuses to write {row:?}"))
}

/// The forms that write predicates.
pub const WRITERS: [u8; 10] =
    [WHILE_ONE, WHILE_PAIR, WHILE_COUNTER, PNEXT, PFIRST, PFALSE, LOGIC, RDFFR, RDFFR_PG, RDFFRS_PG];

/// The predicate registers that a word writes.
pub fn written(row: &Row) -> Vec<u8> {
    match *row {
        [WHILE_PAIR, _, _, _, _, _, pd, ..] => vec![2 * pd, 2 * pd + 1],
        [WHILE_COUNTER, .., pnd] => vec![8 + pnd],
        [WHILE_ONE | LOGIC, .., pd] => vec![pd],
        [PNEXT, _, _, pd, ..] => vec![pd],
        [PFIRST | RDFFR_PG | RDFFRS_PG, _, pd, ..] => vec![pd],
        [PFALSE | RDFFR, pd, ..] => vec![pd],
        _ => Vec::new(),
    }
}

/// A word that writes, and for each register that it writes and each size one that goes by the count.
pub fn link(random: &mut Random, writer: u8) -> Vec<u32> {
    let row = row(random, usize::from(writer));
    let mut words = vec![encode(&row).expect("its fields are in range")];
    for pm in written(&row) {
        words.extend([0, 1, 2, 3].map(|size| by_count(random, size, pm)));
    }
    words
}

/// INCP, DECP or a saturating form.
pub fn by_count(random: &mut Random, size: u8, pm: u8) -> u32 {
    let [d, u, sf] = [(); 3].map(|()| random.below(2) as u8);
    let rdn = random.below(32) as u8;
    let row = match random.one_in(2) {
        true => [INC_DEC, size, d, pm, rdn, 0, 0, 0, 0],
        false => [SATURATING, size, d, u, sf, pm, rdn, 0, 0],
    };
    encode(&row).expect("its fields are in range")
}

/// A word of any form.
pub fn accepted(random: &mut Random) -> u32 {
    let form = random.index(FORMS.len());
    word_of(random, form)
}

/// So many words that are all executed, at level 3 with access.
pub fn executed(random: &mut Random, count: usize) -> Vec<u32> {
    let mut words: Vec<u32> = (0..count).map(|_| accepted(random)).collect();
    prepare_writes(random, &mut words);
    if let Some([WRFFR, ..]) = words.first().and_then(|&word| model::decode(word)) {
        words[0] = short_word(SETFFR, &[]);
    }
    words
}

/// Puts before each WRFFR but the first word, in the place of another, a WHILE that leaves a run of ones in its Pn: one of
/// bytes, counting up.
pub fn prepare_writes(random: &mut Random, words: &mut [u32]) {
    for i in (1..words.len()).rev() {
        if let Some([WRFFR, pn, ..]) = model::decode(words[i]) {
            words[i - 1] = while_of_bytes(random, pn);
        }
    }
}

fn while_of_bytes(random: &mut Random, pd: u8) -> u32 {
    let mut row = row(random, 0);
    (row[1], row[5], row[8]) = (0, 1, pd); // size, lt, Pd
    encode(&row).expect("its fields are in range")
}

/// A WHILEHS of halfwords that holds for all, and a WRFFR of what it leaves, which is every other bit.
pub fn refused_wrffr(random: &mut Random) -> [u32; 2] {
    let p = random.below(16) as u8;
    let whilehs = encode(&[0, 1, 31, 1, 1, 0, 31, 0, p]).expect("its fields are in range"); // xzr, xzr
    [whilehs, short_word(WRFFR, &[p])]
}

/// A word that is mostly refused: a near miss, one of 25xxxxxx, one that its form leaves out, or anything.
pub fn doubtful(random: &mut Random) -> u32 {
    match random.below(4) {
        0 => accepted(random) ^ 1 << random.below(32),
        1 => 0x2500_0000 | random.below(1 << 24) as u32,
        2 => left_out(random),
        _ => random.next() as u32,
    }
}

/// A word with another highest byte, which is else a word of ours.
pub fn foreign(random: &mut Random) -> u32 {
    accepted(random) ^ (1 + random.below(255) as u32) << 24
}

/// A word 25xxxxxx of no form.
pub fn unsupported(random: &mut Random) -> u32 {
    loop {
        let word = HIGHEST << 24 | random.below(1 << 24) as u32;
        if model::decode(word).is_none() && !is_left_out_word(word) {
            return word;
        }
    }
}

/// A word of predicate logic that is left out.
pub fn left_out(random: &mut Random) -> u32 {
    let [pm, pg, pn, pd] = [(); 4].map(|()| random.below(16) as u8);
    logic_word(&[LOGIC, 0, 1, pm, pg, 1, pn, 1, pd])
}

pub fn any(random: &mut Random) -> u32 {
    if random.one_in(5) {
        doubtful(random)
    } else {
        accepted(random)
    }
}

/// Often sets a register that the word reads, so that its operands lie as far apart as there are elements or lie around
/// the ends of its range, or so that it is a counter, or a run of ones or nearly one for WRFFR. The state is legal.
pub fn tie(random: &mut Random, state: &mut State, word: u32) {
    if random.one_in(3) {
        return;
    }
    let vl = state.vl;
    let elements = |size: u8| vl / (8 << size);
    match model::decode(word) {
        Some([0, size, rm, sf, _, lt, rn, ..]) => {
            tie_limit(random, state, elements(size), rn, rm, lt);
            if sf == 0 {
                other_high_word(random, state, rm);
            }
        }
        Some([1, size, rm, _, lt, rn, ..]) => tie_limit(random, state, 2 * elements(size), rn, rm, lt),
        Some([2, size, rm, vl, _, lt, rn, ..]) => tie_limit(random, state, elements(size) << (1 + vl), rn, rm, lt),
        Some([3, size, _, u, sf, _, rdn, ..]) => tie_end(random, state, elements(size), u, sf, rdn),
        Some([CNTP_COUNTER, _, _, pnn, ..]) => {
            let mut predicate = state.p[usize::from(pnn)];
            predicate[0] = predicate[0] & !0xFFFF | states::counter(random, vl);
            states::put(state, pnn, predicate);
        }
        Some([WRFFR, pn, ..]) => states::put(state, pn, states::near_run(random, vl)),
        _ => {}
    }
}

/// Sets Xm in the direction in which Xn goes, at most a little farther than the elements reach.
fn tie_limit(random: &mut Random, state: &mut State, elements: u64, n: u8, m: u8, lt: u8) {
    let start = state.x.get(usize::from(n)).copied().unwrap_or(0);
    let distance = random.below(elements + 3).wrapping_sub(1);
    let Some(limit) = state.x.get_mut(usize::from(m)) else { return };
    *limit = if lt == 1 { start.wrapping_add(distance) } else { start.wrapping_sub(distance) };
}

/// Half the time gives Xm any high word.
fn other_high_word(random: &mut Random, state: &mut State, m: u8) {
    let high = if random.one_in(2) { random.next() << 32 } else { 0 };
    if let Some(x) = state.x.get_mut(usize::from(m)) {
        *x ^= high;
    }
}

/// Sets Xdn near an end of the numbers of its width; a low word gets any high word.
fn tie_end(random: &mut Random, state: &mut State, elements: u64, u: u8, sf: u8, dn: u8) {
    let near = |random: &mut Random, end| random.near(end, elements / 2 + 1);
    let value = match (sf, u) {
        (1, 0) => near(random, 1 << 63),
        (1, _) => near(random, 0),
        (_, 0) => random.next() << 32 | u64::from(near(random, 1 << 31) as u32),
        _ => random.next() << 32 | u64::from(near(random, 0) as u32),
    };
    if let Some(x) = state.x.get_mut(usize::from(dn)) {
        *x = value;
    }
}
