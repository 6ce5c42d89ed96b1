//! Register states: legal ones with values that matter, and illegal ones.

use crate::counter::last_bit;
use crate::random::Random;
use model::{Flags, State};

pub const LENGTHS: [u64; 5] = [128, 256, 512, 1024, 2048];

/// The values around which operands change their meaning.
const EDGES: [u64; 10] =
    [0, 1, 255, 1 << 15, 1 << 31, 1 << 32, 0xFFFF_FFFF_8000_0000, 0xFFFF_FFFF_0000_0000, 1 << 63, u64::MAX];

/// None of the five lengths; the later ones are some of the five with a bit far above.
pub const BAD_LENGTHS: [u64; 16] =
    [0, 1, 16, 64, 127, 129, 192, 255, 384, 640, 1920, 2049, 4096, u64::MAX, (1 << 32) + 128, (1 << 63) + 2048];

/// Mostly legal, of level 3, with access.
pub fn any(random: &mut Random) -> State {
    let vl = random.pick(&LENGTHS);
    let mut state = legal(random, vl);
    if random.one_in(16) {
        spoil(random, &mut state);
    }
    state
}

/// A legal state of this length.
pub fn legal(random: &mut Random, vl: u64) -> State {
    let mut state = State::zero();
    state.vl = vl;
    state.level = if random.one_in(4) { random.below(4) as u8 } else { 3 };
    state.access = !random.one_in(16);
    state.flags = flags(random);
    let centre = if random.one_in(3) { random.next() } else { random.pick(&EDGES) };
    for x in &mut state.x {
        *x = operand(random, centre);
    }
    for number in 0..16 {
        put(&mut state, number, predicate(random, vl));
    }
    state.ffr = if random.one_in(4) { run(random.below(vl / 8 + 1)) } else { predicate(random, vl) };
    state
}

/// Any flags.
pub fn flags(random: &mut Random) -> Flags {
    let bits = random.next();
    Flags { n: bits & 1 != 0, z: bits & 2 != 0, c: bits & 4 != 0, v: bits & 8 != 0 }
}

/// Writes a predicate, with its counts. Cases write predicates by this alone, since a state with a wrong count is refused.
pub fn put(state: &mut State, number: u8, predicate: [u64; 4]) {
    state.p[usize::from(number)] = predicate;
    state.counts[usize::from(number)] = counts_of(state.vl, &predicate);
}

/// The state with its counts worked out.
pub fn recounted(state: &State) -> State {
    State { counts: state.p.map(|predicate| counts_of(state.vl, &predicate)), ..state.clone() }
}

/// A predicate's counts at B, H, S and D, by whole words, at any length: of the bits of whole elements, those that are the
/// lowest of one.
pub fn counts_of(vl: u64, predicate: &[u64; 4]) -> [u16; 4] {
    [0, 1, 2, 3].map(|size| {
        let bits = (vl / (8 << size)) << size;
        let lowest = predicate.map(|word| word & elements_of_size(size));
        cut(lowest, 8 * bits).iter().map(|word| word.count_ones() as u16).sum()
    })
}

/// Makes a state illegal in one way; a stray bit needs a length below the largest.
pub fn spoil(random: &mut Random, state: &mut State) {
    match random.below(4) {
        0 => {
            state.vl = random.pick(&BAD_LENGTHS);
            *state = recounted(state);
        }
        1 => state.level = random.pick(&[4, 5, 7, 128, 131, 255]),
        2 => stray_bit(random, state),
        _ => wrong_count(random, state),
    }
}

/// Makes one count wrong, often by one.
fn wrong_count(random: &mut Random, state: &mut State) {
    let count = &mut state.counts[random.index(16)][random.index(4)];
    *count = match random.below(4) {
        0 => count.wrapping_add(1),
        1 => count.wrapping_sub(1),
        2 => !*count,
        _ => *count ^ 1 << random.below(16),
    };
}

/// Sets a bit at or above PL of one predicate or, more often, of FFR: often the first such bit, or the last.
fn stray_bit(random: &mut Random, state: &mut State) {
    let pl = state.vl as usize / 8;
    if pl >= 256 {
        state.level = 4;
        return;
    }
    let bit = match random.below(3) {
        0 => pl,
        1 => 255,
        _ => pl + random.index(256 - pl),
    };
    let register = match random.index(20) {
        number if number < 16 => &mut state.p[number],
        _ => &mut state.ffr,
    };
    register[bit / 64] |= 1 << (bit % 64);
}

/// A way of being illegal: a length that is none of the five, a level above 3, a bit of a predicate or of FFR at or above PL,
/// a wrong count.
#[derive(Clone, Copy, PartialEq, Eq, Debug)]
pub enum Fault {
    Length,
    Level,
    Predicate,
    Ffr,
    Count,
}

/// All ways in which a state is illegal.
pub fn faults(state: &State) -> Vec<Fault> {
    let within = |predicate: &[u64; 4]| *predicate == cut(*predicate, state.vl);
    let faults = [
        (!LENGTHS.contains(&state.vl), Fault::Length),
        (state.level > 3, Fault::Level),
        (!state.p.iter().all(within), Fault::Predicate),
        (!within(&state.ffr), Fault::Ffr),
        (state.counts != recounted(state).counts, Fault::Count),
    ];
    faults.into_iter().filter(|(holds, _)| *holds).map(|(_, fault)| fault).collect()
}

/// Whether a state is illegal in this way, and in no other.
pub fn is_illegal_by(state: &State, fault: Fault) -> bool {
    faults(state) == [fault]
}

/// Values near each other, so that counts vary; near the edges; small; with other high words; or anything.
fn operand(random: &mut Random, centre: u64) -> u64 {
    match random.below(8) {
        0 => random.next(),
        1 => {
            let edge = random.pick(&EDGES);
            random.near(edge, 2)
        }
        2 => random.below(600),
        3 => random.near(centre, 600),
        4 => random.near(centre, 60),
        5 => random.near(centre, 4),
        6 => random.next() << 32 | u64::from(random.near(centre, 40) as u32),
        _ => random.near(centre, 40) as i32 as u64,
    }
}

fn predicate(random: &mut Random, vl: u64) -> [u64; 4] {
    let dense = [random.next(), random.next(), random.next(), random.next()];
    let elements = elements_of_size(random.below(4));
    let words = match random.below(10) {
        0 => [0; 4],
        1 => [u64::MAX; 4],
        2 => dense,
        3 => dense.map(|word| word & elements),
        4 => dense.map(|word| word | elements),
        5 => dense.map(|word| word & !elements), // only bits that are ignored at that size
        6 => [elements; 4],
        7 => few_bits(random, vl),
        8 => [counter(random, vl), 0, 0, 0],
        _ => [dense[0] & !0xFFFF | counter(random, vl), dense[1], dense[2], dense[3]],
    };
    cut(words, vl)
}

/// What a predicate looks like.
#[derive(Clone, Copy, PartialEq, Eq, Debug)]
pub enum Shape {
    Empty,
    Full,
    Dense,
    FewBits,
    /// Bits that are the lowest of an element wider than a byte: all of them, or any.
    Elements,
}

pub const SHAPES: [Shape; 5] = [Shape::Empty, Shape::Full, Shape::Dense, Shape::FewBits, Shape::Elements];

/// The predicate with every bit below PL set.
pub fn full(vl: u64) -> [u64; 4] {
    run(vl / 8)
}

/// A run of ones from bit 0.
pub fn run(length: u64) -> [u64; 4] {
    cut([u64::MAX; 4], 8 * length)
}

/// Whether a predicate is a run of ones from bit 0: it has as many as the run of that length.
pub fn is_run(predicate: &[u64; 4]) -> bool {
    *predicate == run(predicate.iter().map(|word| u64::from(word.count_ones())).sum())
}

/// A run of ones from bit 0, half the time with one bit changed: mostly a hole, or a bit above it.
pub fn near_run(random: &mut Random, vl: u64) -> [u64; 4] {
    let mut predicate = run(random.below(vl / 8 + 1));
    if random.one_in(2) {
        flip(&mut predicate, random.index(vl as usize / 8));
    }
    predicate
}

/// Changes a bit.
pub fn flip(predicate: &mut [u64; 4], bit: usize) {
    predicate[bit / 64] ^= 1 << (bit % 64);
}

/// A predicate of a shape.
pub fn shaped(random: &mut Random, vl: u64, shape: Shape) -> [u64; 4] {
    let dense = [(); 4].map(|()| random.next());
    let elements = elements_of_size(1 + random.below(3));
    let words = match shape {
        Shape::Empty => [0; 4],
        Shape::Full => full(vl),
        Shape::Dense => dense,
        Shape::FewBits => few_bits(random, vl),
        Shape::Elements if random.one_in(2) => [elements; 4],
        Shape::Elements => dense.map(|word| word & elements),
    };
    cut(words, vl)
}

/// A predicate with these elements active and no others. Of the bits that are ignored at that size, each word has any or none.
pub fn with_elements(random: &mut Random, vl: u64, size: u8, active: &[u64]) -> [u64; 4] {
    let ignored = !elements_of_size(u64::from(size));
    let mut words = [(); 4].map(|()| if random.one_in(4) { 0 } else { random.next() & ignored });
    for element in active {
        let bit = (element << size) as usize;
        words[bit / 64] |= 1 << (bit % 64);
    }
    cut(words, vl)
}

/// The lowest bits of the elements of a size.
pub fn elements_of_size(size: u64) -> u64 {
    [u64::MAX, 0x5555_5555_5555_5555, 0x1111_1111_1111_1111, 0x0101_0101_0101_0101][size as usize]
}

fn few_bits(random: &mut Random, vl: u64) -> [u64; 4] {
    let mut words = [0; 4];
    for _ in 0..1 + random.below(4) {
        let bit = random.index(vl as usize / 8);
        words[bit / 64] |= 1 << (bit % 64);
    }
    words
}

/// Sixteen bits: a count that fits the group or one around its end, half of these with bits past the last of a count;
/// or anything.
pub fn counter(random: &mut Random, vl: u64) -> u64 {
    if random.one_in(4) {
        return random.below(1 << 16);
    }
    let size = random.below(4);
    let group = 4 * vl / (8 << size);
    let count = if random.one_in(4) { random.near(group, 2) } else { random.below(group + 1) };
    let past = last_bit(vl) + 1;
    let junk = if random.one_in(2) { random.next() >> past << past } else { 0 };
    random.below(2) << 15 | (junk | count << (size + 1) | 1 << size) & 0x7FFF
}

/// Clears the bits at or above PL.
fn cut(words: [u64; 4], vl: u64) -> [u64; 4] {
    let pl = vl / 8;
    let mut cut = [0; 4];
    for (i, word) in words.into_iter().enumerate() {
        let kept = pl.saturating_sub(64 * i as u64).min(64);
        cut[i] = if kept == 64 { word } else { word & ((1 << kept) - 1) };
    }
    cut
}

#[cfg(test)]
mod tests {
    use super::*;

    /// Counted by words as by elements, at every length up to past the longest and at the bad ones.
    #[test]
    fn counts_by_words() {
        for vl in (0..2100).chain(BAD_LENGTHS) {
            let random = &mut Random::new(1, 0, vl);
            let mut state = State::zero();
            state.vl = vl;
            state.p = [(); 16].map(|()| [(); 4].map(|()| random.next() | random.next()));
            state.p[3] = [u64::MAX; 4];
            assert_eq!(recounted(&state), state.counted(), "{vl}");
        }
    }

    /// A spoiled state has one fault, but for bits that another length has no room for; each fault is come to alone.
    #[test]
    fn spoiled_in_each_way() {
        let mut alone = Vec::new();
        for number in 0..2_000 {
            let random = &mut Random::new(1, 0, number);
            let vl = random.pick(&LENGTHS);
            let mut state = legal(random, vl);
            assert_eq!(faults(&state), []);
            spoil(random, &mut state);
            match faults(&state)[..] {
                [fault] if !alone.contains(&fault) => alone.push(fault),
                [_] | [Fault::Length, ..] => {}
                ref others => panic!("{others:?}"),
            }
        }
        assert_eq!(alone.len(), 5, "{alone:?}");
    }
}
