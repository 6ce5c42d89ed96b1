//! The counts that a state keeps.

use crate::images::image_of;
use crate::walks::walk_s;
use crate::*;

/// A state with each predicate of another shape, none of them empty, and an FFR that has no counts.
pub fn busy(length: u64) -> State {
    let pl = length as usize / 8;
    let mut state = State { vl: length, ffr: bits(0, pl), flags: truth_table().flags, ..ready() };
    for number in 0..16 {
        state.p[number] = bits(number % 9, pl - number % 5);
    }
    state.counted()
}

/// "Its number of true elements at each of the four sizes", as they are after each instruction that writes a predicate.
#[test]
fn each_write_keeps_the_counts() {
    let mut state = busy(128);
    (state.x[1], state.x[2]) = (10, 13);
    do_step(&mut state, &[0, S, 2, 1, 1, 1, 1, 0, 4]); // WHILELO p4.s, x1, x2
    assert_eq!((state.p[4], state.counts[4]), (low(0x0111), [3, 3, 3, 2]));
    (state.x[1], state.x[2]) = (3, 2);
    do_step(&mut state, &[1, D, 2, 1, 0, 1, 0, 1]); // WHILEHI p0.d and p1.d, x1, x2
    assert_eq!((state.p[0], state.p[1]), (low(0), low(0x0100)));
    assert_eq!((state.counts[0], state.counts[1]), ([0; 4], [1; 4]));
    do_step(&mut state, &[2, S, 2, 0, 0, 1, 31, 1, 0]); // WHILELE pn8.s, xzr, x2: a counter's bits are elements as others
    assert_eq!((state.p[8], state.counts[8]), (low(0x001c), [3, 2, 1, 0]));
    put(&mut state, 5, low(0x0024));
    put(&mut state, 6, low(0));
    do_step(&mut state, &[7, B, 5, 6]); // PNEXT p6.b, p5, p6.b
    assert_eq!((state.p[6], state.counts[6]), (low(0x0004), [1, 1, 0, 0]));
    put(&mut state, 6, low(0x8001));
    do_step(&mut state, &[8, 5, 6]); // PFIRST p6.b, p5, p6.b
    assert_eq!((state.p[6], state.counts[6]), (low(0x8005), [3, 2, 1, 1]));
    do_step(&mut state, &[10, 6]); // PFALSE p6.b
    assert_eq!((state.p[6], state.counts[6]), (low(0), [0; 4]));
    do_step(&mut state, &[11, 0, 0, 4, 4, 0, 4, 0, 7]); // AND p7.b, p4/z, p4.b, p4.b
    assert_eq!((state.p[7], state.counts[7]), (low(0x0111), [3, 3, 3, 2]));
    for (row, number) in [([RDFFR, 9, 0], 9), ([RDFFR_PG, 7, 10], 10), ([RDFFRS_PG, 7, 11], 11)] {
        let (result, counts) = if number == 9 { (0xffff, [16, 8, 4, 2]) } else { (0x0111, [3, 3, 3, 2]) };
        do_step(&mut state, &row);
        assert_eq!((state.p[number], state.counts[number]), (low(result), counts));
    }
}

/// An instruction that writes no predicate leaves the counts; each leaves those of other registers.
#[test]
fn other_counts_stay() {
    for length in LENGTHS {
        let state = busy(length);
        for row in
            [&[4, B, 0, 3, 0][..], &[5, B, 3, 3, 0], &[9, 3, 3], &[SETFFR], &[3, D, 1, 1, 1, 3, 0], &[6, B, 1, 3, 0]]
        {
            let mut stepped = state.clone();
            do_step(&mut stepped, row);
            assert_eq!((stepped.p, stepped.counts), (state.p, state.counts));
        }
        let mut stepped = state.clone();
        do_step(&mut stepped, &[10, 15]); // PFALSE p15.b
        let mut counts = state.counts;
        counts[15] = [0; 4];
        assert_eq!(stepped.counts, counts);
    }
}

/// "INCP, DECP and the saturating forms read them".
#[test]
fn counts_are_what_incp_adds() {
    for length in LENGTHS {
        for (number, size) in (0..16).flat_map(|number| [B, H, S, D].map(|size| (number, size))) {
            let mut state = busy(length);
            let count = u64::from(state.counts[usize::from(number)][usize::from(size)]);
            assert!(count > 0, "none is empty");
            do_step(&mut state, &[4, size, 0, number, 7]); // INCP
            assert_eq!(state.x[7], count);
            do_step(&mut state, &[4, size, 1, number, 6]); // DECP
            assert_eq!(state.x[6], count.wrapping_neg());
            do_step(&mut state, &[3, size, 1, 1, 1, number, 7]); // UQDECP
            do_step(&mut state, &[5, size, number, number, 5]); // CNTP under its own mask
            assert_eq!((state.x[7], state.x[5]), (0, count));
        }
    }
}

/// "A state handed in with a wrong count is refused with 4", by one count of one register at one size; nothing is changed.
#[test]
fn a_wrong_count_is_refused() {
    for (length, number, size) in
        LENGTHS.into_iter().flat_map(|length| (0..64).map(move |count| (length, count / 4, count % 4)))
    {
        let right = busy(length);
        let count = right.counts[number][size];
        assert_eq!(run(&right, &[]).reply, 0);
        for wrong in [count + 1, count - 1, 0, u16::MAX, count ^ 1 << 8] {
            let mut state = right.clone();
            state.counts[number][size] = wrong;
            let given = state.clone();
            assert_eq!((step(&mut state, 0x2518_e400), step(&mut state, 0)), (4, 4));
            assert_eq!(state, given);
            for words in [&[][..], &[0x2518_e400]] {
                let ran = run(&state, words);
                assert_eq!((ran.reply, ran.refused, ran.done, ran.state), (4, 0, 0, given.clone()));
            }
            let mut list = [7; 3];
            let walked = walk(&state, 0, 1, 2, 3, 4, &mut list, 9);
            assert_eq!((walked.reply, walked.count, walked.visited, walked.state), (4, 0, 0, given.clone()));
            let mut image = [7; 1000];
            let written = write(&state, &[], &mut image);
            assert_eq!((written.reply, written.length, image, list), (4, 0, [7; 1000], [7; 3]));
            assert_eq!(given.counted(), right);
        }
    }
}

/// Of the bits at or above PL none counts, whatever the length is; there are vl / 8 / psize elements, rounded down.
#[test]
fn counts_at_any_length() {
    let at = |vl: u64, predicate: [u64; 4]| {
        let mut state = State { vl, level: 9, ffr: [5; 4], counts: [[7; 4]; 16], ..truth_table() };
        state.p = [predicate; 16];
        let counted = state.counted();
        let counts = counted.counts[0];
        assert_eq!(counted, State { counts: [counts; 16], ..state });
        counts
    };
    let full = [u64::MAX; 4];
    for vl in [0, 1, 7] {
        assert_eq!(at(vl, full), [0; 4]);
    }
    assert_eq!(at(8, full), [1, 0, 0, 0]);
    assert_eq!((at(127, full), at(128, full)), ([15, 7, 3, 1], [16, 8, 4, 2]));
    assert_eq!((at(129, full), at(192, full)), ([16, 8, 4, 2], [24, 12, 6, 3]));
    for vl in [2048, 2049, 4096, 1 << 63, u64::MAX] {
        assert_eq!(at(vl, full), [256, 128, 64, 32]);
        assert_eq!(at(vl, [0, 0, 0, 1 << 63]), [1, 0, 0, 0]);
        assert_eq!(at(vl, [0, 0, 1 << 8, 1 << 62]), [2, 2, 1, 1]);
    }
    assert_eq!((at(512, [0, 1, 0, 0]), at(520, [0, 1, 0, 0])), ([0; 4], [1, 0, 0, 0]));
    // bit 64
}

/// "A walk, finished or spent" leaves right counts, whatever instruction was its last.
#[test]
fn a_walk_keeps_the_counts() {
    for (length, budget) in LENGTHS.into_iter().flat_map(|length| (0..40).map(move |budget| (length, budget))) {
        let mut state = busy(length);
        (state.x[1], state.x[2]) = (100, 120);
        let walked = walk(&state, 3, 1, 2, 4, 5, &mut [0; 20], budget);
        assert!(matches!(walked.reply, 0 | 12));
        assert_eq!(walked.state, walked.state.counted());
    }
    let (walked, _) = walk_s(10, 13, 4); // PFALSE, WHILELO, PNEXT, PNEXT
    assert_eq!((walked.state.counts[3], walked.state.counts[4]), ([3, 3, 3, 2], [1, 1, 1, 0]));
}

/// "The image doesn't carry them; the reader works them out."
#[test]
fn an_image_has_no_counts() {
    for length in LENGTHS {
        let state = busy(length);
        let image = image_of(&state, &[1, 2, 3]);
        assert_eq!(image.len(), 279 + length as usize / 4 + length as usize / 64 + 12);
        let reading = read(&image, &mut [0; 3]);
        assert_eq!((reading.reply, reading.state), (0, state));
        assert_eq!(read(&image[1..], &mut [0; 3]).state.counts, [[0; 4]; 16]);
    }
}
