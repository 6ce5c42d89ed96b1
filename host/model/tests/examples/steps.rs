//! Masks; the refusals of a step; foreign words and unsupported forms; a run.

use crate::*;

#[test]
fn masks() {
    let mut state = ready();
    put(&mut state, 0, low(0x8001));
    put(&mut state, 1, low(0x0024));
    do_step(&mut state, &[8, 1, 0]); // PFIRST P0 under P1
    assert_eq!((state.p[0], state.flags), (low(0x8005), nzc(1, 0, 1)));
    do_step(&mut state, &[9, 1, 0]); // PTEST
    assert_eq!(state.flags, nzc(1, 0, 1));
    do_step(&mut state, &[9, 5, 0]); // under an empty mask
    assert_eq!(state.flags, nzc(0, 1, 1));
    do_step(&mut state, &[7, B, 0, 0]); // PNEXT P0 over itself: nothing above the highest
    assert_eq!((state.p[0], state.flags), (low(0), nzc(0, 1, 1)));
    do_step(&mut state, &[5, H, 1, 1, 31]); // CNTP to number 31
    assert_eq!(state.x, [0; 31]);
    do_step(&mut state, &[5, H, 1, 1, 30]);
    assert_eq!(state.x[30], 1); // bit 2 is an H element's lowest, bit 5 is not
}

/// Another highest byte than 25: the ends of the words, its neighbours, and WHILELO p0.s, x1, x2 but for one bit of it.
const FOREIGN: [u32; 12] = [
    0x0000_0000,
    0xffff_ffff,
    0x24ff_ffff,
    0x2600_0000,
    0x24a2_1c20,
    0x27a2_1c20,
    0x21a2_1c20,
    0x2da2_1c20,
    0x35a2_1c20,
    0x05a2_1c20,
    0x65a2_1c20,
    0xa5a2_1c20,
];

/// The first and the last under 25; BRKA p1.b, p1/z, p2.b; PFALSE and WHILELO but for one bit; SEL with S = 1.
const UNSUPPORTED: [u32; 6] = [0x2500_0000, 0x25ff_ffff, 0x2510_4441, 0x2518_e410, 0x25a2_5c20, 0x2543_4650];

/// All of these, with the reply of each.
pub fn none_of_ours() -> impl Iterator<Item = (u32, u8)> {
    FOREIGN.map(|word| (word, 1)).into_iter().chain(UNSUPPORTED.map(|word| (word, 13)))
}

#[test]
fn refusals_of_a_step_in_their_order() {
    let word = 0x25a2_1c20; // WHILELO p0.s, x1, x2: level 1
    let mut state = ready();
    (state.level, state.access) = (0, false);
    put(&mut state, 15, low(0x1_0000));
    assert!(none_of_ours().all(|(word, _)| step(&mut state.clone(), word) == 4));
    assert_eq!(run(&state, &[]).reply, 4);
    put(&mut state, 15, low(0));
    assert!(none_of_ours().all(|(word, reply)| step(&mut state.clone(), word) == reply));
    assert_eq!(step(&mut state, word), 2);
    state.level = 1;
    assert_eq!(step(&mut state, word), 3);
    assert!(none_of_ours().all(|(word, reply)| step(&mut state.clone(), word) == reply));
    state.access = true;
    assert_eq!(step(&mut state, word & !(1 << 10)), 2); // WHILEHS is SVE2
    assert_eq!(step(&mut state, word), 0);
}

/// "Reply 1 now means that bits 31:24 are not 00100101. New reply 13 means that they are, but the form isn't ours."
#[test]
fn foreign_words_and_unsupported_forms() {
    for (word, reply) in none_of_ours() {
        assert_eq!((decode(word), decode_refusal(word)), (None, reply), "{word:08x}");
        let mut state = truth_table();
        assert_eq!(step(&mut state, word), reply, "{word:08x}");
        assert_eq!(state, truth_table());
    }
}

#[test]
fn a_run_stops_at_a_refused_word() {
    let numbers = |ran: Ran| (ran.reply, ran.refused, ran.done);
    let word = 0x25a2_1c20; // WHILELO p0.s, x1, x2: level 1
    let mut state = ready();
    (state.level, state.x[1], state.x[2]) = (1, 10, 13);
    let ran = run(&state, &[word, word & !(1 << 10), word]);
    assert_eq!((ran.state.p[0], ran.state.flags), (low(0x0111), nzc(1, 0, 1)));
    assert_eq!(numbers(ran), (0, 2, 1));
    for (other, reply) in none_of_ours() {
        assert_eq!(numbers(run(&state, &[word, other, word])), (0, reply, 1));
    }
    assert_eq!(numbers(run(&state, &[word, word])), (0, 0, 2));
    assert_eq!(numbers(run(&state, &[])), (0, 0, 0));
    state.vl = 100;
    for words in [[word, 0], [0x2500_0000, word]] {
        let ran = run(&state, &words);
        assert_eq!(ran.state, state);
        assert_eq!(numbers(ran), (4, 0, 0));
    }
}
