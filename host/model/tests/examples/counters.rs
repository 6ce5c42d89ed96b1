//! Counters that CNTP reads.

use crate::*;

#[test]
fn counters_read() {
    assert_eq!(cntp_counter(S, 0, 0x001c), 3); // what example 7 wrote
    assert_eq!(cntp_counter(S, 0, 0x8004), 8); // example 8: the whole group
    assert_eq!(cntp_counter(S, 0, 0x802c), 3); // example 9: elements 5, 6, 7
    assert_eq!(cntp_counter(S, 1, 0x802c), 11); // and all of the vectors above
    assert_eq!(cntp_counter(B, 0, 0x001c), 3); // an element of S is one bit of a byte mask
    assert_eq!(cntp_counter(D, 0, 0x001c), 2); // elements 0 and 2 of S lie lowest in one of D
    assert_eq!(cntp_counter(B, 1, 0xfff0), 0); // no mark
    assert_eq!(cntp_counter(B, 1, 0x4001), 0); // bit 14 is not of the count
    assert_eq!(cntp_counter(B, 1, 0xc001), 64);
}

/// "At VL 128 with P8 = 0081, CNTP counter .B over four vectors must give 0"; at VL 256 it is what WHILE writes of 64.
#[test]
fn a_counter_read_at_another_length() {
    let mut state = ready();
    state.x[0] = 7;
    put(&mut state, 8, low(0x0081));
    do_step(&mut state, &[6, B, 1, 8, 0]);
    assert_eq!(state.x[0], 0);
    (state.vl, state.x[2]) = (256, 64);
    put(&mut state, 8, low(0));
    do_step(&mut state, &[2, B, 2, 1, 0, 1, 1, 0, 0]); // WHILELT pn8.b, x1, x2, four vectors
    assert_eq!(state.p[8], low(0x0081));
    do_step(&mut state, &[6, B, 1, 8, 0]);
    assert_eq!(state.x[0], 64);
}

/// Each length, with the bit at which a count ends: the highest set one of 4·PL.
const ENDS: [(u64, u32); 5] = [(128, 6), (256, 7), (512, 8), (1024, 9), (2048, 10)];

/// Four vectors have 4E elements, and the bit at the end stands for half of them.
#[test]
fn the_last_bit_of_a_count() {
    for (length, end) in ENDS {
        for size in [B, H, S, D] {
            let four = 4 * length / (8 << size);
            let counter = |bit: u32, inversion: u64| inversion << 15 | 1 << bit | 1 << size;
            assert_eq!(cntp_counter_at(length, size, 1, counter(end, 0)), four / 2);
            assert_eq!(cntp_counter_at(length, size, 1, counter(end, 1)), four - four / 2);
            assert_eq!(cntp_counter_at(length, size, 1, counter(end + 1, 0)), 0);
            assert_eq!(cntp_counter_at(length, size, 1, counter(end + 1, 1)), four);
            let highest = (2 << end) - 1 - ((1 << size) - 1); // every bit from the mark to the end
            assert_eq!(cntp_counter_at(length, size, 1, highest), four - 1);
            assert_eq!(cntp_counter_at(length, size, 1, 1 << 15 | highest), 1);
        }
    }
}

/// CNTP over four vectors at B, H, S and D.
fn at_each_size(length: u64, counter: u64) -> [u64; 4] {
    [B, H, S, D].map(|size| cntp_counter_at(length, size, 1, counter))
}

/// The mark gives the size, whatever the instruction's is; a bit between the end and 15 changes nothing, nor do all.
#[test]
fn bits_past_the_end_of_a_count() {
    for (length, end) in ENDS {
        let all_past = (end + 1..15).map(|bit| 1 << bit).sum::<u64>();
        for junk in (end + 1..15).map(|bit| 1 << bit).chain([all_past]) {
            for (mark, answers) in [(B, [3, 2, 1, 1]), (H, [3, 3, 2, 1]), (S, [3, 3, 3, 2]), (D, [3, 3, 3, 3])] {
                let counter = 3 << (mark + 1) | 1 << mark | junk;
                assert_eq!(at_each_size(length, counter), answers);
                let all = [B, H, S, D].map(|size| 4 * length / (8 << size.max(mark)));
                let flipped = [0, 1, 2, 3].map(|size| all[size] - answers[size]);
                assert_eq!(at_each_size(length, 1 << 15 | counter), flipped);
            }
        }
    }
    assert_eq!(cntp_counter_at(2048, B, 1, 0x0401), 512); // bit 10 counts at VL 2048
    assert_eq!(cntp_counter_at(2048, B, 1, 0x0801), 0); // bit 11 does not
}
