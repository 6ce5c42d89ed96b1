//! The first-fault register.

use crate::*;

/// WRFFR of P7 that holds this, at a length: the reply and the state after it.
fn wrffr(length: u64, predicate: [u64; 4]) -> (u8, State) {
    let mut state = State { vl: length, flags: truth_table().flags, ffr: bits(3, 9), ..ready() };
    put(&mut state, 7, predicate);
    let reply = step(&mut state, 0x2528_9000 + 7 * 32);
    (reply, state)
}

/// "All true": each of the PL bits, and none above.
#[test]
fn setffr_at_each_length() {
    for length in LENGTHS {
        let mut state = State { vl: length, flags: truth_table().flags, ..ready() };
        let expected = State { ffr: bits(0, length as usize / 8), ..state.clone() };
        do_step(&mut state, &[SETFFR]);
        assert_eq!(state, expected);
    }
}

/// "A run of ones from bit 0 (an empty or full one counts)"; anything else is refused with 14, and changes nothing.
#[test]
fn wrffr_takes_a_run_of_ones() {
    for length in LENGTHS {
        let pl = length as usize / 8;
        for end in 0..=pl {
            let (reply, state) = wrffr(length, bits(0, end));
            let mut expected = State { vl: length, flags: truth_table().flags, ffr: bits(0, end), ..ready() };
            put(&mut expected, 7, bits(0, end));
            assert_eq!((reply, state), (0, expected));
        }
        for end in 2..=pl {
            for start in 1..end {
                let (reply, state) = wrffr(length, bits(start, end)); // bit 0 among those that are false
                assert_eq!((reply, state.ffr, state.flags), (14, bits(3, 9), truth_table().flags));
                let hole = [0, 1, 2, 3].map(|i| bits(0, end)[i] & !bits(start - 1, start)[i]);
                let (reply, state) = wrffr(length, hole);
                assert_eq!((reply, state.p[7]), (14, hole));
            }
        }
    }
}

/// FFR may hold anything; without Pg all of it is read, under Pg what is in both; flags stay.
#[test]
fn rdffr_with_and_without_a_mask() {
    let mut state = State { ffr: low(0x3c), ..truth_table() };
    let mut expected = state.clone();
    do_step(&mut state, &[RDFFR, 9]);
    put(&mut expected, 9, low(0x3c));
    assert_eq!(state, expected);
    do_step(&mut state, &[RDFFR_PG, 1, 8]); // P1 is F0
    put(&mut expected, 8, low(0x30));
    assert_eq!(state, expected);
    do_step(&mut state, &[RDFFR_PG, 1, 1]);
    put(&mut expected, 1, low(0x30));
    assert_eq!(state, expected);
}

/// "Flags by PredTest(Pg, result) over bytes": by Pg as it was, neither by all bytes nor by what Pd holds then.
#[test]
fn rdffrs_sets_flags() {
    let flags = |mask: u64, ffr: u64| {
        let [other, same] = [2, 1].map(|pd| {
            let mut state = State { ffr: low(ffr), ..truth_table() };
            put(&mut state, 1, low(mask));
            do_step(&mut state, &[RDFFRS_PG, 1, pd]);
            assert_eq!((state.p[usize::from(pd)], state.ffr), (low(mask & ffr), low(ffr)));
            state.flags
        });
        assert_eq!(other, same);
        other
    };
    assert_eq!(flags(0xf0, 0x3c), nzc(1, 0, 1)); // lanes 4 and 5 of 4 to 7
    assert_eq!(flags(0xf0, 0xc3), nzc(0, 0, 0)); // 6 and 7
    assert_eq!(flags(0xf0, 0xff), nzc(1, 0, 0));
    assert_eq!(flags(0xf0, 0x0f), nzc(0, 1, 1));
    assert_eq!(flags(0, 0xffff), nzc(0, 1, 1)); // an empty mask
}

/// "Level 1"; 14 comes "after 3"; "reply 4 covers its bits at or above PL".
#[test]
fn refusals_of_the_words_of_ffr() {
    let words = [0x252c_9000, 0x2528_90e0, 0x2519_f000, 0x2518_f000, 0x2558_f000]; // the second is WRFFR p7.b
    let mut state = ready();
    put(&mut state, 7, low(0b101));
    assert_eq!(words.map(|word| step(&mut state.clone(), word)), [0, 14, 0, 0, 0]);
    assert_eq!(words.map(|word| step(&mut State { level: 1, ..state.clone() }, word)), [0, 14, 0, 0, 0]);
    assert_eq!(words.map(|word| step(&mut State { access: false, ..state.clone() }, word)), [3; 5]);
    assert_eq!(words.map(|word| step(&mut State { level: 0, access: false, ..state.clone() }, word)), [2; 5]);
    let ran = run(&state, &words);
    assert_eq!((ran.reply, ran.refused, ran.done, ran.state.ffr), (0, 14, 1, low(0xffff)));
    state.ffr = low(0x1_0000);
    assert_eq!(words.map(|word| step(&mut state.clone(), word)), [4; 5]);
    assert_eq!(run(&state, &[]).reply, 4);
    assert_eq!(walk(&state, 0, 1, 2, 3, 4, &mut [], 9).reply, 4);
    assert_eq!(write(&state, &[], &mut []).reply, 4);
    state.vl = 256;
    assert_eq!(words.map(|word| step(&mut state.clone(), word)), [0, 14, 0, 0, 0]);
}

/// No other word touches FFR, nor does the walk.
#[test]
fn ffr_stays() {
    let state = State { ffr: low(0x5a5a), ..truth_table() };
    for word in 0x2500_0000..=0x25ff_ffff {
        if decode(word).is_some_and(|row| !(12..=13).contains(&row[0])) && word.is_multiple_of(61) {
            let mut stepped = state.clone();
            assert_eq!((step(&mut stepped, word), stepped.ffr), (0, low(0x5a5a)), "{word:08x}");
        }
    }
    let walked = walk(&State { x: [5; 31], ..state.clone() }, 0, 1, 31, 3, 4, &mut [0; 5], 9);
    assert_eq!((walked.reply, walked.state.ffr), (0, low(0x5a5a)));
}
