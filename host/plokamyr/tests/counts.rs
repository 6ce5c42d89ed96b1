//! The counts that a state keeps: what sets them, what reads them, and what a wrong one is answered.

use plokamyr::{read, walk, write, Counts, Predicate, Reply, State, IMAGE_MAX};

const LENGTHS: [u64; 5] = [128, 256, 512, 1024, 2048];
const PFALSE: u32 = 0x2518_E400;

/// A predicate's counts, element by element, at any length.
fn counts_of(vl: u64, predicate: &Predicate) -> Counts {
    let [b, h, s, d] = [1, 2, 4, 8].map(|bytes| {
        let elements = (vl / 8 / bytes).min(256 / bytes);
        (0..elements).filter(|e| predicate.bit((e * bytes) as usize)).count() as u16
    });
    Counts { b, h, s, d }
}

fn right_counts(state: &State) -> [Counts; 16] {
    state.p().map(|p| counts_of(state.vl(), &p))
}

/// A different predicate for each number, without a bit at or above `vl / 8`.
fn predicate(vl: u64, number: u64) -> Predicate {
    let mut words = [1, 2, 3, 4].map(|i| (number * 4 + i).wrapping_mul(0x9E37_79B9_7F4A_7C15) | 1);
    for bit in vl as usize / 8..256 {
        words[bit / 64] &= !(1 << (bit % 64));
    }
    Predicate { words }
}

/// All registers set one by one.
fn state(vl: u64) -> State {
    let mut state = State::new(vl, 1);
    for number in 0..16 {
        state.set_p(number as usize, predicate(vl, number));
    }
    state
}

#[test]
fn a_new_state_has_right_counts() {
    for vl in (0..2100).chain([4096, u64::MAX]) {
        let state = State::new(vl, 1);
        assert_eq!((*state.counts(), &state), ([Counts::default(); 16], &state.counted()));
    }
}

/// Each leaves right counts, whatever they were.
#[test]
fn setters_keep_the_counts() {
    for vl in LENGTHS {
        let one_by_one = state(vl);
        assert_eq!(*one_by_one.counts(), right_counts(&one_by_one));
        let mut at_once = State::new(vl, 1);
        at_once.set_counts([Counts { b: 7, h: 7, s: 7, d: 7 }; 16]);
        at_once.set_all_p(*one_by_one.p());
        assert_eq!(at_once, one_by_one);
        for other in LENGTHS.into_iter().chain([0, 1, 8, 127, 192, 4096, u64::MAX]) {
            at_once.set_vl(other);
            assert_eq!((at_once.vl(), at_once.p()), (other, one_by_one.p()));
            assert_eq!(*at_once.counts(), right_counts(&at_once));
        }
        at_once.set_vl(vl);
        assert_eq!(at_once, one_by_one);
    }
}

/// One setter, one register: all else stays.
#[test]
fn a_setter_changes_one_register() {
    for number in 0..16 {
        let before = state(512);
        let mut after = before.clone();
        after.ffr = Predicate::from(7);
        after.set_p(number, Predicate::from(0x0111));
        assert_eq!(after.counts()[number], Counts { b: 3, h: 3, s: 3, d: 2 });
        assert_eq!((after.vl(), after.level, after.access, after.x), (512, 1, true, before.x));
        assert_eq!((after.flags, after.ffr), (before.flags, Predicate::from(7)));
        for other in (0..16).filter(|&other| other != number) {
            assert_eq!((after.p()[other], after.counts()[other]), (before.p()[other], before.counts()[other]));
        }
    }
}

#[test]
fn a_count_by_register_and_size() {
    for vl in LENGTHS {
        let state = state(vl);
        for (p, Counts { b, h, s, d }) in right_counts(&state).into_iter().enumerate() {
            assert_eq!([0, 1, 2, 3].map(|size| state.count(p, size)), [b, h, s, d]);
        }
    }
}

#[test]
fn a_count_is_what_incp_adds() {
    for (vl, number) in LENGTHS.into_iter().flat_map(|vl| (0..64).map(move |number| (vl, number))) {
        let (p, size) = (number / 4, number % 4);
        let mut state = state(vl);
        assert_eq!(state.step(0x252C_8800 | size << 22 | p << 5), Reply::Done); // INCP x0
        assert_eq!(state.x[0], u64::from(state.count(p as usize, size)));
    }
}

#[test]
#[should_panic(expected = "the len is 16 but the index is 16")]
fn there_is_no_count_of_a_seventeenth_register() {
    state(128).count(16, 0);
}

#[test]
#[should_panic(expected = "the len is 4 but the index is 4")]
fn there_is_no_fifth_size() {
    state(128).count(0, 4);
}

#[test]
#[should_panic(expected = "the len is 16 but the index is 16")]
fn there_is_no_seventeenth_register() {
    state(128).set_p(16, Predicate::default());
}

/// Every count of every register, more and less than it is.
fn with_wrong_counts(right: &State) -> Vec<State> {
    let mut states = Vec::new();
    for number in 0..64 {
        for change in [1, u16::MAX, 1 << 8] {
            let mut counts = *right.counts();
            let Counts { b, h, s, d } = &mut counts[number / 4];
            let count = [b, h, s, d].into_iter().nth(number % 4).expect("one of four");
            *count = count.wrapping_add(change);
            let mut state = right.clone();
            state.set_counts(counts);
            states.push(state);
        }
    }
    states
}

/// 4, before all else that may be wrong; nothing is changed.
#[test]
fn a_wrong_count_is_refused() {
    for (vl, right) in LENGTHS.map(|vl| (vl, state(vl))) {
        let states = with_wrong_counts(&right);
        assert_eq!(states.len(), 16 * 4 * 3);
        for given in states {
            let mut state = given.clone();
            assert_eq!([PFALSE, 0, 0x2500_0000].map(|word| state.step(word)), [Reply::IllegalState; 3]);
            assert_eq!([PFALSE, 0, 0x2500_0000].map(|word| state.step_lent(word)), [Reply::IllegalState; 3]);
            for words in [&[][..], &[PFALSE], &[0]] {
                let ran = state.run(words);
                assert_eq!((ran.reply, ran.refused, ran.done), (Reply::IllegalState, Reply::Done, 0));
            }
            assert_eq!(state, given);
            let mut list = [7; 3];
            let walked = walk(&state, 9, 1, 2, 3, 4, &mut list, 9);
            assert_eq!((walked.reply, walked.count, walked.visited), (Reply::IllegalState, 0, 0));
            assert_eq!((walked.state, list), (given.clone(), [7; 3]));
            let mut image = [7; 1000];
            let written = write(&state, &[], &mut image);
            assert_eq!((written.reply, written.length, image), (Reply::IllegalState, 0, [7; 1000]));
            assert_eq!((given.counted(), given.vl()), (right.clone(), vl));
        }
    }
}

/// What the library leaves has right counts: steps, runs and walks, whole and cut short, and what is read.
#[test]
fn the_library_keeps_the_counts() {
    for vl in LENGTHS {
        let mut state = state(vl);
        (state.x[1], state.x[2]) = (10, 13);
        assert_eq!(state.step(0x25A2_1C24), Reply::Done); // WHILELO p4.s, x1, x2
        assert_eq!(state.counts()[4], Counts { b: 3, h: 3, s: 3, d: 2 });
        assert_eq!(state.step_lent(PFALSE + 5), Reply::Done);
        assert_eq!(state.counts()[5], Counts::default());
        assert_eq!(state.run(&[0x252C_9000, 0x2519_F006]).done, 2); // SETFFR, RDFFR p6.b
        let full = vl as u16 / 8;
        assert_eq!(state.counts()[6], Counts { b: full, h: full / 2, s: full / 4, d: full / 8 });
        for budget in 0..12 {
            let walked = walk(&state, 2, 1, 2, 3, 4, &mut [0; 3], budget).state;
            assert_eq!(*walked.counts(), right_counts(&walked));
        }
        let mut image = [0; IMAGE_MAX];
        let length = write(&state, &[], &mut image).length;
        assert_eq!(read(&image[..length], &mut []).state, state);
        assert_eq!(*state.counts(), right_counts(&state));
    }
}
