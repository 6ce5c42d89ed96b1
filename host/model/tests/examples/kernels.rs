//! Two kernels on one register file.

use crate::counts::busy;
use crate::steps::none_of_ours;
use crate::*;

const KERNELS: [Kernel; 2] = [Kernel::First, Kernel::Second];

/// A legal state with other flags for each kernel, from X1 and X17 some way to the other X.
fn shared(length: u64) -> Shared {
    let mut state = busy(length);
    state.x = [40; 31];
    (state.x[1], state.x[17]) = (37, 38);
    Shared { state, second: Flags { n: false, z: false, c: true, v: true } }
}

fn shared_reply(kernel: Kernel, row: &[u8]) -> u8 {
    let mut whole = [0; 9];
    whole[..row.len()].copy_from_slice(row);
    let mut after = shared(128);
    let reply = shared_step(&mut after, kernel, encode(&whole).unwrap());
    assert!(reply == 0 || after == shared(128), "a refusal changes nothing");
    reply
}

/// "The first owns X0 to X15 and P0 to P7, the second X16 to X30 and P8 to P15. Register 31 is open to both."
#[test]
fn each_register_has_its_owner() {
    for number in 0..32 {
        let replies = [(Kernel::First, 7), (Kernel::Second, 8)];
        let replies = replies.map(|(kernel, p)| shared_reply(kernel, &[4, B, 0, p, number])); // INCP
        let expected = match number {
            0..=15 => [0, 15],
            16..=30 => [15, 0],
            _ => [0, 0],
        };
        assert_eq!(replies, expected, "x{number}");
    }
    for number in 0..16 {
        let replies = KERNELS.map(|kernel| shared_reply(kernel, &[10, number])); // PFALSE
        assert_eq!(replies, if number < 8 { [0, 15] } else { [15, 0] }, "p{number}");
    }
}

/// How far the other kernel's registers are from one's own: X, P, a pair of P.
const X: u8 = 16;
const P: u8 = 8;
const PAIR: u8 = 4;

/// Where a register stands in a row, and how far the other kernel's are.
type Place = (usize, u8);

/// A word of each form that names nothing but the first kernel's, and where its registers stand.
const OF_FIRST: [(&[u8], &[Place]); 11] = [
    (&[0, S, 1, 1, 1, 1, 14, 0, 7], &[(2, X), (6, X), (8, P)]), // WHILELO p7.s, x14, x1
    (&[1, S, 1, 1, 1, 14, 3, 0], &[(2, X), (5, X), (6, PAIR)]), // WHILELO p6.s and p7.s, x14, x1
    (&[3, S, 1, 1, 1, 7, 14], &[(5, P), (6, X)]),               // UQDECP x14, p7.s
    (&[4, S, 0, 7, 14], &[(3, P), (4, X)]),                     // INCP x14, p7.s
    (&[5, S, 6, 7, 14], &[(2, P), (3, P), (4, X)]),             // CNTP x14, p6, p7.s
    (&[6, S, 0, 7, 14], &[(3, P), (4, X)]),                     // CNTP x14, pn7.s, two vectors
    (&[7, S, 6, 7], &[(2, P), (3, P)]),                         // PNEXT p7.s, p6, p7.s
    (&[8, 6, 7], &[(1, P), (2, P)]),                            // PFIRST p7.b, p6, p7.b
    (&[9, 6, 7], &[(1, P), (2, P)]),                            // PTEST p6, p7.b
    (&[10, 7], &[(1, P)]),                                      // PFALSE p7.b
    (&[11, 0, 1, 4, 5, 0, 6, 0, 7], &[(3, P), (4, P), (6, P), (8, P)]), // ANDS p7.b, p5/z, p6.b, p4.b
];

/// "Names a register of the other, as source, mask or target": each register of each form, one at a time. The second's words
/// are those of the first with other numbers.
#[test]
fn each_register_of_a_word_is_looked_at() {
    for (of_first, registers) in OF_FIRST {
        let mut of_second = of_first.to_vec();
        registers.iter().for_each(|&(place, distance)| of_second[place] += distance);
        for (kernel, row) in [(Kernel::First, of_first), (Kernel::Second, &of_second[..])] {
            assert_eq!(shared_reply(kernel, row), 0, "{row:?}");
            for &(place, distance) in registers {
                let with = |number: u8| {
                    let mut changed = row.to_vec();
                    changed[place] = number;
                    shared_reply(kernel, &changed)
                };
                assert_eq!(with(row[place] ^ distance), 15, "{row:?}, the other's at {place}");
                assert!(distance != X || with(31) == 0, "{row:?}, 31 at {place}");
            }
        }
    }
}

/// "Counter WHILE therefore belongs to the second"; CNTP of a counter takes PNn as any predicate.
#[test]
fn counters_of_a_kernel() {
    for number in 0..8 {
        assert_eq!(shared_reply(Kernel::First, &[2, S, 2, 0, 0, 1, 1, 1, number]), 15); // WHILELE, x1, x2
        assert_eq!(shared_reply(Kernel::Second, &[2, S, 18, 0, 0, 1, 17, 1, number]), 0); // x17, x18
        assert_eq!(shared_reply(Kernel::Second, &[2, S, 18, 0, 0, 1, 1, 1, number]), 15); // x1, x18
        assert_eq!(shared_reply(Kernel::Second, &[2, S, 2, 0, 0, 1, 17, 1, number]), 15); // x17, x2
        assert_eq!(shared_reply(Kernel::First, &[6, S, 0, number, 1]), 0);
        assert_eq!(shared_reply(Kernel::Second, &[6, S, 0, number, 17]), 15);
    }
}

/// "Or that touches FFR", also where WRFFR would be refused with 14.
#[test]
fn ffr_is_no_kernels() {
    for (kernel, p) in [(Kernel::First, 0), (Kernel::First, 7), (Kernel::Second, 8), (Kernel::Second, 15)] {
        for row in [&[12][..], &[WRFFR, p], &[RDFFR, p], &[RDFFR_PG, p, p], &[RDFFRS_PG, p, p]] {
            assert_eq!(shared_reply(kernel, row), 15, "{row:?}");
        }
        for predicate in [low(0b101), low(0b111), low(0)] {
            let mut given = shared(128);
            put(&mut given.state, usize::from(p), predicate);
            let mut after = given.clone();
            let reply = shared_step(&mut after, kernel, 0x2528_9000 + 32 * u32::from(p)); // WRFFR
            assert_eq!((reply, after), (15, given));
        }
    }
}

/// "That kernel's flags": a word writes those of its kernel alone, and all else as it does in a state of its own.
#[test]
fn each_kernel_has_its_flags() {
    for length in LENGTHS {
        let given = shared(length);
        let mut first = given.clone();
        assert_eq!(shared_step(&mut first, Kernel::First, 0x25a2_1c20), 0); // WHILELO p0.s, x1, x2
        let mut state = given.state.clone();
        assert_eq!(step(&mut state, 0x25a2_1c20), 0);
        assert_ne!(state.flags, given.state.flags);
        assert_eq!(first, Shared { state, second: given.second });
        let mut second = given.clone();
        assert_eq!(shared_step(&mut second, Kernel::Second, 0x25b2_1e28), 0); // WHILELO p8.s, x17, x18
        let mut state = State { flags: given.second, ..given.state.clone() };
        assert_eq!(step(&mut state, 0x25b2_1e28), 0);
        assert_ne!(state.flags, given.second);
        let flags = state.flags;
        assert_eq!(second, Shared { state: State { flags: given.state.flags, ..state }, second: flags });
    }
}

/// "After 3 and before 14 for a word": 4, 1 or 13, 2, 3, 15; a word that names a register of the other gets each earlier one.
#[test]
fn refusals_of_a_shared_step_in_their_order() {
    let word = 0x25b2_1c20; // WHILELO p0.s, x1, x18: neither kernel owns all three
    for kernel in KERNELS {
        let mut given = shared(128);
        (given.state.level, given.state.access) = (0, false);
        given.state.counts[3][1] += 1;
        assert!(none_of_ours().all(|(word, _)| shared_step(&mut given.clone(), kernel, word) == 4));
        assert_eq!(shared_step(&mut given, kernel, word), 4);
        given.state = given.state.counted();
        assert!(none_of_ours().all(|(word, reply)| shared_step(&mut given.clone(), kernel, word) == reply));
        assert_eq!(shared_step(&mut given, kernel, word), 2);
        given.state.level = 1;
        assert_eq!(shared_step(&mut given, kernel, word), 3);
        assert_eq!(shared_step(&mut given, kernel, 0x252c_9000), 3); // SETFFR
        given.state.access = true;
        assert_eq!(shared_step(&mut given, kernel, word & !(1 << 10)), 2); // WHILEHS is SVE2
        assert_eq!(shared_step(&mut given, kernel, word), 15);
        assert!(none_of_ours().all(|(word, reply)| shared_step(&mut given.clone(), kernel, word) == reply));
    }
}

/// "After 3 and before 11 for a walk": 4, 10, 2, 3, 15, 11, 12, with the numbers of a refusal.
#[test]
fn refusals_of_a_shared_walk_in_their_order() {
    for (kernel, mine, other) in [(Kernel::First, [1, 2, 3, 4], [18, 9]), (Kernel::Second, [17, 18, 9, 10], [2, 3])] {
        let mut given = shared(128);
        (given.state.level, given.state.access, given.state.vl) = (0, false, 100);
        let [n, m, d, k] = mine;
        let reply = |given: &Shared, [n, m, d, k]: [u32; 4], places: usize| {
            let mut list = vec![7; places];
            let walked = shared_walk(given, kernel, 0, n, m, d, k, &mut list, 0);
            assert_eq!((walked.count, walked.visited, &walked.shared, list), (0, 0, given, vec![7; places]));
            walked.reply
        };
        let foreign = [[n, other[0], d, k], [n, m, other[1], k], [n, m, d, other[1]], [other[0], 31, d, k]];
        assert_eq!(foreign.map(|numbers| reply(&given, numbers, 0)), [4; 4]);
        given.state.vl = 128;
        assert_eq!(reply(&given, [other[0], other[0], d, k], 0), 10);
        assert_eq!(reply(&given, [31, other[0], d, k], 0), 10);
        assert_eq!(foreign.map(|numbers| reply(&given, numbers, 0)), [2; 4]);
        given.state.level = 1;
        assert_eq!(foreign.map(|numbers| reply(&given, numbers, 0)), [3; 4]);
        given.state.access = true;
        assert_eq!(foreign.map(|numbers| reply(&given, numbers, 0)), [15; 4]); // 11 too, but for the last
        assert_eq!(foreign.map(|numbers| reply(&given, numbers, 40)), [15; 4]); // 12 too
        assert_eq!((reply(&given, mine, 0), reply(&given, mine, 40)), (11, 12));
        assert_eq!(reply(&given, [n, 31, d, k], 0), 12); // "or 31 as the limit"
    }
}

/// "Its flags are that kernel's", and all else is as in a walk on a state of its own, also where the budget is spent.
#[test]
fn a_walk_of_a_kernel() {
    for (kernel, [n, m, d, k]) in [(Kernel::First, [1, 2, 3, 4]), (Kernel::Second, [17, 18, 9, 10])] {
        for (length, budget) in LENGTHS.into_iter().flat_map(|length| (0..9).map(move |budget| (length, budget))) {
            let given = shared(length);
            let flags = [given.state.flags, given.second][kernel as usize];
            let (mut list, mut expected) = ([7; 4], [7; 4]);
            let state = State { flags, ..given.state.clone() };
            let walked = shared_walk(&given, kernel, 0, n, m, d, k, &mut list, budget);
            let Walked { reply, count, visited, state } = walk(&state, 0, n, m, d, k, &mut expected, budget);
            assert!(matches!(reply, 0 | 12));
            assert_eq!((walked.reply, walked.count, walked.visited, list), (reply, count, visited, expected));
            let flags = match kernel {
                Kernel::First => [state.flags, given.second],
                Kernel::Second => [given.state.flags, state.flags],
            };
            assert_eq!(walked.shared, Shared { state: State { flags: flags[0], ..state }, second: flags[1] });
        }
    }
}
