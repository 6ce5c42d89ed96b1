//! Predicate logic.

use crate::*;

/// An operation of predicate logic on three bits each, and NZC of its flag-setting form.
struct Operation {
    op: u8,
    o2: u8,
    o3: u8,
    /// From P1 = F0 (Pg), P2 = CC (Pn) and P3 = AA (Pm): a byte for each combination of the three, Pg the highest.
    result: u64,
    /// PredTest over bytes 4 to 7, which are those of Pg; SEL has none.
    flags: Option<Flags>,
}

fn operations() -> [Operation; 8] {
    let operation = |op, o2, o3, result, flags| Operation { op, o2, o3, result, flags };
    [
        operation(0, 0, 0, 0b1000_0000, Some(nzc(0, 0, 0))), // AND
        operation(0, 0, 1, 0b0100_0000, Some(nzc(0, 0, 1))), // BIC
        operation(0, 1, 0, 0b0110_0000, Some(nzc(0, 0, 1))), // EOR
        operation(0, 1, 1, 0b1100_1010, None),               // SEL
        operation(1, 0, 0, 0b1110_0000, Some(nzc(0, 0, 0))), // ORR
        operation(1, 0, 1, 0b1101_0000, Some(nzc(1, 0, 0))), // ORN
        operation(1, 1, 0, 0b0001_0000, Some(nzc(1, 0, 1))), // NOR
        operation(1, 1, 1, 0b0111_0000, Some(nzc(1, 0, 1))), // NAND
    ]
}

/// The operation on P1 (Pg), P2 (Pn) and P3 (Pm), written to Pd.
fn operate(operation: &Operation, s: u8, pd: u8) -> State {
    let mut state = truth_table();
    do_step(&mut state, &[11, operation.op, s, 3, 1, operation.o2, 2, operation.o3, pd]);
    state
}

/// "Where Pg is false the result is false, except SEL"; without S the flags stay. Nothing but Pd is written, and whatever
/// register it is, all three are read before.
#[test]
fn logic_without_flags() {
    for operation in operations() {
        for pd in [0, 1, 2, 3, 4] {
            let mut expected = truth_table();
            put(&mut expected, usize::from(pd), low(operation.result));
            assert_eq!(operate(&operation, 0, pd), expected);
        }
    }
}

/// PredTest goes by Pg as it was: neither by all bytes of the vector nor by what Pd holds then, also where Pd is Pg.
#[test]
fn logic_with_flags() {
    for operation in operations() {
        let Some(flags) = operation.flags else { continue };
        for pd in [0, 1, 2, 3, 4] {
            let mut expected = truth_table();
            put(&mut expected, usize::from(pd), low(operation.result));
            expected.flags = flags;
            assert_eq!(operate(&operation, 1, pd), expected);
        }
    }
}

#[test]
fn logic_under_an_empty_and_a_full_mask() {
    for operation in operations() {
        let Operation { op, o2, o3, flags, .. } = operation;
        let s = u8::from(flags.is_some());
        let mut state = truth_table();
        do_step(&mut state, &[11, op, s, 3, 5, o2, 2, o3, 0]); // P5 is empty
        let (result, flags) = if s == 1 { (0, nzc(0, 1, 1)) } else { (0xaa, truth_table().flags) };
        assert_eq!((state.p[0], state.flags), (low(result), flags));
    }
    let mut state = truth_table();
    state.vl = 2048;
    put(&mut state, 4, [u64::MAX; 4]);
    do_step(&mut state, &[11, 1, 1, 5, 4, 1, 5, 0, 0]); // NORS of empty ones
    assert_eq!((state.p[0], state.flags), ([u64::MAX; 4], nzc(1, 0, 0)));
    let mut state = truth_table();
    do_step(&mut state, &[11, 1, 1, 5, 4, 1, 5, 0, 0]); // at 128 bits there are 16 bytes
    assert_eq!((state.p[0], state.flags), (low(0xffff), nzc(1, 0, 0)));
}

/// Arm's other names, where registers coincide.
#[test]
fn logic_of_a_register_twice() {
    let mut state = truth_table();
    do_step(&mut state, &[11, 0, 1, 1, 1, 1, 2, 0, 0]); // NOTS p0.b, p1/z, p2.b is EORS with Pm = Pg
    assert_eq!((state.p[0], state.flags), (low(0x30), nzc(1, 0, 1)));
    do_step(&mut state, &[11, 1, 1, 3, 3, 0, 3, 0, 0]); // MOVS p0.b, p3.b is ORRS with all three the same
    assert_eq!((state.p[0], state.flags), (low(0xaa), nzc(1, 0, 0)));
    do_step(&mut state, &[11, 0, 0, 0, 1, 1, 2, 1, 0]); // MOV p0.b, p1/m, p2.b is SEL with Pm = Pd
    assert_eq!((state.p[0], state.flags), (low(0xca), nzc(1, 0, 0)));
    do_step(&mut state, &[11, 0, 1, 3, 3, 1, 3, 0, 3]); // EORS p3.b, p3/z, p3.b, p3.b
    assert_eq!((state.p[3], state.flags), (low(0), nzc(0, 1, 1)));
}

/// "SEL with S=1 is not ours", which is 13 since its bits 31:24 are; "the writer of words answers it with 9".
#[test]
fn sel_does_not_set_flags() {
    for register in 0..16 {
        let row = |s| [11, 0, s, register, 15 - register, 1, register, 1, 15 - register];
        let word = encode(&row(0)).unwrap();
        assert_eq!(decode(word), Some(row(0)));
        assert_eq!(encode(&row(1)), None);
        assert_eq!(decode(word | 1 << 22), None);
        let mut state = truth_table();
        assert_eq!(step(&mut state, word | 1 << 22), 13);
        assert_eq!(state, truth_table());
    }
}

#[test]
fn logic_asks_level_1() {
    let word = 0x2504_4861; // AND p1.b, p2/z, p3.b, p4.b
    assert_eq!(decode(word), Some([11, 0, 0, 4, 2, 0, 3, 0, 1]));
    assert_eq!(step(&mut State { level: 0, ..truth_table() }, word), 2);
    assert_eq!(step(&mut State { level: 1, ..truth_table() }, word), 0);
}
