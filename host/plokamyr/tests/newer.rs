//! The wrapper over a library that is newer than it. `tests/newer/run` links one that answers with the numbers that it is
//! told, and runs these; over any other they mean nothing.

use plokamyr::{decode, encode, fold, read, text, walk, write, Form, Kernel, Predicate, Reply, Row, Shared, State};

/// Every number that has a name here, and some that have none.
fn numbers() -> impl Iterator<Item = u32> {
    (0..1000).chain([1 << 16, 1 << 31, u32::MAX])
}

fn expect(reply: Reply, number: u32) {
    let named = Reply::ALL.get(number as usize).copied();
    assert_eq!((reply, reply.number()), (named.unwrap_or(Reply::Other(number)), number));
    assert!(reply.to_string().ends_with(&format!("(reply {number})")), "{reply}");
}

#[test]
#[ignore = "for tests/newer/run"]
fn a_reply_is_handed_on() {
    let mut state = State::new(128, 1);
    for number in numbers() {
        expect(state.step(number), number);
        expect(state.step_lent(number), number);
        let ran = state.run(&[number, !number]);
        expect(ran.reply, number);
        expect(ran.refused, !number);
        expect(walk(&state, number, 1, 2, 3, 4, &mut [], 0).reply, number);
        expect(fold(&mut [], number.into()), number);
        expect(read(&number.to_le_bytes(), &mut []).reply, number);
        expect(write(&state, &[number], &mut []).reply, number);
    }
    assert_eq!(text(b"0 25104441 99 0000\n"), b"0 25104441 99 0000\n");
}

#[test]
#[ignore = "for tests/newer/run"]
fn a_reply_to_a_kernel_is_handed_on() {
    for number in numbers() {
        let mut shared = Shared::new(128, 1);
        for kernel in [Kernel::First, Kernel::Second] {
            expect(shared.step(kernel, number), number);
            expect(shared.walk(kernel, number, 1, 2, 3, 4, &mut [], 0).reply, number);
        }
    }
}

/// The setters have the counts from the library, and count nothing themselves.
#[test]
#[ignore = "for tests/newer/run"]
fn counts_are_handed_on() {
    for (register, number) in (0..16).cycle().zip(numbers()) {
        let mut state = State::new(number.into(), 1);
        state.set_p(register, Predicate::from(1));
        let set = state.clone();
        state.set_all_p(*set.p());
        assert_eq!((&state, &state.counted()), (&set, &set));
        state.set_vl(u64::from(number) + 1);
        for size in 0..4 {
            assert_eq!(set.count(register, size), number as u16);
            assert_eq!(state.count(register, size), (number as u16).wrapping_add(1));
        }
    }
}

#[test]
#[ignore = "for tests/newer/run"]
fn a_form_is_handed_on() {
    for number in 0..=255 {
        let form = Form::ALL.get(usize::from(number)).copied().unwrap_or(Form::Other(number));
        let row = Row { form, fields: [1, 2, 3, 4, 5, 6, 7, 8] };
        assert_eq!(decode(number.into()), Ok(row));
        let mut done = row;
        done.fields[7] = 0;
        assert_eq!(encode(done), Ok(number.into()));
    }
}

#[test]
#[ignore = "for tests/newer/run"]
fn a_refusal_of_a_word_or_a_row_is_handed_on() {
    for number in 1..=255 {
        expect(decode(u32::from(number) << 8).unwrap_err(), number.into());
        let row = Row { form: Form::Other(99), fields: [0, 0, 0, 0, 0, 0, 0, number] };
        expect(encode(row).unwrap_err(), number.into());
    }
    expect(decode(u32::MAX).unwrap_err(), u32::MAX >> 8);
}
