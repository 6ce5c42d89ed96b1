//! Each of the sixteen replies but `NotOwned`, which `shared.rs` has, through the wrapper, with what it leaves as it was.

use plokamyr::{decode, encode, read, text, text_in, walk, write, Form, Predicate, Ran, Reply, Row, State};
use std::collections::HashSet;
use std::error::Error;

const PFALSE: u32 = 0x2518_E400;
const FOREIGN: [u32; 4] = [0, u32::MAX, 0xA518_E400, 0x24FF_FFFF]; // the third is PFALSE but for bit 31
const UNSUPPORTED: [u32; 4] = [0x2510_4441, 0x2500_0000, 0x25FF_FFFF, 0x2518_E410]; // the first is BRKA p1.b, p1/z, p2.b

/// All of these, with the reply of each.
fn none_of_ours() -> impl Iterator<Item = (u32, Reply)> {
    let foreign = FOREIGN.iter().map(|&word| (word, Reply::ForeignWord));
    foreign.chain(UNSUPPORTED.iter().map(|&word| (word, Reply::UnsupportedForm)))
}

fn state() -> State {
    let mut state = State::new(128, 1);
    state.x[1] = 10;
    state.x[2] = 13;
    state.set_p(5, Predicate::from(0x00A5));
    state
}

fn changed(change: impl FnOnce(&mut State)) -> State {
    let mut state = state();
    change(&mut state);
    state
}

/// A step that is refused leaves the state, by either way.
fn expect_refused(state: &State, word: u32, reply: Reply) {
    let mut stepped = state.clone();
    assert_eq!(stepped.step(word), reply);
    assert_eq!(&stepped, state);
    assert_eq!(stepped.step_lent(word), reply);
    assert_eq!(&stepped, state);
}

fn parts(ran: Ran) -> (Reply, Reply, usize) {
    (ran.reply, ran.refused, ran.done)
}

/// A run that executes none of its words leaves the state.
fn expect_no_run(state: &State, words: &[u32], reply: Reply, refused: Reply) {
    let mut ran = state.clone();
    assert_eq!(parts(ran.run(words)), (reply, refused, 0));
    assert_eq!(&ran, state);
}

#[test]
fn steps() {
    for (word, reply) in none_of_ours() {
        expect_refused(&state(), word, reply);
        expect_refused(&changed(|state| state.level = 0), word, reply);
        expect_refused(&changed(|state| state.access = false), word, reply);
        expect_refused(&changed(|state| state.level = 4), word, Reply::IllegalState);
    }
    expect_refused(&changed(|state| state.level = 0), PFALSE, Reply::LevelTooLow);
    expect_refused(&changed(|state| state.access = false), PFALSE, Reply::AccessOff);
    expect_refused(&changed(|state| state.set_vl(384)), PFALSE, Reply::IllegalState);
    expect_refused(&changed(|state| state.level = 4), PFALSE, Reply::IllegalState);
    let past = changed(|state| state.set_p(15, Predicate::from(0x1_0000)));
    expect_refused(&past, PFALSE, Reply::IllegalState);
    let past = changed(|state| state.ffr = Predicate::from(0x1_0000));
    expect_refused(&past, PFALSE, Reply::IllegalState);
}

/// WRFFR of P5, which the state has as 00A5.
const WRFFR: u32 = 0x2528_90A0;

/// 14 comes last, and only for a predicate that is no run of ones from bit 0.
#[test]
fn writes_to_ffr() {
    expect_refused(&state(), WRFFR, Reply::NotMonotonic);
    expect_refused(&changed(|state| state.access = false), WRFFR, Reply::AccessOff);
    expect_refused(&changed(|state| state.level = 0), WRFFR, Reply::LevelTooLow);
    expect_refused(&changed(|state| state.level = 4), WRFFR, Reply::IllegalState);
    expect_no_run(&state(), &[WRFFR, PFALSE], Reply::Done, Reply::NotMonotonic);
    let runs = (0..=16).map(|length| (1 << length) - 1);
    for run in runs.map(Predicate::from) {
        let mut stepped = changed(|state| state.set_p(5, run));
        let mut expected = stepped.clone();
        expected.ffr = run;
        assert_eq!(stepped.step(WRFFR), Reply::Done);
        assert_eq!(stepped, expected);
    }
}

/// The other four words of FFR; under Pg the result is FFR and Pg, and the last sets the flags.
#[test]
fn reads_of_ffr() {
    let mut state = changed(|state| state.ffr = Predicate::from(0x00FF));
    let words = [0x2519_F001, 0x2518_F0A2, 0x2558_F0A3, 0x252C_9000]; // RDFFR p1; p2 and p3 under p5; SETFFR
    let mut expected = state.clone();
    (1..4).zip([0x00FF, 0x00A5, 0x00A5]).for_each(|(number, low)| expected.set_p(number, Predicate::from(low)));
    (expected.ffr, expected.flags.n) = (Predicate::from(0xFFFF), true);
    assert_eq!(parts(state.run(&words)), (Reply::Done, Reply::Done, 4));
    assert_eq!(state, expected);
}

#[test]
fn runs() {
    expect_no_run(&state(), &[], Reply::Done, Reply::Done);
    for (word, reply) in none_of_ours() {
        expect_no_run(&state(), &[word, PFALSE], Reply::Done, reply);
    }
    expect_no_run(&changed(|state| state.level = 0), &[PFALSE], Reply::Done, Reply::LevelTooLow);
    expect_no_run(&changed(|state| state.access = false), &[PFALSE], Reply::Done, Reply::AccessOff);
    for words in [&[][..], &[PFALSE], &[0], &[0x2500_0000]] {
        expect_no_run(&changed(|state| state.set_vl(384)), words, Reply::IllegalState, Reply::Done);
        expect_no_run(&changed(|state| state.level = 4), words, Reply::IllegalState, Reply::Done);
    }
}

#[test]
fn a_refused_word_keeps_those_before_it() {
    for (refused, reply) in none_of_ours() {
        let words = [0x25A2_1C20, PFALSE + 5, refused, PFALSE];
        let (mut ran, mut stepped, mut lent) = (state(), state(), state());
        assert_eq!(parts(ran.run(&words)), (Reply::Done, reply, 2));
        assert!(words[..2].iter().all(|&word| stepped.step(word) == Reply::Done));
        assert!(words[..2].iter().all(|&word| lent.step_lent(word) == Reply::Done));
        assert_eq!((ran.p()[0], ran.p()[5]), (Predicate::from(0x0111), Predicate::default()));
        assert_eq!((&ran, &ran), (&stepped, &lent));
    }
}

/// A walk that is refused leaves state and list.
fn expect_no_walk(route: [u32; 5], places: usize, reply: Reply) {
    let [size, n, m, d, k] = route;
    let mut list = vec![7; places];
    let walked = walk(&state(), size, n, m, d, k, &mut list, 0);
    assert_eq!((walked.reply, walked.count, walked.visited, walked.state), (reply, 0, 0, state()));
    assert!(list.iter().all(|place| *place == 7));
}

#[test]
fn walks() {
    for past in [16, 31, 32, 255, 256, 1 << 16, u32::MAX] {
        expect_no_walk([past, 1, 2, 3, 4], 3, Reply::BadWalkRegisters);
        expect_no_walk([0, past.max(31), 2, 3, 4], 3, Reply::BadWalkRegisters);
        expect_no_walk([0, 1, past.max(32), 3, 4], 3, Reply::BadWalkRegisters);
        expect_no_walk([0, 1, 2, past, 4], 3, Reply::BadWalkRegisters);
        expect_no_walk([0, 1, 2, 3, past], 3, Reply::BadWalkRegisters);
    }
    expect_no_walk([4, 1, 2, 3, 4], 3, Reply::BadWalkRegisters);
    expect_no_walk([0, 1, 2, 3, 4], 2, Reply::ListTooShort);
    expect_no_walk([0, 1, 2, 3, 4], 0, Reply::ListTooShort);
    expect_no_walk([0, 1, 2, 3, 4], 3, Reply::BudgetSpent);
}

#[test]
fn a_spent_budget_keeps_its_work() {
    let mut list = [0; 3];
    let walked = walk(&state(), 0, 1, 2, 3, 4, &mut list, 4);
    assert_eq!((walked.reply, walked.count, walked.visited, list), (Reply::BudgetSpent, 4, 2, [10, 11, 0]));
    assert_eq!(walked.state.p()[4], Predicate::from(0b10));
}

#[test]
fn images() {
    let mut image = [0; 330];
    let length = write(&state(), &[1, 2], &mut image).length;
    assert_eq!(length, 313 + 8);
    let expect = |bytes: &[u8], places: usize, reply: Reply| {
        let mut words = vec![7; places];
        let reading = read(bytes, &mut words);
        let mut nothing = State::new(128, 0);
        nothing.access = false;
        assert_eq!((reading.reply, reading.count, reading.state), (reply, 0, nothing));
        assert!(words.iter().all(|word| *word == 7));
    };
    expect(&[], 0, Reply::ImageCut);
    expect(&image[..length - 1], 2, Reply::ImageCut);
    expect(&image[1..], 2, Reply::NotAllowed);
    expect(&image[..=length], 2, Reply::TrailingBytes);
    expect(&image[..length], 1, Reply::BufferTooSmall);
}

/// An image of the older kind has no FFR: the count of the flags stands where that of FFR would.
#[test]
fn an_old_image_gets_an_ffr() {
    let (mut image, mut words) = ([0; 321], [0; 2]);
    let given = changed(|state| state.ffr = Predicate::from(0x8001));
    assert_eq!(write(&given, &[1, 2], &mut image).length, image.len());
    let (ffr, flags) = (7 + 252 + 36, 7 + 252 + 36 + 6);
    let mut old = [&image[..ffr], &image[flags..]].concat();
    let reading = read(&old, &mut words);
    assert_eq!((reading.reply, reading.state, words), (Reply::Done, state(), [1, 2]));
    image[ffr + 4..flags].fill(0);
    let mut again = [7; 321];
    assert_eq!(write(&state(), &words, &mut again).length, image.len());
    assert_eq!(again, image);
    old[ffr] = 2; // neither FFR's count nor the flags'
    assert_eq!(read(&old, &mut words).reply, Reply::NotAllowed);
}

#[test]
fn writes() {
    let expect = |state: &State, count: usize, room: usize, reply: Reply| {
        let mut image = vec![7; room];
        let written = write(state, &vec![0; count], &mut image);
        assert_eq!((written.reply, written.length), (reply, 0));
        assert!(image.iter().all(|byte| *byte == 7));
    };
    expect(&changed(|state| state.set_vl(0)), 5000, 0, Reply::IllegalState);
    expect(&state(), 4097, 0, Reply::NotAllowed);
    expect(&state(), 0, 312, Reply::BufferTooSmall);
    expect(&state(), 0, 0, Reply::BufferTooSmall);
}

#[test]
fn texts() {
    for (word, reply) in none_of_ours() {
        let mut image = [0; 400];
        let length = write(&state(), &[0x25A2_1C20, 0x2519_C401, word], &mut image).length;
        let number = reply.number();
        let lines = format!("0 25a21c20 0 1010\n1 2519c401 0 1010\n2 {word:08x} {number} 1010\nend 2\n");
        assert_eq!(text(&image[..length]), lines.as_bytes());
        assert_eq!(text_in(&image[..length], &mut []), 0);
    }
}

#[test]
fn words() {
    for (word, reply) in none_of_ours() {
        assert_eq!(decode(word), Err(reply));
    }
    let row = Row::new(Form::WhileOne, &[2, 2, 1, 1, 1, 1, 0, 0]).unwrap();
    assert_eq!(decode(0x25A2_1C20), Ok(row));
    assert_eq!(encode(row), Ok(0x25A2_1C20));
    let past = Row { form: Form::Pfalse, fields: [16, 0, 0, 0, 0, 0, 0, 0] };
    assert_eq!(encode(past), Err(Reply::FieldPastRange));
    let more = Row { form: Form::Pfalse, fields: [0, 0, 0, 0, 0, 0, 0, 1] };
    assert_eq!(encode(more), Err(Reply::FieldPastRange));
}

/// Both ways, and when it is executed; without S it is an instruction.
#[test]
fn sel_with_s() {
    let (sel, sel_with_s) = (0x2503_4650, 0x2543_4650); // p0.b, p1, p2.b, p3.b
    let row = |s| Row::new(Form::Logic, &[0, s, 3, 1, 1, 2, 1, 0]).unwrap();
    assert_eq!((decode(sel), encode(row(0))), (Ok(row(0)), Ok(sel)));
    assert_eq!((decode(sel_with_s), encode(row(1))), (Err(Reply::UnsupportedForm), Err(Reply::FieldPastRange)));
    expect_refused(&state(), sel_with_s, Reply::UnsupportedForm);
    expect_refused(&changed(|state| state.level = 0), sel_with_s, Reply::UnsupportedForm);
    expect_no_run(&state(), &[sel_with_s, sel], Reply::Done, Reply::UnsupportedForm);
    assert_eq!(state().step(sel), Reply::Done);
}

#[test]
fn a_form_without_a_name() {
    for number in [17, 18, 255] {
        let form = Form::from_number(number);
        assert_eq!((form, form.number()), (Form::Other(number), number));
        assert!(form.field_names().is_empty() && Row::new(form, &[]).is_none());
        assert_eq!(encode(Row { form, fields: [0; 8] }), Err(Reply::FieldPastRange));
    }
}

#[test]
fn a_reply_without_a_name() {
    for number in [16, 17, 256, u32::MAX] {
        let reply = Reply::from_number(number);
        assert_eq!((reply, reply.number()), (Reply::Other(number), number));
        assert_eq!(reply.to_string(), format!("reply without a name here (reply {number})"));
    }
}

#[test]
fn each_reply_has_words_of_its_own() {
    let mut seen = HashSet::new();
    for reply in Reply::ALL {
        let text = reply.to_string();
        let words = text.strip_suffix(&format!(" (reply {})", reply.number())).expect("the number stands last");
        assert!(words.starts_with(|c: char| c.is_ascii_lowercase()) && seen.insert(words.to_owned()), "{text}");
    }
}

fn next_word(word: u32) -> Result<u32, Box<dyn Error>> {
    let mut row = decode(word)?;
    row.fields[0] += 1;
    Ok(encode(row)?)
}

#[test]
fn a_refusal_is_an_error() {
    assert_eq!(next_word(PFALSE).unwrap(), PFALSE + 1);
    let foreign = next_word(0).unwrap_err();
    assert_eq!(foreign.to_string(), "word is foreign: its bits 31:24 are not 00100101 (reply 1)");
    let past = next_word(PFALSE + 15).unwrap_err();
    assert_eq!(past.downcast_ref(), Some(&Reply::FieldPastRange));
}
