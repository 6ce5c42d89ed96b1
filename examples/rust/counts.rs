use plokamyr::{Predicate, Reply, State};

fn main() {
    let mut state = State::new(128, 1);
    state.x[1] = 10;
    state.x[2] = 13;
    assert_eq!(state.step(0x25A2_1C20), Reply::Done); // WHILELO p0.s, x1, x2
    assert_eq!(state.p()[0], Predicate::from(0x0111));
    state.set_p(1, Predicate::from(0x0011)); // made by hand: the setter works the counts out
    let ran = state.run(&[0x25AC_8820, 0]); // INCP x0, p1.s; the second is no instruction
    assert_eq!((ran.refused, ran.done), (Reply::ForeignWord, 1));
    let (p0, p1) = (state.count(0, 2), state.count(1, 2)); // sizes are 0 to 3 for B, H, S, D
    println!("true words of p0 {p0}, of p1 {p1}, x0 {}", state.x[0]);
}
