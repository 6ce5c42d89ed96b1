use plokamyr::Kernel::{First, Second};
use plokamyr::{Reply, Shared};

fn main() {
    let mut shared = Shared::new(128, 1);
    shared.state.x[1] = 10;
    shared.state.x[2] = 13;
    shared.state.x[18] = 9;
    assert_eq!(shared.step(First, 0x25A2_1C20), Reply::Done); // WHILELO p0.s, x1, x2
    assert_eq!(shared.step(Second, 0x25B2_1E28), Reply::Done); // WHILELO p8.s, x17, x18
    assert_eq!(shared.step(First, 0x25AC_8800), Reply::Done); // INCP x0, p0.s
    assert_eq!(shared.step(Second, 0x25AC_8800), Reply::NotOwned); // x0 and p0 are the first's
    let (first, second) = (shared.flags(First), shared.flags(Second));
    println!("x0 {}, NZCV {first} and {second}", shared.state.x[0]);
}
