//! Two kernels on one register file, through the wrapper: what each owns, the order of refusals, and what a refusal leaves.

use plokamyr::Kernel::{self, First, Second};
use plokamyr::{walk, Flags, Predicate, Reply, Shared};

const KERNELS: [Kernel; 2] = [First, Second];
const LENGTHS: [u64; 5] = [128, 256, 512, 1024, 2048];
const PFALSE: u32 = 0x2518_E400;
const WRFFR: u32 = 0x2528_9000;

/// A kernel's lowest X and its lowest P.
fn lowest(kernel: Kernel) -> (u32, u32) {
    match kernel {
        First => (0, 0),
        Second => (16, 8),
    }
}

fn other(kernel: Kernel) -> Kernel {
    match kernel {
        First => Second,
        Second => First,
    }
}

/// Something in every register, and other flags for each kernel.
fn shared(vl: u64) -> Shared {
    let mut shared = Shared::new(vl, 3);
    (0..31).for_each(|i| shared.state.x[i] = 100 + 7 * i as u64);
    (0..16).for_each(|i| shared.state.set_p(i, Predicate::from(0x8001 ^ 0x11 << i & 0xFFFF)));
    shared.state.ffr = Predicate::from(0x00FF);
    shared.state.flags = Flags { n: true, c: true, v: true, ..Default::default() };
    shared.second = Flags { z: true, ..Default::default() };
    shared
}

fn changed(change: impl FnOnce(&mut Shared)) -> Shared {
    let mut shared = shared(128);
    change(&mut shared);
    shared
}

/// Puts the flags of a kernel where an ordinary step or walk has them, or puts them back.
fn exchange_flags(shared: &mut Shared, kernel: Kernel) {
    if kernel == Second {
        std::mem::swap(&mut shared.state.flags, &mut shared.second);
    }
}

fn expect_refused(shared: &Shared, kernel: Kernel, word: u32, reply: Reply) {
    let mut stepped = shared.clone();
    assert_eq!(stepped.step(kernel, word), reply, "{kernel:?} {word:08x}");
    assert_eq!(&stepped, shared);
}

/// A step that is done is an ordinary one on the state with the kernel's flags.
fn expect_done(shared: &Shared, kernel: Kernel, word: u32) {
    let (mut stepped, mut expected) = (shared.clone(), shared.clone());
    assert_eq!(stepped.step(kernel, word), Reply::Done, "{kernel:?} {word:08x}");
    exchange_flags(&mut expected, kernel);
    assert_eq!(expected.state.step(word), Reply::Done);
    exchange_flags(&mut expected, kernel);
    assert_eq!(stepped, expected);
}

fn expect_step(shared: &Shared, kernel: Kernel, word: u32, owned: bool) {
    if owned {
        expect_done(shared, kernel, word);
    } else {
        expect_refused(shared, kernel, word, Reply::NotOwned);
    }
}

/// Every X as each source and as a target, every P as source, mask and target; all other registers are the kernel's own.
#[test]
fn each_register() {
    for (kernel, vl) in KERNELS.into_iter().flat_map(|kernel| LENGTHS.map(|vl| (kernel, vl))) {
        let (shared, (x, p)) = (shared(vl), lowest(kernel));
        for i in 0..32 {
            let owned = i == 31 || (i < 16) == (kernel == First);
            expect_step(&shared, kernel, 0x2520_1C00 | i << 16 | x << 5 | p, owned); // WHILELO
            expect_step(&shared, kernel, 0x2520_1C00 | x << 16 | i << 5 | p, owned);
            expect_step(&shared, kernel, 0x252C_8800 | p << 5 | i, owned); // INCP
        }
        for (i, at) in (0..16).flat_map(|i| [0, 5, 10, 16].map(|at| (i, at))) {
            let own = 0x2540_4000 | p << 16 | p << 10 | p << 5 | p; // ANDS
            expect_step(&shared, kernel, own & !(15 << at) | i << at, (i < 8) == (kernel == First));
        }
    }
}

/// A pair writes P(2 Pd) and the next, a counter WHILE P(8 + PNd); CNTP of a counter reads PNn.
#[test]
fn pairs_and_counters() {
    for (kernel, i) in KERNELS.into_iter().flat_map(|kernel| (0..8).map(move |i| (kernel, i))) {
        let (shared, x) = (shared(512), lowest(kernel).0);
        expect_step(&shared, kernel, 0x2520_5410 | x << 16 | x << 5 | i << 1, (i < 4) == (kernel == First));
        expect_step(&shared, kernel, 0x2520_4410 | x << 16 | x << 5 | i, kernel == Second);
        expect_step(&shared, kernel, 0x2520_8200 | i << 5 | x, kernel == First);
        expect_step(&shared, kernel, 0x2520_8200 | (8 + i) << 5 | x, kernel == Second);
    }
}

#[test]
fn ffr_is_open_to_neither() {
    for kernel in KERNELS {
        let p = lowest(kernel).1;
        let words = [0x252C_9000, WRFFR | p << 5, 0x2519_F000 | p, 0x2518_F000 | p << 5 | p, 0x2558_F000 | p << 5 | p];
        words.iter().for_each(|word| expect_refused(&shared(256), kernel, *word, Reply::NotOwned));
        let hole = changed(|shared| shared.state.set_p(p as usize, Predicate::from(0b101)));
        assert_eq!(hole.state.clone().step(WRFFR | p << 5), Reply::NotMonotonic);
        expect_refused(&hole, kernel, WRFFR | p << 5, Reply::NotOwned);
    }
}

/// Each refusal of a word with those that come after it.
#[test]
fn the_order_for_a_word() {
    for kernel in KERNELS {
        let others = PFALSE | lowest(other(kernel)).1;
        let illegal = changed(|shared| (shared.state.level, shared.state.access) = (4, false));
        let low = changed(|shared| (shared.state.level, shared.state.access) = (0, false));
        let off = changed(|shared| shared.state.access = false);
        [0, 0x2500_0000, others].iter().for_each(|word| expect_refused(&illegal, kernel, *word, Reply::IllegalState));
        expect_refused(&low, kernel, 0, Reply::ForeignWord);
        expect_refused(&low, kernel, 0x2500_0000, Reply::UnsupportedForm);
        expect_refused(&low, kernel, others, Reply::LevelTooLow);
        expect_refused(&off, kernel, others, Reply::AccessOff);
        expect_refused(&shared(128), kernel, others, Reply::NotOwned);
        expect_done(&shared(128), kernel, PFALSE | lowest(kernel).1);
    }
}

/// The size, n, m, d and k of a walk of a kernel's own registers, of three positions in `walker`.
fn route(kernel: Kernel) -> [u32; 5] {
    let (x, p) = lowest(kernel);
    [0, x, x + 1, p, p + 1]
}

fn walker() -> Shared {
    changed(|shared| [0, 16].iter().for_each(|&x| (shared.state.x[x], shared.state.x[x + 1]) = (1000, 1003)))
}

/// A walk that does nothing, with so many places and so large a budget.
fn expect_no_walk(shared: &Shared, kernel: Kernel, route: [u32; 5], room: (usize, u64), reply: Reply) {
    let [size, n, m, d, k] = route;
    let (places, budget) = room;
    let mut list = vec![7; places];
    let walked = shared.walk(kernel, size, n, m, d, k, &mut list, budget);
    assert_eq!((walked.reply, walked.count, walked.visited), (reply, 0, 0), "{kernel:?} {route:?}");
    assert_eq!((&walked.shared, list), (shared, vec![7; places]));
}

/// Each refusal of a walk with those that come after it.
#[test]
fn the_order_for_a_walk() {
    for kernel in KERNELS {
        let (own, others, bad) = (route(kernel), route(other(kernel)), [4, 32, 32, 16, 16]);
        let mut shared = walker();
        (shared.state.level, shared.state.access) = (4, false);
        expect_no_walk(&shared, kernel, bad, (0, 0), Reply::IllegalState);
        shared.state.level = 0;
        expect_no_walk(&shared, kernel, bad, (0, 0), Reply::BadWalkRegisters);
        expect_no_walk(&shared, kernel, others, (0, 0), Reply::LevelTooLow);
        shared.state.level = 1;
        expect_no_walk(&shared, kernel, others, (0, 0), Reply::AccessOff);
        shared.state.access = true;
        for (place, from_other) in others.into_iter().enumerate().skip(1) {
            let mut route = own;
            route[place] = from_other;
            for room in [(0, 0), (3, 0), (3, 100)] {
                expect_no_walk(&shared, kernel, route, room, Reply::NotOwned);
            }
        }
        expect_no_walk(&shared, kernel, own, (2, 0), Reply::ListTooShort);
        expect_no_walk(&shared, kernel, own, (3, 0), Reply::BudgetSpent);
    }
}

/// A walk is an ordinary one on the state with the kernel's flags, for each budget. The limit may be 31.
#[test]
fn walks() {
    for (kernel, budget) in KERNELS.into_iter().flat_map(|kernel| (0..10).map(move |budget| (kernel, budget))) {
        let [size, n, m, d, k] = route(kernel);
        for m in [m, 31] {
            let (mut list, mut expected_list) = ([7; 4], [7; 4]);
            let mut expected = walker();
            exchange_flags(&mut expected, kernel);
            let alone = walk(&expected.state, size, n, m, d, k, &mut expected_list, budget);
            expected.state = alone.state;
            exchange_flags(&mut expected, kernel);
            let walked = walker().walk(kernel, size, n, m, d, k, &mut list, budget);
            assert_eq!((walked.reply, walked.count, walked.visited), (alone.reply, alone.count, alone.visited));
            assert_eq!((walked.shared, list), (expected, expected_list));
        }
    }
}

/// One step of each, in either order.
#[test]
fn either_order() {
    let words = [0x25A2_1C20, 0x25AC_8800, 0x2550_C020, PFALSE + 3, PFALSE + 12]; // the last is the other's
    let of_second = [0x25B2_1E28, 0x25AC_8910, 0x2550_E120, PFALSE + 11, PFALSE + 4];
    for (one, two) in words.into_iter().flat_map(|one| of_second.map(|two| (one, two))) {
        let (mut first_one, mut first_two) = (shared(1024), shared(1024));
        let replies = (first_one.step(First, one), first_one.step(Second, two));
        let reply = first_two.step(Second, two);
        assert_eq!((first_two.step(First, one), reply), replies);
        assert_eq!(first_one, first_two);
    }
}
