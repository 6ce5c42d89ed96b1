//! Descriptors that the caller has closed. Rust opens /dev/null for each before `main`: output would vanish, and an empty image be
//! read. So they are looked at before that, as the C library allows.

use std::ffi::{c_char, c_int};
use std::sync::atomic::{AtomicBool, Ordering};

extern "C" {
    fn fcntl(descriptor: c_int, request: c_int, ...) -> c_int;
    fn open(path: *const c_char, flags: c_int, ...) -> c_int;
}

const INPUT: c_int = 0;
const OUTPUT: c_int = 1;
/// Numbers of Linux.
const F_GETFD: c_int = 1;
const O_RDONLY: c_int = 0;

static OUTPUT_CLOSED: AtomicBool = AtomicBool::new(false);

/// The C library calls this before Rust begins.
#[used]
#[link_section = ".init_array"]
static BEFORE_RUST: extern "C" fn() = look;

extern "C" fn look() {
    if is_closed(INPUT) {
        // it takes the lowest number that is free, which is this one: a folder, from which a read fails
        // SAFETY: the path ends in a zero byte.
        unsafe { open(c"/".as_ptr(), O_RDONLY) };
    }
    OUTPUT_CLOSED.store(is_closed(OUTPUT), Ordering::Relaxed);
}

fn is_closed(descriptor: c_int) -> bool {
    // SAFETY: the request takes any number, and changes nothing.
    unsafe { fcntl(descriptor, F_GETFD) == -1 }
}

/// Whether the command was begun without a standard output.
pub fn output_was_closed() -> bool {
    OUTPUT_CLOSED.load(Ordering::Relaxed)
}
