//! The width of a terminal, as Linux tells it.

use std::os::raw::{c_int, c_ulong, c_ushort};

/// `struct winsize` of ioctl_tty(2).
#[repr(C)]
#[derive(Default)]
struct Size {
    _rows: c_ushort,
    columns: c_ushort,
    _pixels: [c_ushort; 2],
}

const TIOCGWINSZ: c_ulong = 0x5413;

extern "C" {
    fn ioctl(descriptor: c_int, request: c_ulong, ...) -> c_int;
}

/// The columns of the terminal that a descriptor is; none if it is no terminal, or one that does not know.
pub fn columns(descriptor: c_int) -> Option<usize> {
    let mut size = Size::default();
    // SAFETY: the request writes a `winsize` to where the pointer says, and takes any descriptor.
    let answer = unsafe { ioctl(descriptor, TIOCGWINSZ, &mut size as *mut Size) };
    (answer == 0 && size.columns > 0).then_some(size.columns.into())
}
