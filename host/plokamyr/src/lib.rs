//! Plokamyr, the predicate part of an Arm SVE interpreter: the proved library behind types that leave nothing to get wrong.
//!
//! ```
#![cfg_attr(any(doc, doctest), doc = include_str!("../../../examples/rust/first.rs"))]
//! ```
//!
//! What C leaves to the caller (valid pointers, buffers that do not overlap, bools of 0 or 1) the types here give.
//! Every call is answered: a refusal carries its [`Reply`] and leaves every state and buffer as it was, but for
//! [`Reply::BudgetSpent`], which keeps the work done so far. A [run](State::run) that comes to a refused word is not
//! refused itself.
//!
//! Buffers of one call that overlap, for one, do not compile:
//!
//! ```compile_fail,E0502
//! let mut buffer = [0; 400];
//! plokamyr::text_in(&buffer, &mut buffer);
//! ```
//!
//! The library itself is an archive; `rt lib --cpu x86-64` in `crates/capi` makes it. `PLOKAMYR_LIB` names its folder
//! if that is not `crates/capi/out` of the repository: one with `libcapi.a`, or with `libplokamyr.a`, as `./install
//! PREFIX` fills `PREFIX/lib`. A relative path begins where cargo is called; it is looked up, and this crate compiled,
//! at each build.
//!
//! The crate and the archive have one layout of the structs that they share. With an archive of another layout no call
//! links: the linker then names `plokamyr_layout_` and the number that is missing.

#![deny(unsafe_code)]
#![warn(missing_debug_implementations)]

mod calls;
#[allow(unsafe_code)]
mod ffi;
mod reply;
mod row;
mod shared;
mod state;

pub use calls::{fold, read, text, text_in, walk, write, Reading, Walked, Written};
pub use calls::{IMAGE_MAX, TEXT_MAX, TITLE_MAX, WORDS_MAX};
pub use reply::Reply;
pub use row::{decode, encode, Form, Row};
pub use shared::{Kernel, Shared, SharedWalked};
pub use state::{Counts, Flags, Predicate, Ran, State};
