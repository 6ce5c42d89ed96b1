//! The second program: a plain model of the predicate part of an Arm SVE interpreter.
//!
//! Written from documents 01 and 02 and Arm's pages alone, element by element as the pseudocode goes. It is there to be
//! compared with, so it must be easy to check by reading: nothing in it is cleverer than the paper's sentence for it.
#![forbid(unsafe_code)]

mod counter;
mod execute;
mod fold;
pub mod forms;
mod image;
mod reply;
mod shared;
mod state;
mod step;
mod text;
mod walk;
mod words;

pub use fold::fold;
pub use image::{read, write, Reading, Written};
pub use shared::{shared_step, shared_walk, Kernel, Shared, SharedWalked};
pub use state::{Flags, State};
pub use step::{run, step, Ran};
pub use text::{text, text_in};
pub use walk::{walk, Walked};
pub use words::{decode, decode_refusal, encode, Row};
