//! Inputs for the comparison and for the stored vectors. Each is made from a seed, a kind and a number alone.
#![forbid(unsafe_code)]

pub mod actions;
pub mod counter;
pub mod damage;
pub mod instructions;
pub mod kernels;
pub mod random;
pub mod routes;
pub mod states;
pub mod titles;
