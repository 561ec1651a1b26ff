//! Generated cases with fixed seeds, and how they are compared and reported.

pub mod alter;
pub mod bench;
pub mod callgrind;
pub mod coverage;
pub mod end;
pub mod group;
pub mod guarded;
pub mod hex;
mod met;
pub mod near;
pub mod pages;
pub mod random;
pub mod records;
pub mod sample;

/// The reference, as one implementation of the calls that are compared: its answers are right.
pub struct Reference;
