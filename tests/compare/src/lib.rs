//! The proved implementation beside the reference.

mod bench;
mod call;
pub mod codec;
mod end;
pub mod lines;
pub mod messages;
pub mod proved;
mod reference;
pub mod trips;
