//! What is asked of a bench program.

pub mod empty_lines;
pub mod full;
pub mod hanging_up;
pub mod odd;
pub mod overtaking;
pub mod replay;
pub mod restarts;
pub mod sessions;
pub mod used_up;
mod writer;

pub use writer::Writer;
