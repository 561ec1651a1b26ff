//! What is asked of a line program, which has one end, or of a bench program, which has two, and
//! how its answers are compared.

pub mod altered;
pub mod bench;
pub mod comparison;
pub mod empty_lines;
mod end;
pub mod handed_up;
pub mod hanging_up;
pub mod hung_up;
pub mod long;
pub mod nearby;
pub mod odd;
pub mod overtaking;
pub mod program;
mod queue;
pub mod reference_program;
pub mod restarted;
pub mod restarting;
pub mod script;
pub mod sessions;
pub mod stood;
pub mod typed;
pub mod used_up;
