//! One end, and a bench of two, called on lent buffers.

mod bench;
mod buffers;
mod edges;
mod frames;
mod hanging_up;
mod held;
mod page;
mod question;
mod requests;
mod restart;
mod sample;
