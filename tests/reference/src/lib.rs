//! The reference: a second implementation of the dock link, written from the documents alone.
//!
//! It is kept plain and direct: its purpose is to be compared with the proved implementation, call
//! by call and byte by byte.

pub mod bench;
pub mod block;
mod blocks;
pub mod buffer;
pub mod call;
pub mod frame;
mod held;
pub mod line;
pub mod message;
pub mod notice;
pub mod page;
mod part;
pub mod program;
pub mod record;
pub mod refusal;
pub mod request;
pub mod state;
mod step;
pub mod stream;
mod waiting;

pub use block::Block;
pub use call::Answer;
pub use frame::Frame;
pub use message::Message;
pub use notice::Notice;
pub use refusal::Refusal;
pub use request::Request;
pub use state::State;
