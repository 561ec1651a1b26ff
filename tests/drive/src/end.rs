//! An end of the reference that writes its own script.

use crate::script::Script;
use reference::block::LONGEST_BLOCK;
use reference::call::{self, either};
use reference::frame::LONGEST_FRAME;
use reference::page::{self, PAGE};
use reference::program::fresh;
use reference::record::RECORD;
use reference::State;

/// An end, all frames that it sent, and all that it was called with.
pub struct End {
    pub record: [u8; RECORD],
    page: [u8; PAGE],
    pub sent: Vec<Vec<u8>>,
    pub script: Script,
}

impl Default for End {
    /// A fresh end with a new page.
    fn default() -> Self {
        Self {
            record: fresh(),
            page: page::NEW,
            sent: Vec::new(),
            script: Script::default(),
        }
    }
}

impl End {
    /// Makes the call and adds it to the script; gives the frame that it sends.
    pub fn call(&mut self, message: &[u8]) -> Option<&[u8]> {
        let mut out = [0; LONGEST_FRAME];
        let mut up = [0; LONGEST_BLOCK];
        self.script.push(message);
        let (record, page) = (&mut self.record, &mut self.page);
        match either(record, page, message, &mut out, &mut up).sent {
            0 => None,
            sent => {
                self.sent.push(out[..sent].to_vec());
                self.sent.last().map(Vec::as_slice)
            }
        }
    }

    /// Loses its power and comes back, which its script does not tell.
    pub fn restart(&mut self) {
        call::restart(&mut self.record, &self.page).expect("the page is right");
    }

    /// Its state.
    pub fn state(&self) -> State {
        State::of(self.record[0]).expect("the record is sound")
    }
}
