//! One end of the proved implementation, through its calls for C.

use crate::proved::Proved;
use cases::end::{End, Reply};

/// Where the block of a DATA starts.
const BLOCK_START: usize = 14;

extern "C" {
    fn dock_restart(record: *mut u8, record_len: usize, page: *const u8, page_len: usize) -> u8;

    fn dock_request(
        record: *mut u8,
        record_len: usize,
        page: *mut u8,
        page_len: usize,
        request: *const u8,
        request_len: usize,
        out: *mut u8,
        out_len: usize,
        up: *mut u8,
        up_len: usize,
        state: *mut u8,
        notice: *mut u8,
        local: *mut u32,
        remote: *mut u32,
        sent: *mut usize,
        block: *mut usize,
    ) -> u8;

    fn dock_receive(
        record: *mut u8,
        record_len: usize,
        page: *const u8,
        page_len: usize,
        frame: *const u8,
        frame_len: usize,
        out: *mut u8,
        out_len: usize,
        state: *mut u8,
        notice: *mut u8,
        local: *mut u32,
        remote: *mut u32,
        sent: *mut usize,
        block: *mut usize,
    ) -> u8;
}

// SAFETY of all calls: each pointer comes from a reference that lives as long as the call, and
// each length is that of its slice.
impl End for Proved {
    fn restart(record: &mut [u8], page: &[u8]) -> u8 {
        unsafe { dock_restart(record.as_mut_ptr(), record.len(), page.as_ptr(), page.len()) }
    }

    fn request(
        record: &mut [u8],
        page: &mut [u8],
        request: &[u8],
        out: &mut [u8],
        up: &mut [u8],
    ) -> Reply {
        let mut reply = untold();
        reply.number = unsafe {
            dock_request(
                record.as_mut_ptr(),
                record.len(),
                page.as_mut_ptr(),
                page.len(),
                request.as_ptr(),
                request.len(),
                out.as_mut_ptr(),
                out.len(),
                up.as_mut_ptr(),
                up.len(),
                &mut reply.state,
                &mut reply.notice,
                &mut reply.local,
                &mut reply.remote,
                &mut reply.sent,
                &mut reply.block.end,
            )
        };
        reply
    }

    fn receive(record: &mut [u8], page: &[u8], frame: &[u8], out: &mut [u8]) -> Reply {
        let mut reply = untold();
        reply.number = unsafe {
            dock_receive(
                record.as_mut_ptr(),
                record.len(),
                page.as_ptr(),
                page.len(),
                frame.as_ptr(),
                frame.len(),
                out.as_mut_ptr(),
                out.len(),
                &mut reply.state,
                &mut reply.notice,
                &mut reply.local,
                &mut reply.remote,
                &mut reply.sent,
                &mut reply.block.end,
            )
        };
        if !reply.block.is_empty() {
            reply.block = BLOCK_START..BLOCK_START.wrapping_add(reply.block.end);
        }
        reply
    }
}

/// A reply whose numbers a call has to set.
pub fn untold() -> Reply {
    Reply {
        number: u8::MAX,
        state: u8::MAX,
        notice: u8::MAX,
        local: u32::MAX,
        remote: u32::MAX,
        sent: usize::MAX,
        block: 0..usize::MAX,
    }
}
