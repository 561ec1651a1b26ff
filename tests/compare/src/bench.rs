//! A bench of the proved implementation, through its calls for C.

use crate::end::untold;
use crate::proved::Proved;
use cases::bench::{Bench, Lent, Named, Reply, Shown};

/// The number that names no frame.
const NO_FRAME: usize = 512;

extern "C" {
    fn dock_bench(
        a: *mut u8,
        a_len: usize,
        b: *mut u8,
        b_len: usize,
        a_page: *mut u8,
        a_page_len: usize,
        b_page: *mut u8,
        b_page_len: usize,
        book: *mut u8,
        book_len: usize,
        count: *mut usize,
        line: *const u8,
        line_len: usize,
        out: *mut u8,
        out_len: usize,
        up: *mut u8,
        up_len: usize,
        end: *mut u8,
        state: *mut u8,
        notice: *mut u8,
        local: *mut u32,
        remote: *mut u32,
        sent: *mut usize,
        at: *mut usize,
        block: *mut usize,
    ) -> u8;

    fn dock_first_frame(
        a: *const u8,
        a_len: usize,
        b: *const u8,
        b_len: usize,
        a_page: *const u8,
        a_page_len: usize,
        b_page: *const u8,
        b_page_len: usize,
        book: *const u8,
        book_len: usize,
        count: usize,
        frame: *mut usize,
    ) -> u8;
}

// SAFETY of all calls: each pointer comes from a reference that lives as long as the call, and
// each length is that of its slice.
impl Bench for Proved {
    fn line(lent: Lent, line: &[u8]) -> Reply {
        let [a, b] = lent.records;
        let [a_page, b_page] = lent.pages;
        let mut reply = Reply {
            side: u8::MAX,
            end: untold(),
            count: lent.count,
        };
        let (mut at, mut block) = (usize::MAX, usize::MAX);
        reply.end.number = unsafe {
            dock_bench(
                a.as_mut_ptr(),
                a.len(),
                b.as_mut_ptr(),
                b.len(),
                a_page.as_mut_ptr(),
                a_page.len(),
                b_page.as_mut_ptr(),
                b_page.len(),
                lent.book.as_mut_ptr(),
                lent.book.len(),
                &mut reply.count,
                line.as_ptr(),
                line.len(),
                lent.out.as_mut_ptr(),
                lent.out.len(),
                lent.up.as_mut_ptr(),
                lent.up.len(),
                &mut reply.side,
                &mut reply.end.state,
                &mut reply.end.notice,
                &mut reply.end.local,
                &mut reply.end.remote,
                &mut reply.end.sent,
                &mut at,
                &mut block,
            )
        };
        reply.end.block = at..at.wrapping_add(block);
        reply
    }

    fn first_frame(shown: Shown) -> Named {
        let [a, b] = shown.records;
        let [a_page, b_page] = shown.pages;
        let mut frame = usize::MAX;
        let number = unsafe {
            dock_first_frame(
                a.as_ptr(),
                a.len(),
                b.as_ptr(),
                b.len(),
                a_page.as_ptr(),
                a_page.len(),
                b_page.as_ptr(),
                b_page.len(),
                shown.book.as_ptr(),
                shown.book.len(),
                shown.count,
                &mut frame,
            )
        };
        Named {
            number,
            frame: (frame != NO_FRAME).then_some(frame),
        }
    }
}
