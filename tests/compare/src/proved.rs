//! The proved implementation, and its codec through the calls for C.

use crate::codec::{Codec, Fields};

extern "C" {
    fn codec_read_line(
        line: *const u8,
        line_len: usize,
        out: *mut u8,
        out_len: usize,
        length: *mut usize,
    ) -> u8;

    fn codec_write_line(bytes: *const u8, len: usize, out: *mut u8, out_len: usize) -> u8;

    fn codec_read(
        known: u8,
        bytes: *const u8,
        len: usize,
        kind: *mut u8,
        sender: *mut u32,
        quoted: *mut u32,
        number: *mut u32,
        block: *mut usize,
    ) -> u8;

    fn codec_write(
        kind: u8,
        sender: u32,
        quoted: u32,
        number: u32,
        block: *const u8,
        block_len: usize,
        out: *mut u8,
        out_len: usize,
        length: *mut usize,
    ) -> u8;
}

/// The proved implementation, written in Rattle.
pub struct Proved;

// SAFETY of all calls: each pointer comes from a reference that lives as long as the call, and
// each length is that of its slice.
impl Codec for Proved {
    fn read_line(line: &[u8], out: &mut [u8], length: &mut usize) -> u8 {
        unsafe {
            codec_read_line(
                line.as_ptr(),
                line.len(),
                out.as_mut_ptr(),
                out.len(),
                length,
            )
        }
    }

    fn write_line(bytes: &[u8], out: &mut [u8]) -> u8 {
        unsafe { codec_write_line(bytes.as_ptr(), bytes.len(), out.as_mut_ptr(), out.len()) }
    }

    fn read(known: u8, bytes: &[u8], fields: &mut Fields, block: &mut usize) -> u8 {
        unsafe {
            codec_read(
                known,
                bytes.as_ptr(),
                bytes.len(),
                &mut fields.kind,
                &mut fields.sender,
                &mut fields.quoted,
                &mut fields.number,
                block,
            )
        }
    }

    fn write(fields: &Fields, block: &[u8], out: &mut [u8], length: &mut usize) -> u8 {
        unsafe {
            codec_write(
                fields.kind,
                fields.sender,
                fields.quoted,
                fields.number,
                block.as_ptr(),
                block.len(),
                out.as_mut_ptr(),
                out.len(),
                length,
            )
        }
    }
}
