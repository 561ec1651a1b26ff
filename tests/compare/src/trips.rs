//! Round trips through the proved implementation.

use crate::codec::{Codec, Fields};
use crate::messages;
use crate::proved::Proved;
use cases::alter::capitals;
use cases::group::Group;
use cases::hex::Hex;
use cases::random::Random;
use cases::sample::hex_digits;
use cases::Reference;
use reference::frame::LONGEST_FRAME;
use std::fmt::Debug;

const RANDOM_LINES: usize = 10_000;

/// The groups of this module, with all cases made.
pub fn groups() -> Vec<Group> {
    vec![
        frames_read_and_written(),
        frames_written_and_read(),
        lines_read_and_written(),
        lines_written_and_read(),
    ]
}

/// What reads, written again, is the same bytes.
fn frames_read_and_written() -> Group {
    let mut group = Group::new("frames read and written again", &[0]);
    for bytes in messages::inputs() {
        if let Ok((fields, block)) = read_frame::<Proved>(&bytes) {
            let end = write_frame(&fields, &block.0);
            check(&mut group, Hex(bytes), end);
        }
    }
    group
}

/// What is written with readable numbers reads as what it was.
fn frames_written_and_read() -> Group {
    let mut group = Group::new("frames written and read again", &[0]);
    for bytes in messages::inputs() {
        if let Ok((fields, block)) = read_frame::<Reference>(&bytes) {
            let end =
                write_frame(&fields, &block.0).and_then(|bytes| read_frame::<Proved>(&bytes.0));
            check(&mut group, (fields, block), end);
        }
    }
    group
}

/// A line whose bytes are written again is the same line with its capitals made small.
fn lines_read_and_written() -> Group {
    let mut group = Group::new("lines read and written again", &[0]);
    let mut random = Random::new(20);
    for _ in 0..RANDOM_LINES {
        let length = 2 * random.within(1..=LONGEST_FRAME);
        let mut line = hex_digits(&mut random, length);
        capitals(&mut random, &mut line);
        let end = read_line(&line).and_then(|bytes| write_line(&bytes.0));
        check(&mut group, Hex(line.to_ascii_lowercase()), end);
    }
    group
}

/// Bytes written as a line read as the same bytes.
fn lines_written_and_read() -> Group {
    let mut group = Group::new("lines written and read again", &[0]);
    let mut random = Random::new(21);
    for _ in 0..RANDOM_LINES {
        let bytes = random.bytes_within(1..=LONGEST_FRAME);
        let end = write_line(&bytes).and_then(|line| read_line(&line.0));
        check(&mut group, Hex(bytes), end);
    }
    group
}

/// One case: the trip ends where it started, without a refusal.
fn check<T: Debug + PartialEq>(group: &mut Group, start: T, end: Result<T, u8>) {
    let right = Ok(start);
    group.check(&right, 0, &end, &right);
}

/// The fields and the block of a frame, or the number of the refusal.
fn read_frame<C: Codec>(bytes: &[u8]) -> Result<(Fields, Hex), u8> {
    let mut fields = Fields::default();
    let mut block = 0;
    accepted(C::read(1, bytes, &mut fields, &mut block))?;
    Ok((fields, Hex(bytes[bytes.len() - block..].to_vec())))
}

/// The bytes that the proved implementation writes of a frame.
fn write_frame(fields: &Fields, block: &[u8]) -> Result<Hex, u8> {
    let mut out = vec![0; LONGEST_FRAME];
    let mut length = 0;
    accepted(Proved::write(fields, block, &mut out, &mut length))?;
    out.truncate(length);
    Ok(Hex(out))
}

/// The bytes that the proved implementation reads from a line.
fn read_line(line: &[u8]) -> Result<Hex, u8> {
    let mut out = vec![0; LONGEST_FRAME];
    let mut length = 0;
    accepted(Proved::read_line(line, &mut out, &mut length))?;
    out.truncate(length);
    Ok(Hex(out))
}

/// The line that the proved implementation writes of these bytes.
fn write_line(bytes: &[u8]) -> Result<Hex, u8> {
    let mut out = vec![0; 2 * bytes.len()];
    accepted(Proved::write_line(bytes, &mut out))?;
    Ok(Hex(out))
}

/// A call's number as a result.
fn accepted(number: u8) -> Result<(), u8> {
    match number {
        0 => Ok(()),
        refused => Err(refused),
    }
}
