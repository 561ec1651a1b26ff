//! Lines that are written: an answer of one end, and the longest frame.

use crate::measure::{Both, Measure};
use compare::codec::Codec;
use compare::proved::Proved;
use reference::frame::LONGEST_FRAME;
use reference::line;
use std::hint::black_box;

/// So many lines are timed at once.
const BATCH: u32 = 50_000;

/// Bytes, and room for their digits.
struct Case {
    bytes: Vec<u8>,
    out: [u8; 2 * LONGEST_FRAME],
    line: Vec<u8>,
}

/// Writes the digits.
const WRITE: Both<Case> = Both {
    proved: |case| {
        black_box(Proved::write_line(black_box(&case.bytes), &mut case.out));
        black_box(&case.out);
    },
    reference: |case| {
        case.line.clear();
        line::append(black_box(&case.bytes), &mut case.line);
        black_box(&case.line);
    },
};

/// Measures both.
pub fn measure(measure: &mut impl Measure) {
    for (name, length) in [("line: 11 bytes", 11), ("line: 78 bytes", LONGEST_FRAME)] {
        let mut case = Case {
            bytes: (0..length).map(|at| (at * 37) as u8).collect(),
            out: [0; 2 * LONGEST_FRAME],
            line: Vec::with_capacity(2 * LONGEST_FRAME),
        };
        measure.call(name, BATCH, &mut case, WRITE);
    }
}
