//! The programs of the reference that others are compared with.

#[cfg(test)]
use crate::script::Script;
#[cfg(test)]
use cases::records::Numbers;
use reference::bench::program::BenchProgram;
use reference::bench::Side;
#[cfg(test)]
use reference::frame::Signal;
use reference::line;
use reference::program::LineProgram;
use reference::record::RECORD;
use reference::stream::Lines;
#[cfg(test)]
use reference::{Frame, State};

/// A message that an end is about to meet.
pub struct Meeting {
    /// Which end it is; that of a program with one end is A.
    pub side: Side,
    /// The end's record before.
    pub record: [u8; RECORD],
    pub message: Vec<u8>,
}

/// A program of the reference, as it starts.
pub trait ReferenceProgram: Lines + Default {
    /// So many characters of an answer line stand before its number.
    const LEAD: usize;

    /// The record of its only end, or of A: what is told where a line names no end.
    fn first_record(&self) -> &[u8; RECORD];

    /// What an end is about to meet with this line, if anything.
    fn meeting(&self, line: &[u8]) -> Option<Meeting>;

    /// The end that this line restarts, if it does, and its record before.
    fn restarting(&self, line: &[u8]) -> Option<(Side, &[u8; RECORD])>;

    /// The answer to this line.
    fn answer(&mut self, line: &[u8]) -> Vec<u8> {
        let mut answer = Vec::new();
        self.line(line, &mut answer);
        answer
    }

    /// The number of an answer.
    fn number(answer: &[u8]) -> u8 {
        byte(&answer[Self::LEAD..]) - 0x80
    }

    /// The notice of an answer.
    fn notice(answer: &[u8]) -> u8 {
        byte(&answer[Self::LEAD + 4..])
    }
}

/// The byte that the first two digits give.
fn byte(digits: &[u8]) -> u8 {
    line::read(&digits[..2]).expect("two digits")[0]
}

impl ReferenceProgram for LineProgram {
    const LEAD: usize = 0;

    fn first_record(&self) -> &[u8; RECORD] {
        self.record()
    }

    fn meeting(&self, line: &[u8]) -> Option<Meeting> {
        let message = line::read(line).ok()?;
        Some(Meeting {
            side: Side::A,
            record: *self.record(),
            message: message.to_vec(),
        })
    }

    fn restarting(&self, _: &[u8]) -> Option<(Side, &[u8; RECORD])> {
        None
    }
}

impl ReferenceProgram for BenchProgram {
    const LEAD: usize = 2;

    fn first_record(&self) -> &[u8; RECORD] {
        self.record(Side::A)
    }

    fn meeting(&self, line: &[u8]) -> Option<Meeting> {
        let (side, message) = cases::bench::meeting(self.used(), line)?;
        Some(Meeting {
            side,
            record: *self.record(side),
            message,
        })
    }

    fn restarting(&self, line: &[u8]) -> Option<(Side, &[u8; RECORD])> {
        let side = cases::bench::restarted(line)?;
        Some((side, self.record(side)))
    }
}

/// What the ends of a program meet with this script, each with the number of its answer.
#[cfg(test)]
pub fn meetings<P: ReferenceProgram>(script: &Script) -> Vec<(Meeting, u8)> {
    let mut program = P::default();
    let lines = script.lines().filter_map(|line| {
        let meeting = program.meeting(line);
        let number = P::number(&program.answer(line));
        meeting.map(|meeting| (meeting, number))
    });
    lines.collect()
}

/// How often in these scripts a REJ closes an open end: with s = D, and with s above D, which tells
/// of a restart.
#[cfg(test)]
pub fn told_by_rej<P: ReferenceProgram>(scripts: impl Iterator<Item = Script>) -> [usize; 2] {
    let mut times = [0; 2];
    for (meeting, number) in scripts.flat_map(|script| meetings::<P>(&script)) {
        let Ok(frame) = Frame::read(&meeting.message) else {
            continue;
        };
        let numbers = Numbers::of(&meeting.record);
        let is_open = meeting.record[0] == State::Open as u8;
        let is_rej = frame.signal() == Some(Signal::Rej);
        let is_ours = frame.quoted == numbers.local && frame.sender >= numbers.remote;
        if number == 0 && is_open && is_rej && is_ours {
            times[usize::from(frame.sender > numbers.remote)] += 1;
        }
    }
    times
}

#[cfg(test)]
mod tests {
    use super::*;

    /// The messages that this program meets with these lines, where it meets any.
    fn messages<P: ReferenceProgram>(lines: &[&str]) -> Vec<Option<Vec<u8>>> {
        let mut program = P::default();
        let lines = lines.iter().map(|line| {
            let meeting = program.meeting(line.as_bytes());
            let message = meeting.map(|meeting| meeting.message);
            program.answer(line.as_bytes());
            message
        });
        lines.collect()
    }

    #[test]
    fn one_end_meets_what_is_on_the_line() {
        let found = messages::<LineProgram>(&["40", "ff", "zz", ""]);
        assert_eq!(found, [Some(vec![0x40]), Some(vec![0xff]), None, None]);
    }

    #[test]
    fn a_bench_meets_requests_and_frames_of_the_book() {
        let lines = ["520000", "5140", "520000", "520001", "zz", "5351"];
        let found = messages::<BenchProgram>(&lines);
        let crao = vec![1, 0, 0, 0, 1, 0, 0, 0, 0];
        let rej = vec![4, 0, 0, 0, 0, 0, 0, 0, 1];
        let right = [None, Some(vec![0x40]), Some(crao), Some(rej), None, None];
        assert_eq!(found, right);
    }

    #[test]
    fn a_bench_restarts_an_end_and_one_end_never_does() {
        let mut program = BenchProgram::default();
        program.answer(b"5140");
        let called = *program.record(Side::B);
        assert_eq!(program.restarting(b"5351"), Some((Side::B, &called)));
        for line in [&b"53"[..], b"5352", b"535150", b"5140", b"zz"] {
            assert_eq!(program.restarting(line), None);
        }
        assert_eq!(LineProgram::default().restarting(b"5350"), None);
    }

    #[test]
    fn the_number_stands_after_the_lead_and_the_notice_after_the_state() {
        assert_eq!(LineProgram::number(b"8204000000000100000007"), 2);
        assert_eq!(BenchProgram::number(b"508d00000000000000000000"), 13);
        assert_eq!(LineProgram::notice(b"800401000000010000000"), 1);
        assert_eq!(BenchProgram::notice(b"5180000300000001000000"), 3);
    }
}
