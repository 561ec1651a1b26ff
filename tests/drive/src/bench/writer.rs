//! A bench of the reference that writes its own script.

use crate::reference_program::ReferenceProgram;
use crate::script::Script;
use crate::sessions::{request, Requests, Taken};
use cases::bench::deliver;
use cases::random::Random;
use cases::records::waiting;
use cases::sample::message;
use reference::bench::book::PLACES;
use reference::bench::program::BenchProgram;
use reference::bench::{Side, RESTART};
use reference::page::STRETCH;
use reference::request::{CONNECT, END_LISTENING, LISTEN, SEND, TIMER};
use reference::State;

/// A bench, all that it was asked, and how far each end's deliveries have come.
#[derive(Default)]
pub struct Writer {
    program: BenchProgram,
    pub script: Script,
    taken: [Taken; 2],
}

/// How a session goes.
#[derive(Clone, Copy)]
pub struct Manner {
    /// So many lines of ten are deliveries.
    pub deliveries: usize,
    /// So many deliveries of ten are of any frame, however old.
    pub old: usize,
    /// So many lines of a thousand restart an end.
    pub restarts: usize,
    pub request: Requests,
}

impl Manner {
    /// Some manner: from nearly in order to no order at all.
    pub fn any(random: &mut Random) -> Self {
        Self {
            deliveries: random.within(3..=8),
            old: random.pick(&[0, 0, 1, 4, 10]),
            restarts: 0,
            request,
        }
    }
}

impl Writer {
    /// How many frames the book holds.
    pub fn frames(&self) -> usize {
        self.program.used().len()
    }

    /// A request of this end; gives its number.
    pub fn request(&mut self, side: Side, request: &[u8]) -> u8 {
        self.line(&[&[side.lead()], request].concat())
    }

    /// The delivery of this frame; gives its number.
    pub fn deliver(&mut self, number: usize) -> u8 {
        self.line(&deliver(number))
    }

    /// The restart of this end; gives its number.
    pub fn restart(&mut self, side: Side) -> u8 {
        self.line(&[RESTART, side.lead()])
    }

    /// This end restarts, and listens in vain until its next number is the last of its page byte.
    pub fn listen_to_the_edge(&mut self, side: Side) {
        self.restart(side);
        for _ in 1..STRETCH {
            self.request(side, &[LISTEN]);
            self.request(side, &[END_LISTENING]);
        }
    }

    /// So many lines of a session of this manner.
    pub fn session(&mut self, random: &mut Random, manner: Manner, lines: usize) {
        for _ in 0..lines {
            let side = random.pick(&Side::BOTH);
            if manner.restarts > 0 && random.within(1..=1_000) <= manner.restarts {
                self.restart(side);
            } else if random.within(1..=10) <= manner.deliveries {
                let number = self.frame_for(random, manner, side);
                self.deliver(number);
            } else {
                let request = (manner.request)(random, self.state(side));
                self.request(side, &request);
            }
        }
    }

    /// Fills the book up to this many frames, mostly with timer calls.
    pub fn fill(&mut self, random: &mut Random, frames: usize) {
        while self.frames() < frames {
            let side = random.pick(&Side::BOTH);
            let kind = match self.state(side) {
                State::Closed => CONNECT,
                State::Listening => END_LISTENING,
                State::Open if waiting(self.program.record(side)) == 0 => SEND,
                _ => TIMER,
            };
            self.request(side, &message(kind, &[], b"block"));
        }
    }

    /// A frame for this end: one that the other sent if there is one, and seldom any number.
    fn frame_for(&mut self, random: &mut Random, manner: Manner, side: Side) -> usize {
        let frames = self.frames();
        let is_for_side = |number: &usize| self.program.used()[*number][0] != side as u8;
        let sent: Vec<_> = (0..frames).filter(is_for_side).collect();
        match random.within(0..=63) {
            0 => random.pick(&[
                frames,
                frames + 1,
                PLACES - 1,
                PLACES,
                usize::from(u16::MAX),
            ]),
            _ if sent.is_empty() => random.within(0..=frames),
            _ if random.within(1..=10) <= manner.old => random.pick(&sent),
            _ => sent[self.taken[side.index()].next(random, sent.len())],
        }
    }

    /// Adds the line to the script; gives the number of its answer.
    fn line(&mut self, bytes: &[u8]) -> u8 {
        let line = self.script.push(bytes);
        BenchProgram::number(&self.program.answer(line))
    }

    /// The state of this end.
    pub fn state(&self, side: Side) -> State {
        State::of(self.program.record(side)[0]).expect("the record is sound")
    }
}
