//! Which steps of the step table the cases made.

use crate::group::Score;
use crate::records::{held, Numbers, PLACES};
use crate::sample::{FRAME_KINDS, REQUEST_KINDS};
use reference::frame::{Body, Signal};
use reference::record::{self, RECORD};
use reference::request::CLOSE;
use reference::{Frame, Message, Request, State};
use std::cmp::Ordering;
use std::collections::BTreeSet;
use std::fmt::Debug;

/// So many of those that were never seen are printed.
const SHOWN: usize = 5;

/// A readable request or frame in some state.
#[derive(Clone, Copy, Debug, PartialEq, Eq, PartialOrd, Ord)]
enum Step {
    Request {
        state: u8,
        kind: u8,
    },
    Frame {
        state: u8,
        kind: u8,
        /// s, compared with D.
        sender: Ordering,
        /// Is r = L?
        quotes_us: bool,
    },
    /// A DATA of the open connection: how far its number is above e, and whether a copy is held.
    Data {
        above: Above,
        is_held: bool,
    },
    /// A collect at an open end: is block e held, and is a later one?
    Collect {
        next: bool,
        later: bool,
    },
    /// An open end that holds blocks is closed by this request or frame.
    Leave {
        kind: u8,
    },
    /// A close while calling: is a partner known?
    HangUp {
        knows_partner: bool,
    },
}

/// How far a number is above e.
#[derive(Clone, Copy, Debug, PartialEq, Eq, PartialOrd, Ord)]
enum Above {
    /// It is below.
    Below,
    /// It has this place.
    Place(usize),
    /// It is the first without a place.
    TooFar,
    Further,
}

impl Above {
    /// How far this number is above e.
    fn of(number: u32, e: u32) -> Self {
        match number.checked_sub(e).map(|above| above as usize) {
            None => Self::Below,
            Some(PLACES) => Self::TooFar,
            Some(above) if above < PLACES => Self::Place(above),
            Some(_) => Self::Further,
        }
    }
}

/// The steps made so far.
#[derive(Default)]
pub struct Coverage(BTreeSet<Step>);

impl Coverage {
    /// A sound record meets these bytes.
    pub fn see(&mut self, record: &[u8], message: &[u8]) {
        if let Ok(message) = Message::read(message) {
            self.0.insert(Step::of(record, &message));
            self.0.extend(Step::with_held(record, &message));
            self.0.extend(Step::hang_up(record, &message));
        }
    }

    /// Prints how many steps were made. Each one that was never made is a failed case.
    pub fn report(&self) -> Score {
        report("steps", &Step::all(), &self.0)
    }

    /// Prints how many steps were made. Each one that is missing to this many is a failed case.
    pub fn report_least(&self, least: usize) -> Score {
        let seen = self.0.len();
        println!("steps: {seen} seen, {least} expected at least");
        Score {
            passed: 0,
            failed: least.saturating_sub(seen) as u64,
        }
    }
}

/// Prints how many of all these were seen. Each one that was never seen is a failed case.
pub fn report<T: Ord + Debug>(name: &str, all: &[T], seen: &BTreeSet<T>) -> Score {
    let unseen: Vec<_> = all.iter().filter(|one| !seen.contains(one)).collect();
    println!("{name}: {} of {} seen", all.len() - unseen.len(), all.len());
    for one in unseen.iter().take(SHOWN) {
        println!("{name}: {one:?} was never seen");
    }
    Score {
        passed: 0,
        failed: unseen.len() as u64,
    }
}

impl Step {
    /// The step of this message.
    fn of(record: &[u8], message: &Message) -> Self {
        let (state, local, remote) = record::summary(record);
        match message {
            Message::Request(request) => Self::Request {
                state,
                kind: request.kind(),
            },
            Message::Frame(Frame {
                sender,
                quoted,
                body,
            }) => Self::Frame {
                state,
                kind: body.kind(),
                sender: sender.cmp(&remote),
                quotes_us: *quoted == local,
            },
        }
    }

    /// The step of an open end by what it has to do with held blocks, if it has.
    fn with_held(record: &[u8], message: &Message) -> Option<Self> {
        let record: &[u8; RECORD] = record.first_chunk()?;
        if record[0] != State::Open as u8 {
            return None;
        }
        match message {
            Message::Request(Request::Collect) => Some(Self::collect(held(record))),
            Message::Request(Request::Close) => Self::leave(held(record), CLOSE),
            Message::Frame(frame) => Self::with_frame(record, frame),
            _ => None,
        }
    }

    /// The same of a frame.
    fn with_frame(record: &[u8; RECORD], frame: &Frame) -> Option<Self> {
        let numbers = Numbers::of(record);
        if frame.quoted != numbers.local {
            return None;
        }
        let sender = frame.sender.cmp(&numbers.remote);
        match (frame.body, sender) {
            (Body::Data { sequence, .. }, Ordering::Equal) => {
                let above = Above::of(sequence, numbers.handed_up);
                Some(Self::data(held(record), above))
            }
            (Body::Signal(Signal::Dr), Ordering::Equal) => {
                Self::leave(held(record), Signal::Dr as u8)
            }
            (Body::Signal(Signal::Rej), Ordering::Equal | Ordering::Greater) => {
                Self::leave(held(record), Signal::Rej as u8)
            }
            _ => None,
        }
    }

    /// A DATA whose number is so far above e, where blocks of these lengths are held.
    fn data(held: &[u8; PLACES], above: Above) -> Self {
        let is_held = matches!(above, Above::Place(place) if held[place] > 0);
        Self::Data { above, is_held }
    }

    /// A collect where blocks of these lengths are held.
    fn collect([next, later @ ..]: &[u8; PLACES]) -> Self {
        Self::Collect {
            next: *next > 0,
            later: later.iter().any(|&length| length > 0),
        }
    }

    /// What leaves open by this kind, if blocks of these lengths are any.
    fn leave(held: &[u8; PLACES], kind: u8) -> Option<Self> {
        let is_any = held.iter().any(|&length| length > 0);
        is_any.then_some(Self::Leave { kind })
    }

    /// The step that hangs a call up, if it does.
    fn hang_up(record: &[u8], message: &Message) -> Option<Self> {
        let (state, _, remote) = record::summary(record);
        let is_calling = state == State::Calling as u8;
        let hangs_up = is_calling && *message == Message::Request(Request::Close);
        hangs_up.then_some(Self::HangUp {
            knows_partner: remote > 0,
        })
    }

    /// All steps that there are.
    fn all() -> Vec<Self> {
        let states = State::ALL.map(|state| state as u8);
        states
            .into_iter()
            .flat_map(|state| Self::requests(state).chain(Self::frames(state)))
            .chain(Self::all_with_held())
            .chain([false, true].map(|knows_partner| Self::HangUp { knows_partner }))
            .collect()
    }

    /// All steps that have to do with held blocks.
    fn all_with_held() -> impl Iterator<Item = Self> {
        let both = [false, true];
        let places = (0..PLACES).map(Above::Place);
        let kept = places.flat_map(move |above| both.map(|is_held| Self::Data { above, is_held }));
        let others = [Above::Below, Above::TooFar, Above::Further].map(|above| Self::Data {
            above,
            is_held: false,
        });
        let collects = both
            .into_iter()
            .flat_map(move |next| both.map(|later| Self::Collect { next, later }));
        let leaving = [CLOSE, Signal::Dr as u8, Signal::Rej as u8];
        let leaving = leaving.map(|kind| Self::Leave { kind });
        kept.chain(others).chain(collects).chain(leaving)
    }

    /// Every request in this state.
    fn requests(state: u8) -> impl Iterator<Item = Self> {
        REQUEST_KINDS
            .into_iter()
            .map(move |kind| Self::Request { state, kind })
    }

    /// Every frame in this state.
    fn frames(state: u8) -> impl Iterator<Item = Self> {
        let orders = [Ordering::Less, Ordering::Equal, Ordering::Greater];
        let frames = FRAME_KINDS.into_iter().flat_map(move |kind| {
            orders.into_iter().flat_map(move |sender| {
                [false, true].map(|quotes_us| Self::Frame {
                    state,
                    kind,
                    sender,
                    quotes_us,
                })
            })
        });
        frames.filter(Self::is_possible)
    }

    /// In closed and listening D is 0: no s is below it, and only REJ and DRACK may have s = 0.
    fn is_possible(&self) -> bool {
        match *self {
            Self::Frame {
                state: 0 | 1,
                kind,
                sender,
                ..
            } => match sender {
                Ordering::Less => false,
                Ordering::Equal => matches!(kind, 0x04 | 0x07),
                Ordering::Greater => true,
            },
            _ => true,
        }
    }
}

#[cfg(test)]
mod tests {
    use super::*;
    use crate::records::hold;
    use crate::sample::message;
    use reference::frame::DATA;
    use reference::request::{COLLECT, TIMER};

    #[test]
    fn there_are_42_steps_of_requests_260_of_frames_26_with_held_blocks_and_2_hang_ups() {
        let all = Step::all();
        let count = |is_one: fn(&&Step) -> bool| all.iter().filter(is_one).count();
        assert_eq!(count(|step| matches!(step, Step::Request { .. })), 42);
        assert_eq!(count(|step| matches!(step, Step::Frame { .. })), 260);
        assert_eq!(Step::all_with_held().count(), 26);
        assert_eq!(count(|step| matches!(step, Step::HangUp { .. })), 2);
        assert_eq!(all.len(), 330);
        let different: BTreeSet<_> = all.iter().collect();
        assert_eq!(different.len(), all.len());
    }

    #[test]
    fn only_what_was_seen_counts() {
        let mut coverage = Coverage::default();
        let closed = [0; record::RECORD];
        coverage.see(&closed, &[0x40]);
        coverage.see(&closed, &[0x40]);
        coverage.see(&closed, &[0x40, 0x00]);
        assert_eq!(coverage.report().failed, 329);
        coverage.see(&closed, &[1, 0, 0, 0, 7, 0, 0, 0, 0]);
        assert_eq!(coverage.report().failed, 328);
        assert_eq!(coverage.report_least(2).failed, 0);
        assert_eq!(coverage.report_least(5).failed, 3);
    }

    /// How many steps with held blocks these messages show at an open end that holds blocks e
    /// and e + 3.
    fn shown(messages: &[Vec<u8>]) -> usize {
        let numbers = Numbers {
            local: 5,
            remote: 3,
            accepted: 0,
            handed_up: 9,
        };
        let mut record = numbers.record(State::Open, &[]);
        hold(&mut record, 0, b"nine");
        hold(&mut record, 3, b"twelve");
        let mut coverage = Coverage::default();
        for message in messages {
            coverage.see(&record, message);
        }
        let all: BTreeSet<_> = Step::all_with_held().collect();
        coverage.0.intersection(&all).count()
    }

    #[test]
    fn steps_with_held_blocks_are_told_apart_by_the_number() {
        let data = |s, r, number| message(DATA, &[s, r, number], b"block");
        let different = [0, 9, 10, 12, 16, 17, 18].map(|number| data(3, 5, number));
        assert_eq!(shown(&different), 7);
        let alike = [0, 1, 8].map(|number| data(3, 5, number));
        assert_eq!(shown(&alike), 1);
        assert_eq!(shown(&[data(4, 5, 9), data(3, 6, 9)]), 0);
    }

    #[test]
    fn collects_and_what_leaves_open_are_steps_with_held_blocks() {
        let dr = |s, r| message(Signal::Dr as u8, &[s, r], &[]);
        assert_eq!(shown(&[vec![COLLECT], vec![CLOSE], dr(3, 5)]), 3);
        assert_eq!(shown(&[vec![TIMER], dr(4, 5), dr(3, 6)]), 0);
        let rej = |s, r| message(Signal::Rej as u8, &[s, r], &[]);
        assert_eq!(shown(&[rej(3, 5), rej(4, 5)]), 1);
        assert_eq!(shown(&[rej(2, 5), rej(3, 6)]), 0);
    }

    /// The hang-ups that a close shows at an end of this state with this D.
    fn hang_ups(state: State, remote: u32) -> Vec<Step> {
        let numbers = Numbers {
            local: 5,
            remote,
            accepted: 0,
            handed_up: 0,
        };
        let mut coverage = Coverage::default();
        coverage.see(&numbers.record(state, &[]), &[CLOSE]);
        coverage.see(&numbers.record(state, &[]), &[TIMER]);
        let is_hang_up = |step: &Step| matches!(step, Step::HangUp { .. });
        coverage.0.into_iter().filter(is_hang_up).collect()
    }

    #[test]
    fn hang_ups_are_told_apart_by_the_partner_and_happen_while_calling_alone() {
        for (remote, knows_partner) in [(0, false), (1, true), (u32::MAX, true)] {
            let right = [Step::HangUp { knows_partner }];
            assert_eq!(hang_ups(State::Calling, remote), right);
        }
        for state in [State::Answering, State::Open, State::Closing] {
            assert_eq!(hang_ups(state, 3), []);
        }
        assert_eq!(hang_ups(State::Closed, 0), []);
    }
}
