//! Asking the reference: what it does in a state with a request or a frame.
//!
//! The numbers asked with are chosen so that those in an answer can be named, and lie on both
//! sides of every limit that a rule may have.

use crate::end::{End, Held};
use crate::kind::{Form, Kind};
use crate::name;
use reference::block::LONGEST_BLOCK;
use reference::call::{self, Answer};
use reference::frame::LONGEST_FRAME;
use reference::{Refusal, State};

/// L and D of the ends asked. Those with D = 0 come last: where D is 0, fewer numbers differ.
const NUMBERS: [[u32; 2]; 4] = [[5, 3], [70, 110], [5, 0], [0, 0]];
/// t, e and w of the ends asked, and how far above e the blocks are that they hold.
const COUNTS: [(u32, u32, u8, &[usize]); 5] = [
    (20, 40, 3, &[]),
    (30, 50, 8, &[0, 2]),
    (20, 40, 0, &[1, 3, 7]),
    (30, 50, 1, &[0, 1, 2, 3, 4, 5, 6, 7]),
    (0, 0, 0, &[]),
];
/// The block that is sent or arrives.
const BLOCK: &[u8] = b"new";

/// The refusal numbers that mean something here.
const UNREADABLE: u8 = Refusal::Numbers as u8;
const NOT_ALLOWED: u8 = Refusal::State as u8;
const NUMBERS_USED_UP: u8 = Refusal::NumbersUsedUp as u8;
const WAITING_FULL: u8 = Refusal::WaitingFull as u8;
const UNSOUND: u8 = Refusal::Unsound as u8;

/// An end, and the request or frame that it gets.
#[derive(Clone, Debug)]
pub struct Sample {
    pub end: End,
    pub kind: Kind,
    /// The numbers of a frame, as far as its kind has them.
    pub s: Option<u32>,
    pub r: Option<u32>,
    /// The sequence number of DATA.
    pub sequence: Option<u32>,
    /// The count of ACK.
    pub count: Option<u32>,
}

/// What an accepted call did.
#[derive(Clone, Debug)]
pub struct Step {
    pub after: End,
    pub notice: u8,
    /// The frame sent, in bytes.
    pub sent: Option<Vec<u8>>,
    /// The block handed up.
    pub block: Option<Vec<u8>>,
}

/// A sample and its step; none if the state does not allow the request (question 8).
#[derive(Clone, Debug)]
pub struct Probe {
    pub sample: Sample,
    pub step: Option<Step>,
}

impl Sample {
    /// A request, or a frame whose numbers are still to be set.
    fn new(end: &End, kind: Kind) -> Self {
        Self {
            end: end.clone(),
            kind,
            s: None,
            r: None,
            sequence: None,
            count: None,
        }
    }

    /// The block that it carries.
    pub fn block(&self) -> Option<&'static [u8]> {
        self.kind.form.has_block().then_some(BLOCK)
    }

    /// The block that may come up: the one that arrives, or with a request the held one numbered e.
    pub fn coming_up(&self) -> Option<&[u8]> {
        match self.kind.form {
            Form::Data => self.block(),
            Form::Request => self.end.held_block(self.end.handed_up),
            _ => None,
        }
    }

    /// The request or frame in bytes.
    fn message(&self) -> Vec<u8> {
        let mut bytes = vec![self.kind.byte];
        let numbers = [self.s, self.r, self.sequence, self.count];
        for number in numbers.into_iter().flatten() {
            bytes.extend(number.to_be_bytes());
        }
        if let Some(block) = self.block() {
            bytes.push(block.len() as u8);
            bytes.extend(block);
        }
        bytes
    }

    /// Is it a frame with s < D?
    fn is_old(&self) -> bool {
        self.s.is_some_and(|s| s < self.end.remote)
    }
}

impl Probe {
    /// Asks the reference. There is nothing to learn where the numbers are none that an end sends
    /// (question 7), or where a request finds no number or place left (9 and 10).
    fn ask(sample: Sample) -> Result<Option<Self>, String> {
        let message = sample.message();
        let mut record = sample.end.write();
        let mut page = sample.end.page();
        let mut out = [0; LONGEST_FRAME];
        let mut up = [0; LONGEST_BLOCK];
        let answer = match sample.kind.form.is_request() {
            true => call::request(&mut record, &mut page, &message, &mut out, &mut up),
            false => call::receive(&mut record, &page, &message, &mut out),
        };
        let step = match answer.number {
            0 => Some(Step::of(&answer, End::read(&record)?, &out)),
            NOT_ALLOWED => None,
            UNREADABLE | NUMBERS_USED_UP | WAITING_FULL => return Ok(None),
            number => return Err(format!("refused with the unexpected number {number}")),
        };
        Ok(Some(Self { sample, step }))
    }

    /// Is it for the table to say what the step does? Not so with s < D, where it does nothing.
    fn is_of_the_table(&self) -> Result<bool, String> {
        let is_old = self.sample.is_old();
        if is_old && !self.is_passed_over() {
            return Err(format!("s < D is not passed over: {self:?}"));
        }
        Ok(!is_old)
    }

    /// Did the step change, send, tell and hand up nothing?
    fn is_passed_over(&self) -> bool {
        self.step.as_ref().is_some_and(|step| {
            step.after == self.sample.end
                && step.notice == 0
                && step.sent.is_none()
                && step.block.is_none()
        })
    }
}

impl Step {
    /// What the call did that has this answer, left this record and had this buffer for its frame.
    fn of(answer: &Answer, after: End, out: &[u8]) -> Self {
        let sent = &out[..answer.sent];
        Self {
            after,
            notice: answer.notice,
            sent: (!sent.is_empty()).then(|| sent.to_vec()),
            block: answer.block.map(|block| block.bytes().to_vec()),
        }
    }
}

/// What the reference does in this state with a request or frame of this kind. Frames with s < D
/// are passed over in every state: that is made sure of here, and they are left out.
pub fn probe(state: State, kind: Kind) -> Result<Vec<Probe>, String> {
    let mut probes = Vec::new();
    for sample in samples(state, kind) {
        if let Some(probe) = Probe::ask(sample)? {
            if probe.is_of_the_table()? {
                probes.push(probe);
            }
        }
    }
    if probes.is_empty() {
        return Err(format!(
            "nothing could be asked when {}",
            name::state(state)
        ));
    }
    Ok(probes)
}

/// The samples of a state and kind. Those whose numbers differ most come first.
fn samples(state: State, kind: Kind) -> Vec<Sample> {
    ends(state)
        .iter()
        .flat_map(|end| match kind.form.is_request() {
            true => vec![Sample::new(end, kind)],
            false => frames(end, kind),
        })
        .collect()
}

/// The sound ends in this state.
fn ends(state: State) -> Vec<End> {
    let mut ends = Vec::new();
    for [local, remote] in NUMBERS {
        for (accepted, handed_up, waiting, held) in COUNTS {
            ends.push(End {
                state,
                local,
                remote,
                accepted,
                handed_up,
                waiting: (1..=waiting).map(|length| vec![length; 2]).collect(),
                held: held_blocks(held),
            });
        }
    }
    ends.retain(is_sound);
    ends
}

/// Blocks that are held so far above e.
fn held_blocks(above: &[usize]) -> Held {
    let mut held = Held::default();
    for &place in above {
        held[place] = vec![place as u8; 3];
    }
    held
}

/// Is the record sound? The reference says so: question 12 comes before the kind of a frame.
fn is_sound(end: &End) -> bool {
    let out = &mut [0; LONGEST_FRAME];
    call::receive(&mut end.write(), &end.page(), &[], out).number != UNSOUND
}

/// Frames of this kind for the end: s above, equal to and below D, r equal to L or not.
fn frames(end: &End, kind: Kind) -> Vec<Sample> {
    let (l, d) = (end.local, end.remote);
    let mut samples = Vec::new();
    for s in [d + 1, d + 1000, d, d.saturating_sub(1), 1, 0] {
        for r in [l, l + 1, l.saturating_sub(1), l + 1000, d, 0] {
            let sample = Sample {
                s: Some(s),
                r: Some(r),
                ..Sample::new(end, kind)
            };
            samples.extend(completed(sample));
        }
    }
    samples
}

/// The frame with each third number of its kind: those of DATA about e and e + 7, those of ACK about
/// t − w and t, with the neighbours of these limits.
fn completed(sample: Sample) -> Vec<Sample> {
    let (t, e, oldest) = (
        sample.end.accepted,
        sample.end.handed_up,
        sample.end.oldest(),
    );
    let with_sequence = |sequence| Sample {
        sequence: Some(sequence),
        ..sample.clone()
    };
    let with_count = |count| Sample {
        count: Some(count),
        ..sample.clone()
    };
    match sample.kind.form {
        Form::Data => [
            e,
            e + 1,
            e + 2,
            e + 7,
            e + 8,
            e + 1000,
            e.saturating_sub(1),
            0,
        ]
        .map(with_sequence)
        .to_vec(),
        Form::Ack => [
            oldest + 1,
            t,
            t.saturating_sub(1),
            oldest,
            t + 1,
            oldest.saturating_sub(1),
            t + 1000,
            0,
        ]
        .map(with_count)
        .to_vec(),
        _ => vec![sample],
    }
}

#[cfg(test)]
mod tests {
    use super::*;
    use crate::kind;

    fn asked(state: State, byte: u8) -> Vec<Probe> {
        probe(state, kind::of(byte).unwrap()).unwrap()
    }

    #[test]
    fn every_state_has_sound_ends_and_only_calling_has_both_d() {
        for state in State::ALL {
            let ends = ends(state);
            let unknown = ends.iter().filter(|end| end.remote == 0).count();
            let both = unknown > 0 && unknown < ends.len();
            assert!(!ends.is_empty());
            assert_eq!(both, state == State::Calling);
        }
    }

    #[test]
    fn frames_lie_on_both_sides_of_every_limit() {
        let probes = asked(State::Open, 0x09);
        let has = |test: fn(&Sample) -> bool| probes.iter().any(|probe| test(&probe.sample));
        assert!(has(|x| x.s == Some(x.end.remote)));
        assert!(has(|x| x.s > Some(x.end.remote)));
        assert!(has(|x| x.r == Some(x.end.local)));
        assert!(has(|x| x.r < Some(x.end.local)));
        assert!(has(|x| x.r > Some(x.end.local)));
        assert!(has(|x| x.count == Some(x.end.oldest())));
        assert!(has(|x| x.count == Some(x.end.oldest() + 1)));
        assert!(has(|x| x.count == Some(x.end.accepted)));
        assert!(has(|x| x.count == Some(x.end.accepted + 1)));
        assert!(!has(|x| x.s < Some(x.end.remote)));
    }

    #[test]
    fn blocks_arrive_on_both_sides_of_every_limit_held_or_not() {
        let probes = asked(State::Open, 0x08);
        for above in [0, 1, 2, 7] {
            for is_held in [false, true] {
                let is_asked = |x: &Sample| {
                    let number = x.end.handed_up + above;
                    let has_copy = x.end.held_block(number).is_some();
                    x.sequence == Some(number) && has_copy == is_held
                };
                assert!(probes.iter().any(|probe| is_asked(&probe.sample)));
            }
        }
        let has = |test: fn(&Sample) -> bool| probes.iter().any(|probe| test(&probe.sample));
        assert!(has(|x| x.sequence == Some(x.end.handed_up + 8)));
        assert!(has(|x| x.sequence < Some(x.end.handed_up)));
    }

    #[test]
    fn an_old_frame_that_does_something_is_an_error() {
        let mut probe = asked(State::Answering, 0x05).remove(0);
        assert_eq!(probe.is_of_the_table(), Ok(true));
        probe.sample.s = Some(probe.sample.end.remote - 1);
        assert!(!probe.is_passed_over());
        assert!(probe.is_of_the_table().is_err());
        probe.step.as_mut().unwrap().after = probe.sample.end.clone();
        assert_eq!(probe.is_of_the_table(), Ok(false));
        probe.step.as_mut().unwrap().notice = 1;
        assert!(probe.is_of_the_table().is_err());
    }

    #[test]
    fn a_refusal_may_come_from_an_end_that_never_had_a_number() {
        let probes = asked(State::Calling, 0x04);
        assert!(probes.iter().any(|probe| probe.sample.s == Some(0)));
    }

    #[test]
    fn a_request_is_refused_where_the_state_does_not_allow_it() {
        assert!(asked(State::Open, 0x40).iter().all(|x| x.step.is_none()));
        assert!(asked(State::Closed, 0x40).iter().all(|x| x.step.is_some()));
    }

    #[test]
    fn a_full_end_is_not_asked_to_send() {
        let probes = asked(State::Open, 0x44);
        assert!(probes.iter().all(|x| x.sample.end.waiting.len() < 8));
        assert!(probes.iter().all(|x| x.step.is_some()));
    }
}
