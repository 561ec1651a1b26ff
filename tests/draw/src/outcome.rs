//! What a step does, in the document's symbols.

use crate::end::{End, Held, PLACES};
use crate::kind::{self, Form, Kind};
use crate::probe::{Probe, Sample, Step};
use reference::frame::Body;
use reference::{Frame, State};

/// What a step does. Several steps share one outcome if the same symbols say what each does.
#[derive(Clone, Debug)]
pub struct Outcome {
    /// The state before.
    state: State,
    pub next: State,
    /// What happens to L, D, t, e, the waiting and the held blocks.
    changes: Vec<Names>,
    sent: Option<Sent>,
    pub notice: u8,
}

/// A frame that is sent.
#[derive(Clone, Debug)]
struct Sent {
    kind: Kind,
    /// Its numbers in their order.
    numbers: Vec<Names>,
}

/// All names that a number or a change may have, those preferred first, and whether each fits.
#[derive(Clone, Debug)]
struct Names(Vec<(&'static str, bool)>);

/// The name of a change that needs no words.
const NOTHING: &str = "";

impl Names {
    /// Those of these names that fit; at least one has to.
    fn of<const COUNT: usize>(what: &str, names: [(&'static str, bool); COUNT]) -> Named {
        let names = Self(names.to_vec());
        match names.chosen() {
            Some(_) => Ok(names),
            None => Err(format!("there is no symbol for {what}")),
        }
    }

    /// The preferred one of the names that fit.
    fn chosen(&self) -> Option<&'static str> {
        self.0.iter().find(|(_, fits)| *fits).map(|(name, _)| *name)
    }

    /// The name, once it is sure that there is one.
    fn text(&self) -> &'static str {
        self.chosen().expect("some name fits")
    }

    /// Those that fit here and there, if there are any. Both were made from the same names.
    fn shared(&self, other: &Self) -> Option<Self> {
        let pairs = self.0.iter().zip(&other.0);
        let names = Self(pairs.map(|(&(name, a), &(_, b))| (name, a && b)).collect());
        names.chosen().map(|_| names)
    }
}

type Named = Result<Names, String>;

impl Outcome {
    /// What the step of a probe does; none if the state does not allow the request.
    pub fn of(probe: &Probe) -> Result<Option<Self>, String> {
        let Probe { sample, step } = probe;
        let Some(step) = step else {
            return Ok(None);
        };
        ask_block(sample, step)?;
        let sent = step.sent.as_ref();
        Ok(Some(Self {
            state: sample.end.state,
            next: step.after.state,
            changes: changes(sample, &step.after)?,
            sent: sent
                .map(|bytes| Sent::of(bytes, sample, &step.after))
                .transpose()?,
            notice: step.notice,
        }))
    }

    /// The outcome that says what both do, if there is one.
    pub fn shared(&self, other: &Self) -> Option<Self> {
        let ends = |outcome: &Self| (outcome.state, outcome.next, outcome.notice);
        if ends(self) != ends(other) {
            return None;
        }
        let sent = match (&self.sent, &other.sent) {
            (None, None) => None,
            (Some(one), Some(two)) => Some(one.shared(two)?),
            _ => return None,
        };
        Some(Self {
            changes: all_shared(&self.changes, &other.changes)?,
            sent,
            ..*self
        })
    }

    /// Is nothing changed, sent or told?
    pub fn is_silent(&self) -> bool {
        let is_still = self.state == self.next && self.record().is_empty();
        is_still && self.sent.is_none() && self.notice == 0
    }

    /// What happens to the record, besides what entering a state always does.
    pub fn record(&self) -> String {
        let texts = self.changes.iter().map(Names::text);
        let texts: Vec<_> = texts.filter(|text| *text != NOTHING).collect();
        texts.join(", ")
    }

    /// The frame sent, such as `CRACK(L,s)`.
    pub fn sends(&self) -> String {
        self.sent.as_ref().map_or(String::new(), Sent::text)
    }
}

impl Sent {
    /// The frame that is sent in these bytes.
    fn of(bytes: &[u8], sample: &Sample, after: &End) -> Result<Self, String> {
        let frame = Frame::read(bytes).map_err(|_| "what is sent is no frame".to_string())?;
        let mut numbers = vec![sender(&frame, after)?, quoted(&frame, sample, after)?];
        match frame.body {
            Body::Signal(_) => {}
            Body::Data { sequence, block } => {
                if after.block(sequence) != Some(block.bytes()) {
                    return Err("DATA has another block than the waiting one".to_string());
                }
                numbers.push(sent_sequence(sequence, &sample.end)?);
            }
            Body::Ack { count } => {
                numbers.push(Names::of(
                    "the count sent",
                    [("e", count == after.handed_up)],
                )?);
            }
        }
        Ok(Self {
            kind: kind::of(frame.body.kind())?,
            numbers,
        })
    }

    fn shared(&self, other: &Self) -> Option<Self> {
        if self.kind != other.kind {
            return None;
        }
        Some(Self {
            kind: self.kind,
            numbers: all_shared(&self.numbers, &other.numbers)?,
        })
    }

    fn text(&self) -> String {
        let numbers: Vec<_> = self.numbers.iter().map(Names::text).collect();
        format!("{}({})", self.kind.name, numbers.join(","))
    }
}

/// The names that fit here and there, if each has one.
fn all_shared(these: &[Names], those: &[Names]) -> Option<Vec<Names>> {
    let pairs = these.iter().zip(those);
    pairs.map(|(one, other)| one.shared(other)).collect()
}

/// A block is handed up with notice 5, never otherwise, and it is the one that arrived or was held.
fn ask_block(sample: &Sample, step: &Step) -> Result<(), String> {
    let expected = (step.notice == 5).then(|| sample.coming_up()).flatten();
    if step.block.as_deref() != expected || (step.notice == 5 && expected.is_none()) {
        return Err("the block handed up does not agree with the notice".to_string());
    }
    Ok(())
}

/// The sender's number of a frame sent.
fn sender(frame: &Frame, after: &End) -> Named {
    Names::of("the s sent", [("L", frame.sender == after.local)])
}

/// The number that a frame sent quotes. D is preferred where the step leaves it as it was.
fn quoted(frame: &Frame, sample: &Sample, after: &End) -> Named {
    let r = frame.quoted;
    let d = sample.end.remote;
    let names = [
        ("0", r == 0),
        ("D", r == d && after.remote == d),
        ("s", sample.s == Some(r)),
        ("D", r == d),
    ];
    Names::of("the r sent", names)
}

/// The number of DATA sent, by the counts before the step.
fn sent_sequence(sequence: u32, before: &End) -> Named {
    let names = [
        ("t", sequence == before.accepted),
        ("t − w", sequence == before.oldest()),
    ];
    Names::of("the number of DATA", names)
}

/// What happens to the record besides its state.
fn changes(sample: &Sample, after: &End) -> Result<Vec<Names>, String> {
    let before = &sample.end;
    Ok(vec![
        local(before, after)?,
        remote(sample, after)?,
        count("t", "t + 1", before.accepted, after.accepted, after.state)?,
        count("e", "e + 1", before.handed_up, after.handed_up, after.state)?,
        waiting(sample, after)?,
        held(sample, after)?,
    ])
}

fn local(before: &End, after: &End) -> Named {
    let names = [
        (NOTHING, after.local == before.local),
        ("L + 1", before.local.checked_add(1) == Some(after.local)),
    ];
    Names::of("the new L", names)
}

/// Closed and listening have D = 0: that needs no words.
fn remote(sample: &Sample, after: &End) -> Named {
    let knows_nobody = matches!(after.state, State::Closed | State::Listening);
    let stays = after.remote == sample.end.remote && !knows_nobody;
    let names = [
        (NOTHING, stays || (knows_nobody && after.remote == 0)),
        ("D = s", sample.s == Some(after.remote)),
        ("D = 0", after.remote == 0),
    ];
    Names::of("the new D", names)
}

/// t or e. Only open has counts: that a step which leaves it clears them needs no words.
fn count(what: &str, next: &'static str, before: u32, after: u32, state: State) -> Named {
    let kept = if state == State::Open { before } else { 0 };
    let names = [
        (NOTHING, after == kept),
        (next, before.checked_add(1) == Some(after)),
    ];
    Names::of(&format!("the new {what}"), names)
}

/// The waiting blocks. Only open has any.
fn waiting(sample: &Sample, after: &End) -> Named {
    let kept = match after.state {
        State::Open => &sample.end.waiting[..],
        _ => &[],
    };
    let is_after = |blocks: Option<Vec<Vec<u8>>>| blocks.is_some_and(|is| is == after.waiting);
    let names = [
        (NOTHING, after.waiting == kept),
        ("the block waits", is_after(joined(sample))),
        ("the blocks before n leave", is_after(left(sample))),
    ];
    Names::of("the waiting blocks", names)
}

/// The held blocks. That they move as e rises, and that only open has any, needs no words.
fn held(sample: &Sample, after: &End) -> Named {
    let kept = match after.state {
        State::Open => moved(&sample.end, after),
        _ => Held::default(),
    };
    let names = [
        (NOTHING, after.held == kept),
        (
            "the block is held",
            with_early(sample).as_ref() == Some(&after.held),
        ),
    ];
    Names::of("the held blocks", names)
}

/// The held blocks before the step, moved by as much as e rose.
fn moved(before: &End, after: &End) -> Held {
    let risen = after.handed_up.saturating_sub(before.handed_up) as usize;
    let mut held = before.held.clone();
    held.rotate_left(risen.min(PLACES));
    held[PLACES.saturating_sub(risen)..].fill(Vec::new());
    held
}

/// The waiting blocks with the one that a request brings, if it brings one.
fn joined(sample: &Sample) -> Option<Vec<Vec<u8>>> {
    if sample.kind.form != Form::BlockRequest {
        return None;
    }
    let new = sample.block()?.to_vec();
    Some([&sample.end.waiting[..], &[new]].concat())
}

/// The waiting blocks from number n on, where n is the count of an ACK before which some wait.
fn left(sample: &Sample) -> Option<Vec<Vec<u8>>> {
    let leaving = sample.count?.checked_sub(sample.end.oldest())? as usize;
    let staying = sample.end.waiting.get(leaving..)?;
    (leaving > 0).then(|| staying.to_vec())
}

/// The held blocks with the one that arrives in its place, if it is early and none is there.
fn with_early(sample: &Sample) -> Option<Held> {
    let number = sample.sequence?;
    let place = sample.end.place(number)?;
    let is_free = place > 0 && sample.end.held_block(number).is_none();
    is_free.then(|| {
        let mut held = sample.end.held.clone();
        held[place] = sample.block().unwrap_or_default().to_vec();
        held
    })
}

#[cfg(test)]
mod tests {
    use super::*;
    use reference::frame::Signal;
    use reference::Block;

    /// An open end with L = 5, D = 3, t = 20, e = 40 and three waiting blocks.
    fn open() -> End {
        End {
            state: State::Open,
            local: 5,
            remote: 3,
            accepted: 20,
            handed_up: 40,
            waiting: vec![vec![1], vec![2], vec![3]],
            held: Held::default(),
        }
    }

    /// The same as a calling end.
    fn calling() -> End {
        End {
            state: State::Calling,
            accepted: 0,
            handed_up: 0,
            waiting: vec![],
            ..open()
        }
    }

    /// An end that gets a frame of this kind with this s, and is left so.
    fn probe(end: End, kind: u8, s: u32, after: End) -> Probe {
        let sample = Sample {
            end,
            kind: kind::of(kind).unwrap(),
            s: Some(s),
            r: Some(5),
            sequence: None,
            count: None,
        };
        let step = Step {
            after,
            notice: 0,
            sent: None,
            block: None,
        };
        Probe {
            sample,
            step: Some(step),
        }
    }

    /// The same, and this frame is sent.
    fn sending(mut probe: Probe, s: u32, r: u32, body: Body) -> Probe {
        let step = probe.step.as_mut().unwrap();
        step.sent = Some(Frame::new(s, r, body).write());
        probe
    }

    fn outcome(probe: &Probe) -> Outcome {
        Outcome::of(probe).unwrap().unwrap()
    }

    #[test]
    fn a_new_d_is_s_or_an_error() {
        let left = |remote| End {
            remote,
            ..calling()
        };
        let step = |s, remote| probe(calling(), 0x01, s, left(remote));
        assert_eq!(outcome(&step(7, 7)).record(), "D = s");
        assert_eq!(outcome(&step(7, 3)).record(), "");
        assert_eq!(outcome(&step(7, 0)).record(), "D = 0");
        assert!(Outcome::of(&step(7, 8)).is_err());
    }

    #[test]
    fn an_equal_s_shares_the_outcome_of_both() {
        let left = |remote| End {
            remote,
            ..calling()
        };
        let equal = outcome(&probe(calling(), 0x01, 3, left(3)));
        let new = outcome(&probe(calling(), 0x01, 7, left(7)));
        let kept = outcome(&probe(calling(), 0x01, 7, left(3)));
        assert_eq!(equal.shared(&new).unwrap().record(), "D = s");
        assert_eq!(equal.shared(&kept).unwrap().record(), "");
        assert!(new.shared(&kept).is_none());
    }

    #[test]
    fn a_number_sent_has_a_name_or_is_an_error() {
        let dr = Body::Signal(Signal::Dr);
        let step = |s, r| sending(probe(calling(), 0x06, 7, calling()), s, r, dr);
        assert_eq!(outcome(&step(5, 7)).sends(), "DR(L,s)");
        assert_eq!(outcome(&step(5, 3)).sends(), "DR(L,D)");
        assert!(Outcome::of(&step(5, 8)).is_err());
        assert!(Outcome::of(&step(4, 7)).is_err());
    }

    #[test]
    fn d_is_preferred_to_an_equal_s_where_it_stays() {
        let closed = End {
            state: State::Closed,
            remote: 0,
            ..calling()
        };
        let drack = Body::Signal(Signal::Drack);
        let stays = sending(probe(open(), 0x06, 3, open()), 5, 3, drack);
        let leaves = sending(probe(open(), 0x06, 3, closed), 5, 3, drack);
        assert_eq!(outcome(&stays).sends(), "DRACK(L,D)");
        assert_eq!(outcome(&leaves).sends(), "DRACK(L,s)");
        assert_eq!(outcome(&leaves).record(), "");
    }

    #[test]
    fn data_has_the_block_of_its_number() {
        let step = |sequence, block| {
            let block = Block::new(block).unwrap();
            let body = Body::Data { sequence, block };
            sending(probe(open(), 0x01, 3, open()), 5, 3, body)
        };
        assert_eq!(outcome(&step(17, &[1])).sends(), "DATA(L,D,t − w)");
        assert!(Outcome::of(&step(17, &[2])).is_err());
        assert!(Outcome::of(&step(18, &[2])).is_err());
        assert!(Outcome::of(&step(20, &[3])).is_err());
    }

    #[test]
    fn leaving_open_clears_the_counts_and_blocks() {
        let closing = End {
            state: State::Closing,
            ..calling()
        };
        let forgetful = End {
            state: State::Closing,
            ..open()
        };
        assert_eq!(outcome(&probe(open(), 0x06, 3, closing)).record(), "");
        assert!(Outcome::of(&probe(open(), 0x06, 3, forgetful)).is_err());
    }

    #[test]
    fn the_blocks_before_n_leave() {
        let acknowledged = |count, staying: &[u8]| {
            let waiting = staying.iter().map(|&byte| vec![byte]).collect();
            let after = End { waiting, ..open() };
            let mut probe = probe(open(), 0x09, 3, after);
            probe.sample.count = Some(count);
            Outcome::of(&probe).map(|outcome| outcome.unwrap().record())
        };
        let leave = Ok("the blocks before n leave".to_string());
        assert_eq!(acknowledged(18, &[2, 3]), leave);
        assert_eq!(acknowledged(20, &[]), leave);
        assert_eq!(acknowledged(17, &[1, 2, 3]), Ok(String::new()));
        assert!(acknowledged(18, &[3]).is_err());
        assert!(acknowledged(18, &[1, 2]).is_err());
    }

    /// An open end that has handed up so many blocks, and holds these, each so far above e.
    fn holding(e: u32, blocks: &[(usize, &[u8])]) -> End {
        let mut end = End {
            handed_up: e,
            ..open()
        };
        for &(above, block) in blocks {
            end.held[above] = block.to_vec();
        }
        end
    }

    /// What a DATA of this number does to the record of an end that it leaves so.
    fn arrived(before: End, number: u32, after: End) -> Result<String, String> {
        let mut probe = probe(before, 0x08, 3, after);
        probe.sample.sequence = Some(number);
        Outcome::of(&probe).map(|outcome| outcome.unwrap().record())
    }

    #[test]
    fn an_early_block_is_held_in_its_place_as_the_first_copy() {
        let before = || holding(40, &[(1, b"one")]);
        let is_held = Ok("the block is held".to_string());
        let after = holding(40, &[(1, b"one"), (7, b"new")]);
        assert_eq!(arrived(before(), 47, after.clone()), is_held);
        assert!(arrived(before(), 46, after.clone()).is_err());
        assert!(arrived(before(), 48, after).is_err());
        assert!(arrived(before(), 41, holding(40, &[(1, b"new")])).is_err());
        let awaited = holding(40, &[(0, b"new"), (1, b"one")]);
        assert!(arrived(before(), 40, awaited).is_err());
        assert_eq!(arrived(before(), 41, before()), Ok(String::new()));
    }

    #[test]
    fn held_blocks_move_as_e_rises() {
        let before = || holding(40, &[(0, b"e"), (2, b"two"), (7, b"seven")]);
        let moved = holding(41, &[(1, b"two"), (6, b"seven")]);
        assert_eq!(arrived(before(), 40, moved), Ok("e + 1".to_string()));
        let unmoved = holding(41, &[(0, b"e"), (2, b"two"), (7, b"seven")]);
        assert!(arrived(before(), 40, unmoved).is_err());
        let turned = holding(41, &[(1, b"two"), (6, b"seven"), (7, b"e")]);
        assert!(arrived(before(), 40, turned).is_err());
    }

    #[test]
    fn leaving_open_clears_what_is_held() {
        let closing = |held| End {
            state: State::Closing,
            held,
            ..calling()
        };
        let before = || holding(40, &[(3, b"three")]);
        let cleared = probe(before(), 0x06, 3, closing(Held::default()));
        assert_eq!(outcome(&cleared).record(), "");
        let kept = probe(before(), 0x06, 3, closing(before().held));
        assert!(Outcome::of(&kept).is_err());
    }

    #[test]
    fn a_request_hands_up_the_held_block_numbered_e() {
        let step = |held: &[u8], block: &[u8]| {
            let mut probe = probe(holding(40, &[(0, held)]), 0x46, 3, holding(41, &[]));
            let step = probe.step.as_mut().unwrap();
            step.notice = 5;
            step.block = Some(block.to_vec());
            Outcome::of(&probe).is_ok()
        };
        assert!(step(b"held", b"held"));
        assert!(!step(b"held", b"new"));
        assert!(!step(b"", b"new"));
    }

    #[test]
    fn a_block_goes_up_with_notice_5_alone() {
        let step = |notice, block: Option<&[u8]>| {
            let mut probe = probe(open(), 0x08, 3, open());
            let step = probe.step.as_mut().unwrap();
            step.notice = notice;
            step.block = block.map(<[u8]>::to_vec);
            Outcome::of(&probe).is_ok()
        };
        assert!(step(0, None));
        assert!(step(5, Some(b"new")));
        assert!(!step(5, None));
        assert!(!step(5, Some(b"ne")));
        assert!(!step(1, Some(b"new")));
    }
}
