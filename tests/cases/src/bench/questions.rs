//! The question, compared, and what it was asked of.

use super::call::Buffers;
use super::implementation::{Bench, Named, Shown};
use crate::coverage;
use crate::group::{Group, Score};
use reference::bench::book::{self, PLACES};
use reference::call;
use reference::frame::LONGEST_FRAME;
use std::collections::BTreeSet;

/// What the delivery of a frame comes to.
#[derive(Clone, Copy, Debug, PartialEq, Eq, PartialOrd, Ord)]
pub struct Delivery {
    /// 0, or the number of the refusal.
    pub number: u8,
    /// Does it change the receiver's record, or would it if 14 did not refuse it?
    pub changes: bool,
}

impl Delivery {
    /// What the question looks for.
    pub const CHANGING: Self = Self {
        number: 0,
        changes: true,
    };
    /// What only 14 keeps from being named.
    const WITHOUT_PLACE: Self = Self {
        number: 14,
        changes: true,
    };
    /// The numbers of those that change nothing anyway.
    const UNCHANGING: [u8; 8] = [0, 3, 4, 5, 6, 7, 13, 14];

    /// The delivery of this frame, on a bench that is not refused by 11, 12 or 15.
    pub fn of(shown: Shown, frame: usize) -> Self {
        let (places, _) = shown.book.as_chunks();
        let Ok((sender, frame)) = book::find(&places[..shown.count], frame) else {
            return Self::unchanging(13);
        };
        let end = sender.other().index();
        let mut record = shown.records[end].to_vec();
        let out = &mut [0; LONGEST_FRAME];
        let answer = call::receive(&mut record, shown.pages[end], frame, out);
        Self {
            number: match answer.sent {
                1.. if shown.count == PLACES => 14,
                _ => answer.number,
            },
            changes: record != shown.records[end],
        }
    }

    /// One with this number that changes nothing.
    fn unchanging(number: u8) -> Self {
        Self {
            number,
            changes: false,
        }
    }
}

/// What is seen of a question that is not refused.
#[derive(Clone, Copy, Debug, PartialEq, Eq, PartialOrd, Ord)]
enum Sight {
    /// The first place of the book is named.
    FirstPlace,
    /// The last place of the book is named.
    LastPlace,
    /// A frame is named, and one above it would change a record too.
    Below,
    /// A frame is named, and the delivery of one below it comes to this.
    Above(Delivery),
    /// None is named, and the delivery of some frame comes to this.
    NoneOf(Delivery),
    /// None is named, and the book is empty.
    Empty,
}

impl Sight {
    /// All that there are.
    fn all() -> Vec<Self> {
        let alone = [Self::FirstPlace, Self::LastPlace, Self::Below, Self::Empty];
        let passed_by = Delivery::UNCHANGING
            .map(Delivery::unchanging)
            .into_iter()
            .chain([Delivery::WITHOUT_PLACE])
            .flat_map(|delivery| [Self::Above(delivery), Self::NoneOf(delivery)]);
        alone.into_iter().chain(passed_by).collect()
    }

    /// All that is seen where this is named.
    fn of(shown: Shown, named: Option<usize>) -> BTreeSet<Self> {
        let delivery = |frame| Delivery::of(shown, frame);
        let count = shown.count;
        match named {
            None if count == 0 => [Self::Empty].into(),
            None => (0..count).map(delivery).map(Self::NoneOf).collect(),
            Some(frame) => {
                let place = match frame {
                    0 => Some(Self::FirstPlace),
                    _ if frame + 1 == PLACES => Some(Self::LastPlace),
                    _ => None,
                };
                let mut higher = (frame + 1..count).map(delivery);
                let is_below = higher.any(|delivery| delivery == Delivery::CHANGING);
                let lower = (0..frame).map(delivery).map(Self::Above);
                let sights = lower.chain(place);
                sights.chain(is_below.then_some(Self::Below)).collect()
            }
        }
    }
}

/// The questions asked so far.
pub struct Questions {
    /// Those with a frame to name, and those with none or that are refused.
    groups: [Group; 2],
    sights: BTreeSet<Sight>,
}

impl Questions {
    /// None is asked yet.
    pub fn new() -> Self {
        Self {
            groups: [
                Group::new("questions with a frame to name", &[0]),
                Group::new("questions with none", &[0, 11, 12, 15]),
            ],
            sights: BTreeSet::new(),
        }
    }

    /// One case: the question is asked with these buffers. Gives the right answer.
    pub fn compare<B: Bench>(&mut self, buffers: &Buffers) -> Named {
        buffers.compare_question::<B>(&mut self.groups)
    }

    /// Such a bench got this answer.
    pub fn see(&mut self, shown: Shown, named: &Named) {
        if named.number == 0 {
            self.sights.extend(Sight::of(shown, named.frame));
        }
    }

    /// Prints what was compared.
    pub fn report(&self) -> Score {
        self.groups.iter().map(Group::report).sum()
    }

    /// Prints how much was seen. Each sight that was never seen is a failed case.
    pub fn report_sights(&self) -> Score {
        coverage::report("questions", &Sight::all(), &self.sights)
    }
}

#[cfg(test)]
mod tests {
    use super::*;
    use crate::bench::scene::Scene;
    use crate::records::Numbers;
    use crate::sample::message;
    use crate::{pages, Reference};
    use reference::bench::book::{place, BOOK};
    use reference::bench::Side;
    use reference::frame::Signal;
    use reference::record::RECORD;
    use reference::State;

    /// What is seen of a bench of this count whose first places have frames of A with these
    /// numbers; A is fresh, and B answers with L = 5 and D = 3. All other places are empty.
    fn sights(frames: &[(Signal, u32, u32)], count: usize) -> Vec<Sight> {
        let answering = Numbers {
            local: 5,
            remote: 3,
            accepted: 0,
            handed_up: 0,
        };
        let records = [[0; RECORD], answering.record(State::Answering, &[])];
        let places = frames.iter().map(|&(signal, sender, quoted)| {
            let frame = message(signal as u8, &[sender, quoted], &[]);
            place(Side::A, &frame)
        });
        let mut book = places.collect::<Vec<_>>().concat();
        book.resize(BOOK, 0);
        let scene = Scene {
            pages: records.each_ref().map(pages::right),
            records,
            book,
            count,
        };
        let named = Reference::first_frame(scene.shown());
        Sight::of(scene.shown(), named.frame).into_iter().collect()
    }

    #[test]
    fn there_are_22_sights() {
        let different: BTreeSet<_> = Sight::all().into_iter().collect();
        assert_eq!((different.len(), Sight::all().len()), (22, 22));
        assert_eq!(Questions::new().report_sights().failed, 22);
    }

    #[test]
    fn sights_are_told_apart() {
        let sent_again = (Signal::Crao, 3, 0);
        let sends = (Signal::Crao, 4, 0);
        let unreadable = (Signal::Crao, 0, 0);
        let silent = (Signal::Rej, 3, 5);
        let [idle, bad, absent, stopped] = [0, 7, 13, 14].map(Delivery::unchanging);
        assert_eq!(sights(&[], 0), [Sight::Empty]);
        assert_eq!(sights(&[sends], 1), [Sight::FirstPlace]);
        assert_eq!(
            sights(&[silent, sends], 2),
            [Sight::FirstPlace, Sight::Below]
        );
        assert_eq!(sights(&[sent_again, silent], 2), [Sight::Above(idle)]);
        assert_eq!(sights(&[unreadable, silent], 2), [Sight::Above(bad)]);
        assert_eq!(sights(&[sent_again], 1), [Sight::NoneOf(idle)]);
        assert_eq!(sights(&[], 1), [Sight::NoneOf(absent)]);
        let without_place = Delivery::WITHOUT_PLACE;
        assert_eq!(
            sights(&[sent_again, sends, silent], PLACES),
            [Sight::Above(stopped), Sight::Above(without_place)]
        );
        assert_eq!(
            sights(&[sends; PLACES], PLACES),
            [Sight::NoneOf(without_place)]
        );
        let mut frames = [sends; PLACES];
        frames[PLACES - 1] = silent;
        assert_eq!(
            sights(&frames, PLACES),
            [Sight::LastPlace, Sight::Above(without_place)]
        );
    }
}
