//! Walks: what the question names is delivered, again and again, until it names none.

use super::call::Buffers;
use super::implementation::{Bench, Shown};
use super::questions::Questions;
use crate::coverage;
use crate::group::{Group, Score};
use crate::records::waiting;
use reference::bench::book::PLACES;
use reference::State;
use std::collections::BTreeSet;

/// So many deliveries there are at most for each place that the book has left: the one that takes
/// it, and two that bring its end down again.
const FOR_EACH_PLACE: usize = 3;

/// At most so many deliveries follow. One that sends takes a place, and lifts its end by two at
/// most; one that sends nothing lowers the rank of its end.
fn most_left(shown: Shown) -> usize {
    let places = PLACES - shown.count;
    let ranks: usize = shown.records.into_iter().map(rank).sum();
    FOR_EACH_PLACE * places + ranks
}

/// How many deliveries that send nothing can follow at this end at most.
fn rank(record: &[u8]) -> usize {
    let record = record.first_chunk().expect("a whole record");
    match State::of(record[0]).expect("a sound record") {
        State::Closed | State::Listening => 0,
        State::Closing => 1,
        State::Open => 1 + usize::from(waiting(record)),
        State::Calling | State::Answering => 2,
    }
}

/// How a walk went.
#[derive(Clone, Copy, Debug, PartialEq, Eq, PartialOrd, Ord)]
enum Course {
    /// Nothing was delivered.
    Still,
    /// Places were left.
    WithRoom,
    /// The last place was taken.
    ToTheLastPlace,
    /// The book was full before.
    InAFullBook,
}

impl Course {
    const ALL: [Self; 4] = [
        Self::Still,
        Self::WithRoom,
        Self::ToTheLastPlace,
        Self::InAFullBook,
    ];

    /// That of a walk of so many deliveries, with so many frames in the book before and after it.
    fn of(deliveries: usize, before: usize, after: usize) -> Self {
        match (before, after) {
            _ if deliveries == 0 => Self::Still,
            (PLACES, _) => Self::InAFullBook,
            (_, PLACES) => Self::ToTheLastPlace,
            _ => Self::WithRoom,
        }
    }
}

/// The walks made so far.
pub struct Walks {
    walks: Group,
    deliveries: Group,
    courses: BTreeSet<Course>,
}

impl Walks {
    /// None is made yet.
    pub fn new() -> Self {
        Self {
            walks: Group::new("walks", &[0]),
            deliveries: Group::new("deliveries of walks", &[0]),
            courses: BTreeSet::new(),
        }
    }

    /// Walks from here: one case for each question and each delivery, and one for the walk itself,
    /// which has to end as it must.
    pub fn compare<B: Bench>(&mut self, from: &Buffers, questions: &mut Questions) {
        let course = self.walk::<B>(from.clone(), questions);
        self.walks.check(from, 0, &course.is_some(), &true);
        self.courses.extend(course);
    }

    /// Gives how the walk went, if each delivery brings it nearer to its end.
    fn walk<B: Bench>(&mut self, mut at: Buffers, questions: &mut Questions) -> Option<Course> {
        let before = at.shown().count;
        let most = most_left(at.shown());
        let mut left = most;
        for deliveries in 0..=most {
            let Some(frame) = questions.compare::<B>(&at).frame else {
                return Some(Course::of(deliveries, before, at.shown().count));
            };
            at = at.delivered::<B>(frame, &mut self.deliveries);
            if most_left(at.shown()) >= left {
                return None;
            }
            left = most_left(at.shown());
        }
        None
    }

    /// Prints what was compared, and how walks went. Each course that no walk took is a failed case.
    pub fn report(&self) -> Score {
        let groups = [&self.walks, &self.deliveries].map(Group::report);
        let courses = coverage::report("courses of walks", &Course::ALL, &self.courses);
        groups.into_iter().chain([courses]).sum()
    }
}

#[cfg(test)]
mod tests {
    use super::*;
    use crate::records::Numbers;
    use reference::record::RECORD;

    /// The record of an end in this state, with so many blocks waiting.
    fn record(state: State, waiting: usize) -> [u8; RECORD] {
        let numbers = Numbers {
            local: 1,
            remote: 1,
            accepted: 8,
            handed_up: 0,
        };
        numbers.record(state, &vec![b"block".to_vec(); waiting])
    }

    #[test]
    fn an_end_ranks_by_its_state_and_what_waits() {
        let ranks = State::ALL.map(|state| rank(&record(state, 0)));
        assert_eq!(ranks, [0, 0, 2, 2, 1, 1]);
        assert_eq!(rank(&record(State::Open, 8)), 9);
    }

    #[test]
    fn three_deliveries_are_left_for_each_place_and_the_ranks() {
        let left = |states: [State; 2], count| {
            let records = states.map(|state| record(state, 0));
            most_left(Shown {
                records: records.each_ref().map(|record| &record[..]),
                pages: [&[]; 2],
                book: &[],
                count,
            })
        };
        assert_eq!(left([State::Closed; 2], 0), 1_536);
        assert_eq!(left([State::Closed, State::Answering], 3), 1_529);
        assert_eq!(left([State::Calling, State::Answering], 511), 7);
        assert_eq!(left([State::Open, State::Closing], 512), 2);
    }

    #[test]
    fn courses_are_told_apart() {
        for (deliveries, before, after, course) in [
            (0, 0, 0, Course::Still),
            (0, 512, 512, Course::Still),
            (5, 0, 511, Course::WithRoom),
            (5, 511, 512, Course::ToTheLastPlace),
            (5, 512, 512, Course::InAFullBook),
        ] {
            assert_eq!(Course::of(deliveries, before, after), course);
        }
    }
}
