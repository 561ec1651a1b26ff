//! Which sorts of pages the calls met, and where in their page they began incarnations.

use super::Sort;
use crate::coverage;
use crate::group::Score;
use crate::records::Numbers;
use reference::page::{LAST_NUMBER, PAGE, STRETCH};
use reference::record::{self, RECORD};
use reference::request::{CONNECT, LISTEN};
use reference::State;
use std::collections::BTreeSet;

/// A call that is lent a page.
#[derive(Clone, Copy, Debug, PartialEq, Eq, PartialOrd, Ord)]
pub enum Call {
    Restart,
    Request,
    Receive,
    /// A bench line, in which the page's end has this part.
    Line(Role),
    /// The same where the book is full.
    LineWithFullBook(Role),
    /// The question of a bench.
    Question,
}

/// The part of an end in a bench line.
#[derive(Clone, Copy, Debug, PartialEq, Eq, PartialOrd, Ord)]
pub enum Role {
    /// The line restarts it.
    Restarted,
    /// The line restarts the other end.
    Beside,
    /// The line restarts none.
    Asked,
}

/// What is seen of a page.
#[derive(Clone, Copy, Debug, PartialEq, Eq, PartialOrd, Ord)]
enum Sight {
    /// A call met a page of this sort, beside a sound record.
    Met(Call, Sort),
    /// A call met an unsound record.
    Unsound(Call),
    /// A closed end with a right page was asked to begin an incarnation.
    Begun { kind: u8, at: At },
}

/// Where in its page an end stands.
#[derive(Clone, Copy, Debug, PartialEq, Eq, PartialOrd, Ord)]
enum At {
    /// A byte has to be reserved for the next number.
    NewByte,
    /// The next number is one of a byte that is reserved.
    Within,
    /// The next number is the last of its byte.
    LastOfByte,
    /// The next number is the last of the page.
    LastOfAll,
    /// There is no next number.
    UsedUp,
}

impl At {
    const ALL: [Self; 5] = [
        Self::NewByte,
        Self::Within,
        Self::LastOfByte,
        Self::LastOfAll,
        Self::UsedUp,
    ];

    /// Where an end with this L stands, which is not too high for a page.
    fn of(local: u32) -> Self {
        match (local, local % STRETCH) {
            (LAST_NUMBER, _) => Self::UsedUp,
            (_, 0) => Self::NewByte,
            (_, 15) if local + 1 == LAST_NUMBER => Self::LastOfAll,
            (_, 15) => Self::LastOfByte,
            _ => Self::Within,
        }
    }
}

/// What was seen so far by these calls.
pub struct Seen {
    calls: Vec<Call>,
    sights: BTreeSet<Sight>,
}

impl Seen {
    /// Nothing is seen yet of these calls.
    pub fn new(calls: &[Call]) -> Self {
        Self {
            calls: calls.to_vec(),
            sights: BTreeSet::new(),
        }
    }

    /// A call met this page beside this record, and answered this number. What 11 or, for other
    /// reasons than this record, 12 refuses, it did not meet.
    pub fn see(&mut self, call: Call, number: u8, record: &[u8; RECORD], page: &[u8; PAGE]) {
        let is_sound = record::ask_sound(record).is_ok();
        let sort = Sort::of(page, Numbers::of(record).local);
        match number {
            11 => {}
            _ if !is_sound => {
                self.sights.insert(Sight::Unsound(call));
            }
            12 => {}
            _ => {
                self.sights.insert(Sight::Met(call, sort));
            }
        }
    }

    /// An end with this sound record and its right page is asked for this.
    pub fn see_request(&mut self, record: &[u8; RECORD], request: &[u8]) {
        let is_closed = record[0] == State::Closed as u8;
        if let (true, &[kind @ (CONNECT | LISTEN)]) = (is_closed, request) {
            let at = At::of(Numbers::of(record).local);
            self.sights.insert(Sight::Begun { kind, at });
        }
    }

    /// Prints how much was seen. Each sight that was never seen is a failed case.
    pub fn report(&self) -> Score {
        let met = self
            .calls
            .iter()
            .flat_map(|&call| Sort::ALL.map(|sort| Sight::Met(call, sort)));
        let begun = [CONNECT, LISTEN]
            .into_iter()
            .flat_map(|kind| At::ALL.map(|at| Sight::Begun { kind, at }));
        let unsound = self.calls.iter().map(|&call| Sight::Unsound(call));
        let all: Vec<_> = met.chain(unsound).chain(begun).collect();
        coverage::report("pages", &all, &self.sights)
    }
}

#[cfg(test)]
mod tests {
    use super::*;
    use crate::pages;

    /// The record of an end with this L.
    fn record(state: State, local: u32) -> [u8; RECORD] {
        let numbers = Numbers {
            local,
            remote: 0,
            accepted: 0,
            handed_up: 0,
        };
        numbers.record(state, &[])
    }

    #[test]
    fn each_call_has_seven_sorts_and_unsound_records_and_each_beginning_five_places() {
        assert_eq!(Seen::new(&[]).report().failed, 10);
        let two = [Call::Restart, Call::Request];
        assert_eq!(Seen::new(&two).report().failed, 26);
    }

    #[test]
    fn only_what_was_seen_counts() {
        let mut seen = Seen::new(&[Call::Receive]);
        let record = record(State::Closed, 16);
        let page = pages::right(&record);
        for number in [11, 12] {
            seen.see(Call::Receive, number, &record, &page);
        }
        assert_eq!(seen.report().failed, 18);
        for number in [0, 3, 8] {
            seen.see(Call::Receive, number, &record, &page);
        }
        assert_eq!(seen.report().failed, 17);
        seen.see_request(&record, &[CONNECT]);
        assert_eq!(seen.report().failed, 16);
        seen.see(Call::Receive, 12, &[0xff; RECORD], &page);
        assert_eq!(seen.report().failed, 15);
    }

    #[test]
    fn places_in_the_page_are_told_apart_where_an_end_is_closed() {
        let mut seen = Seen::new(&[]);
        for local in [0, 16, 1, 14, 15, 31, 65_535, 65_536] {
            seen.see_request(&record(State::Closed, local), &[LISTEN]);
            seen.see_request(&record(State::Listening, local), &[CONNECT]);
            seen.see_request(&record(State::Closed, local), &[CONNECT, 0]);
        }
        assert_eq!(seen.report().failed, 5);
        for (local, at) in [
            (0, At::NewByte),
            (65_520, At::NewByte),
            (14, At::Within),
            (65_519, At::LastOfByte),
            (65_535, At::LastOfAll),
            (65_536, At::UsedUp),
        ] {
            assert_eq!(At::of(local), at);
        }
    }
}
