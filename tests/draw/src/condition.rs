//! The words for when a row of the table counts.

use crate::end::End;
use crate::probe::Sample;
use std::fmt::{Display, Formatter, Result};

/// What a test looks at.
#[derive(Clone, Copy, Debug, PartialEq, Eq)]
pub enum Topic {
    Sender,
    Quoted,
    Sequence,
    Count,
    Partner,
    Waiting,
    Held,
}

/// A test of an end and of the request or frame that it gets, with its words.
#[derive(Debug)]
pub struct Test {
    text: &'static str,
    topic: Topic,
    holds: fn(&Sample) -> bool,
}

/// All tests, in the order in which a condition names them. Frames with s < D never come here. A
/// test of a number fails where there is none.
static TESTS: [Test; 20] = [
    test("s = D", Topic::Sender, |x| x.s == Some(x.end.remote)),
    test("s > D", Topic::Sender, |x| {
        x.s.is_some_and(|s| s > x.end.remote)
    }),
    test("r = L", Topic::Quoted, |x| x.r == Some(x.end.local)),
    test("r ≠ L", Topic::Quoted, |x| {
        x.r.is_some_and(|r| r != x.end.local)
    }),
    test("number = e", Topic::Sequence, |x| {
        x.sequence == Some(x.end.handed_up)
    }),
    test("number ≠ e", Topic::Sequence, |x| {
        x.sequence.is_some_and(|number| number != x.end.handed_up)
    }),
    test("number < e", Topic::Sequence, |x| {
        x.sequence.is_some_and(|number| number < x.end.handed_up)
    }),
    test("number > e", Topic::Sequence, |x| {
        x.sequence.is_some_and(|number| number > x.end.handed_up)
    }),
    test("e < number ≤ e + 7", Topic::Sequence, is_early),
    test("number > e + 7", Topic::Sequence, |x| {
        !is_early(x) && x.sequence > Some(x.end.handed_up)
    }),
    test("any other", Topic::Sequence, |x| {
        x.sequence
            .is_some_and(|number| number != x.end.handed_up && !(is_early(x) && is_new(x)))
    }),
    test("not held", Topic::Held, is_new),
    test("t − w < n ≤ t", Topic::Count, |x| {
        x.count.is_some_and(|n| is_waited_for(&x.end, n))
    }),
    test("not t − w < n ≤ t", Topic::Count, |x| {
        x.count.is_some_and(|n| !is_waited_for(&x.end, n))
    }),
    test("D = 0", Topic::Partner, |x| x.end.remote == 0),
    test("D ≥ 1", Topic::Partner, |x| x.end.remote >= 1),
    test("a block waits", Topic::Waiting, |x| {
        !x.end.waiting.is_empty()
    }),
    test("no block waits", Topic::Waiting, |x| {
        x.end.waiting.is_empty()
    }),
    test("block e is held", Topic::Held, |x| {
        !x.end.held[0].is_empty()
    }),
    test("block e is not held", Topic::Held, |x| {
        x.end.held[0].is_empty()
    }),
];

const fn test(text: &'static str, topic: Topic, holds: fn(&Sample) -> bool) -> Test {
    Test { text, topic, holds }
}

/// Is it a DATA whose block comes before it is due, and has a place?
fn is_early(x: &Sample) -> bool {
    let place = x.sequence.and_then(|number| x.end.place(number));
    place.is_some_and(|place| place > 0)
}

/// Is it a DATA of whose block no copy is held?
fn is_new(x: &Sample) -> bool {
    x.sequence
        .is_some_and(|number| x.end.held_block(number).is_none())
}

/// Is t − w < n ≤ t?
fn is_waited_for(end: &End, n: u32) -> bool {
    end.oldest() < n && n <= end.accepted
}

/// The most tests that hold together in a condition.
const MOST: usize = 4;

/// Tests that hold together; no test at all holds always.
type Together = Vec<&'static Test>;

/// Tests that hold together, or one of two such lists.
#[derive(Clone, Debug)]
pub struct Condition(Vec<Together>);

impl Condition {
    /// The shortest condition that holds for the samples chosen, and for none of the others.
    pub fn of(samples: &[(&Sample, bool)]) -> Option<Self> {
        let lists = lists_of_tests();
        let single = lists.iter().map(|list| Self(vec![list.clone()]));
        let mut conditions = single.chain(either_of_two(&lists));
        conditions.find(|condition| condition.tells_apart(samples))
    }

    /// Does it hold for the samples chosen alone?
    fn tells_apart(&self, samples: &[(&Sample, bool)]) -> bool {
        let mut samples = samples.iter();
        samples.all(|(sample, is_chosen)| self.holds(sample) == *is_chosen)
    }

    fn holds(&self, sample: &Sample) -> bool {
        let together = |tests: &Together| tests.iter().all(|test| (test.holds)(sample));
        self.0.iter().any(together)
    }

    /// Does it look at this?
    pub fn is_about(&self, topic: Topic) -> bool {
        self.0.iter().flatten().any(|test| test.topic == topic)
    }
}

/// All lists of at most so many tests, the shortest first, each in the order of the tests.
fn lists_of_tests() -> Vec<Together> {
    let mut lists = vec![vec![]];
    let mut longest = lists.clone();
    for _ in 0..MOST {
        longest = longest.iter().flat_map(|list| lengthened(list)).collect();
        lists.extend(longest.iter().cloned());
    }
    let tests = |list: Vec<usize>| list.into_iter().map(|place| &TESTS[place]).collect();
    lists.into_iter().map(tests).collect()
}

/// The list of places with each later place added.
fn lengthened(list: &[usize]) -> Vec<Vec<usize>> {
    let later = list.last().map_or(0, |last| last + 1);
    let places = later..TESTS.len();
    places.map(|place| [list, &[place]].concat()).collect()
}

/// All pairs of lists of one or two tests, those with the fewest tests first.
fn either_of_two(lists: &[Together]) -> impl Iterator<Item = Condition> + '_ {
    let of_length = |length| lists.iter().filter(move |list| list.len() == length);
    let lengths = [(1, 1), (1, 2), (2, 1), (2, 2)];
    lengths.into_iter().flat_map(move |(one_long, other_long)| {
        let pairs = move |one: &Together| {
            let one = one.clone();
            of_length(other_long).map(move |other| Condition(vec![one.clone(), other.clone()]))
        };
        of_length(one_long).flat_map(pairs)
    })
}

impl Display for Condition {
    /// Tests that hold together are joined by commas, or by "and" beside an "or".
    fn fmt(&self, formatter: &mut Formatter) -> Result {
        let joint = match self.0.len() {
            1 => ", ",
            _ => " and ",
        };
        let texts = self.0.iter().map(|tests| {
            let texts: Vec<_> = tests.iter().map(|test| test.text).collect();
            texts.join(joint)
        });
        let texts: Vec<_> = texts.collect();
        formatter.write_str(&texts.join(" or "))
    }
}

#[cfg(test)]
mod tests {
    use super::*;
    use crate::kind;
    use crate::probe::probe;
    use reference::State;

    /// The words for those closing ends and DR for which this holds.
    fn words(chosen: fn(&Sample) -> bool) -> Option<String> {
        words_of(State::Closing, 0x06, chosen)
    }

    fn words_of(state: State, kind: u8, chosen: fn(&Sample) -> bool) -> Option<String> {
        let probes = probe(state, kind::of(kind).unwrap()).unwrap();
        let samples: Vec<_> = probes
            .iter()
            .map(|probe| (&probe.sample, chosen(&probe.sample)))
            .collect();
        Condition::of(&samples).map(|condition| condition.to_string())
    }

    fn is_equal(x: &Sample) -> bool {
        x.s == Some(x.end.remote)
    }

    fn is_quoted(x: &Sample) -> bool {
        x.r == Some(x.end.local)
    }

    #[test]
    fn the_subsets_of_two_tests_have_short_words() {
        let said = |chosen| words(chosen).unwrap();
        assert_eq!(said(|_| true), "");
        assert_eq!(said(is_quoted), "r = L");
        assert_eq!(said(|x| !is_equal(x)), "s > D");
        assert_eq!(said(|x| is_equal(x) && is_quoted(x)), "s = D, r = L");
        assert_eq!(said(|x| !is_equal(x) || is_quoted(x)), "s > D or r = L");
        assert_eq!(said(|x| !is_equal(x) || !is_quoted(x)), "s > D or r ≠ L");
        assert_eq!(
            said(|x| is_equal(x) == is_quoted(x)),
            "s = D and r = L or s > D and r ≠ L"
        );
    }

    #[test]
    fn a_known_partner_is_a_condition_where_both_occur() {
        let is_known = |x: &Sample| x.end.remote > 0;
        let said = |state| words_of(state, 0x43, is_known).unwrap();
        assert_eq!(said(State::Calling), "D ≥ 1");
        assert_eq!(said(State::Closing), "");
    }

    #[test]
    fn what_no_test_tells_apart_has_no_words() {
        assert_eq!(words(|x| x.s == Some(1003)), None);
    }
}
