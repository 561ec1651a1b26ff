//! How ends stood as empty lines came, and what came before.

use cases::group::Score;
use cases::records::{held, waiting, Numbers};
use reference::record::RECORD;
use std::collections::BTreeSet;

/// How an end stands.
#[derive(Clone, Copy, Debug, PartialEq, Eq, PartialOrd, Ord)]
struct Standing {
    state: u8,
    knows_partner: bool,
    /// Does a block wait?
    waits: bool,
    /// Is a block held?
    holds: bool,
}

/// What came before in a script.
#[derive(Clone, Copy, Debug, Default, PartialEq, Eq, PartialOrd, Ord)]
enum Before {
    #[default]
    Nothing,
    Empty,
    Refused,
    Accepted,
}

/// An empty line.
#[derive(Clone, Copy, Debug, PartialEq, Eq, PartialOrd, Ord)]
enum Sort {
    After(Before, Standing),
    /// It is the last line.
    Last,
}

/// The sorts of empty lines so far, and what came before in the script that is read.
#[derive(Default)]
pub struct Stood {
    before: Before,
    sorts: BTreeSet<Sort>,
}

impl Standing {
    /// How an end with this record stands.
    fn of(record: &[u8; RECORD]) -> Self {
        Self {
            state: record[0],
            knows_partner: Numbers::of(record).remote > 0,
            waits: waiting(record) > 0,
            holds: held(record).iter().any(|&length| length > 0),
        }
    }
}

impl Stood {
    /// So many sorts there are: an end stands in ten ways, since one that calls may know a partner,
    /// and at an open one blocks wait or are held; another empty line, a refusal or a success comes
    /// before. And there are the first line and the last.
    pub const SORTS: usize = 32;

    /// A script starts.
    pub fn start(&mut self) {
        self.before = Before::Nothing;
    }

    /// This line was answered with this number. Where it is empty, the answer tells of this record.
    pub fn see(&mut self, record: &[u8; RECORD], line: &[u8], number: u8) {
        if line.is_empty() {
            let sort = Sort::After(self.before, Standing::of(record));
            self.sorts.insert(sort);
        }
        self.before = match (line, number) {
            ([], _) => Before::Empty,
            (_, 0) => Before::Accepted,
            _ => Before::Refused,
        };
    }

    /// The script ends.
    pub fn end(&mut self) {
        if self.before == Before::Empty {
            self.sorts.insert(Sort::Last);
        }
    }

    /// Prints how many sorts came. Each one that is missing is a failed case.
    pub fn report(&self) -> Score {
        let [seen, all] = [self.sorts.len(), Self::SORTS];
        println!("empty lines: {seen} of {all} sorts seen");
        Score {
            passed: 0,
            failed: all.saturating_sub(seen) as u64,
        }
    }
}

#[cfg(test)]
mod tests {
    use super::*;
    use crate::reference_program::ReferenceProgram;
    use crate::script::Script;
    use crate::{bench, empty_lines};
    use reference::bench::program::BenchProgram;
    use reference::program::LineProgram;
    use reference::State;

    /// What these scripts show.
    fn stood<P: ReferenceProgram>(scripts: impl Iterator<Item = Script>) -> Stood {
        let mut stood = Stood::default();
        for script in scripts {
            let mut program = P::default();
            stood.start();
            for line in script.lines() {
                let answer = program.answer(line);
                stood.see(program.first_record(), line, P::number(&answer));
            }
            stood.end();
        }
        stood
    }

    /// The empty lines of one end with these lines.
    fn sorts(lines: &[&str]) -> Vec<Sort> {
        let script = Script::from_iter(lines.iter().map(|line| line.as_bytes()));
        let stood = stood::<LineProgram>([script].into_iter());
        stood.sorts.into_iter().collect()
    }

    const FRESH: Standing = Standing {
        state: State::Closed as u8,
        knows_partner: false,
        waits: false,
        holds: false,
    };

    #[test]
    fn empty_lines_are_told_apart_by_what_came_before_and_where_they_stand() {
        assert_eq!(sorts(&["45", "zz"]), []);
        assert_eq!(sorts(&["", "45"]), [Sort::After(Before::Nothing, FRESH)]);
        assert_eq!(
            sorts(&["zz", "", "45"]),
            [Sort::After(Before::Refused, FRESH)]
        );
        assert_eq!(
            sorts(&["45", "", ""]),
            [
                Sort::After(Before::Empty, FRESH),
                Sort::After(Before::Accepted, FRESH),
                Sort::Last
            ]
        );
    }

    #[test]
    fn ends_are_told_apart_by_state_partner_and_blocks() {
        let open = Standing {
            state: State::Open as u8,
            knows_partner: true,
            ..FRESH
        };
        let opening = ["41", "010000000700000000", "030000000700000001"];
        let [send, early] = ["440161", "080000000700000001000000010162"];
        for (lines, waits, holds) in [
            (&[][..], false, false),
            (&[send], true, false),
            (&[early], false, true),
            (&[early, send], true, true),
        ] {
            let lines = [&opening, lines, &["", "45"]].concat();
            let end = Standing {
                waits,
                holds,
                ..open
            };
            assert_eq!(sorts(&lines), [Sort::After(Before::Accepted, end)]);
        }
    }

    #[test]
    fn each_sort_that_is_missing_fails() {
        assert_eq!(Stood::default().report().failed, 32);
    }

    #[test]
    fn scripts_bring_empty_lines_of_all_sorts() {
        let one_end = stood::<LineProgram>(empty_lines::scripts());
        let two_ends = stood::<BenchProgram>(bench::empty_lines::scripts());
        for stood in [one_end, two_ends] {
            assert_eq!(stood.sorts.len(), Stood::SORTS, "{:?}", stood.sorts);
        }
    }
}
