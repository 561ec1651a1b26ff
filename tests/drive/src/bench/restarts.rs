//! Sessions of both ends of a bench in which ends restart: now and then, and at every place.

use super::writer::{Manner, Writer};
use super::{hanging_up, overtaking, sessions};
use crate::script::Script;
use cases::random::Random;
use reference::bench::{Side, RESTART};
use reference::line;

const SCRIPTS: u64 = 150;
/// So many parts has each, of so many lines.
const PARTS: usize = 6;
const LINES: usize = 150;
/// So many lines has a session in which an end restarts at every place.
const SHORT: usize = 60;

/// A call that is answered, blocks both ways, a hang-up that is heard, and all that once more.
const STORY: &str = "5141 5040 520000 520001 520002 5044026162 520003 520004 514403636465 520005 \
    520006 50440166 5043 520008 520009 5141 5040 52000a 52000b 52000c 5044026162 52000d 52000e";
/// Two calls that cross, a hang-up, and a block that comes after it.
const CROSSING: &str = "5040 5140 520000 520001 520002 520003 520004 520005 5044017a 5143 520007 \
    520008 520006 520009";

/// Sessions with restarts now and then.
pub fn scripts() -> impl Iterator<Item = Script> {
    (8_000..8_000 + SCRIPTS).map(session)
}

/// A few sessions, each with one restart more of either end: before each of its lines and after the
/// last, and in place of each, as where the power is cut before the line has stored anything.
pub fn at_every_place() -> impl Iterator<Item = Script> {
    let stories = [STORY, CROSSING].map(script_of);
    let first = |script: Script| Script::from_iter(script.lines().take(SHORT));
    let sources = sessions::scripts().take(2);
    let sources = sources.chain(overtaking::scripts().take(2));
    let sources = sources.chain(hanging_up::scripts().take(2)).map(first);
    stories.into_iter().chain(sources).flat_map(cuts)
}

/// The script of these lines.
fn script_of(lines: &str) -> Script {
    lines.split_whitespace().map(str::as_bytes).collect()
}

/// Parts of a session, each followed by listening of both ends until their next number is the last
/// of its page byte: an end that restarts in it keeps its number.
fn session(seed: u64) -> Script {
    let mut random = Random::new(seed);
    let manner = Manner {
        restarts: random.pick(&[5, 20, 60, 200]),
        ..Manner::any(&mut random)
    };
    let mut writer = Writer::default();
    for _ in 0..PARTS {
        writer.session(&mut random, manner, LINES);
        for side in Side::BOTH {
            writer.listen_to_the_edge(side);
        }
    }
    writer.script
}

/// The script with one restart more, in all ways.
fn cuts(script: Script) -> Vec<Script> {
    let count = script.lines().count();
    let mut cuts = Vec::new();
    for side in Side::BOTH {
        for place in 0..=count {
            cuts.push(with_restart(&script, side, place, place));
        }
        for place in 0..count {
            cuts.push(with_restart(&script, side, place, place + 1));
        }
    }
    cuts
}

/// The script up to one line, the restart of this end, and the script from another line on.
fn with_restart(script: &Script, side: Side, until: usize, from: usize) -> Script {
    let restart = line::write(&[RESTART, side.lead()]);
    let before = script.lines().take(until);
    let after = script.lines().skip(from);
    before.chain([&restart[..]]).chain(after).collect()
}

#[cfg(test)]
mod tests {
    use super::*;
    use crate::reference_program::{told_by_rej, ReferenceProgram};
    use cases::bench::meeting;
    use cases::records::Numbers;
    use reference::bench::program::BenchProgram;
    use reference::record::RECORD;
    use reference::{Notice, Request, State};
    use std::collections::{BTreeMap, BTreeSet};

    #[test]
    fn a_restart_stands_at_every_place_and_in_place_of_every_line() {
        let script = Script(b"5041\n5140\n".to_vec());
        let cuts = cuts(script).into_iter().map(|script| script.0);
        let right = ["5350", "5351"].map(|restart| {
            [
                format!("{restart}\n5041\n5140\n"),
                format!("5041\n{restart}\n5140\n"),
                format!("5041\n5140\n{restart}\n"),
                format!("{restart}\n5140\n"),
                format!("5041\n{restart}\n"),
            ]
        });
        let right = right.as_flattened().iter().map(|text| text.as_bytes());
        assert!(cuts.eq(right.map(<[u8]>::to_vec)));
    }

    #[test]
    fn the_stories_are_accepted_to_their_ends() {
        for story in [STORY, CROSSING] {
            let mut program = BenchProgram::default();
            for line in script_of(story).lines() {
                assert_eq!(BenchProgram::number(&program.answer(line)), 0);
            }
        }
    }

    /// One end of a bench, by its sender byte, in one incarnation.
    type Incarnation = (usize, u32);

    /// What demand 3 looks at along a script.
    #[derive(Default)]
    struct Demand {
        /// The incarnations in which ends restarted.
        restarted: BTreeSet<Incarnation>,
        /// D as each incarnation opened.
        opened: BTreeMap<Incarnation, u32>,
        handed_up: BTreeMap<Incarnation, Vec<Vec<u8>>>,
        /// By the D of the send requests too.
        accepted: BTreeMap<(Incarnation, u32), Vec<Vec<u8>>>,
        /// How often an end opened whose partner had restarted.
        alone: usize,
    }

    impl Demand {
        /// The program takes this line.
        fn take(&mut self, program: &mut BenchProgram, line: &[u8]) {
            let before = Side::BOTH.map(|side| *program.record(side));
            let meeting = meeting(program.used(), line);
            let restarting = program.restarting(line).map(|(side, _)| side);
            let answer = program.answer(line);
            if BenchProgram::number(&answer) != 0 {
                return;
            }
            if let Some(side) = restarting {
                let end = side.index();
                let local = Numbers::of(&before[end]).local;
                self.restarted.insert((end, local));
            }
            if let Some((side, message)) = meeting {
                let own = Numbers::of(program.record(side));
                let end = (side.index(), own.local);
                self.see_block(end, own.remote, &message, &answer);
                let states = [&before[side.index()], program.record(side)].map(is_open);
                if states == [false, true] {
                    self.see_opening(end, own.remote, program.record(side.other()));
                }
            }
        }

        /// This incarnation opens with this D, beside this record.
        fn see_opening(&mut self, end: Incarnation, remote: u32, other: &[u8; RECORD]) {
            self.opened.insert(end, remote);
            let partner = Numbers::of(other);
            let state = State::of(other[0]).unwrap();
            let names_back = (partner.local, partner.remote) == (remote, end.1);
            let is_promised = names_back && !matches!(state, State::Closed | State::Listening);
            let has_restarted = self.restarted.contains(&(1 - end.0, remote));
            assert!(is_promised || has_restarted);
            self.alone += usize::from(!is_promised);
        }

        /// An end in this incarnation, with this D, met this message and answered so.
        fn see_block(&mut self, end: Incarnation, remote: u32, message: &[u8], answer: &[u8]) {
            if BenchProgram::notice(answer) == Notice::BlockHandedUp as u8 {
                let block = answer.split(|&byte| byte == b'\n').next().unwrap();
                let block = line::read(&block[26..]).unwrap().to_vec();
                self.handed_up.entry(end).or_default().push(block);
            }
            if let Ok(Request::Send(block)) = Request::read(message) {
                let sent = self.accepted.entry((end, remote)).or_default();
                sent.push(block.bytes().to_vec());
            }
        }

        /// What came up in each incarnation is a prefix of what its partner accepted.
        fn assert_prefixes(&self) -> usize {
            for (&(end, local), handed_up) in &self.handed_up {
                let partner = (1 - end, self.opened[&(end, local)]);
                let accepted = &self.accepted[&(partner, local)];
                assert!(accepted.starts_with(handed_up));
            }
            self.handed_up.values().map(Vec::len).sum()
        }
    }

    /// Is it the record of an open end?
    fn is_open(record: &[u8; RECORD]) -> bool {
        record[0] == State::Open as u8
    }

    /// Demand 3 holds along these scripts; so often an end opened whose partner had restarted, and
    /// so many blocks came up.
    fn demand(scripts: impl Iterator<Item = Script>) -> [usize; 2] {
        let [mut alone, mut blocks] = [0; 2];
        for script in scripts {
            let mut program = BenchProgram::default();
            let mut demand = Demand::default();
            for line in script.lines() {
                demand.take(&mut program, line);
            }
            alone += demand.alone;
            blocks += demand.assert_prefixes();
        }
        [alone, blocks]
    }

    #[test]
    fn open_ends_are_told_by_rej_of_both_sorts() {
        let [equal, above] = told_by_rej::<BenchProgram>(scripts());
        assert!(equal > 5 && above > 50, "{equal} {above}");
    }

    #[test]
    fn who_opens_has_a_partner_or_one_that_restarted_and_blocks_come_up_in_sequence() {
        for [alone, blocks] in [demand(scripts()), demand(at_every_place())] {
            assert!(alone > 20 && blocks > 200, "{alone} {blocks}");
        }
    }
}
