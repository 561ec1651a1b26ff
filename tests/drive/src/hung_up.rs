//! Which frames reach an end after its call was hung up.

use crate::reference_program::Meeting;
use cases::group::Score;
use cases::records::Numbers;
use reference::bench::Side;
use reference::{Frame, Message, Request, State};
use std::collections::BTreeSet;

/// How a call was hung up before it opened.
#[derive(Clone, Copy, Debug, PartialEq, Eq, PartialOrd, Ord)]
enum HangUp {
    /// No partner was known: the end closed at once.
    AtOnce,
    /// The partner is told: the end is closing, and never was open.
    Told,
}

/// A frame that comes after a hang-up.
#[derive(Clone, Copy, Debug, PartialEq, Eq, PartialOrd, Ord)]
struct Late {
    after: HangUp,
    kind: u8,
    /// Does it quote the call that was hung up?
    quotes_us: bool,
}

/// How each end's last call was hung up, if it was, and all frames that came after such calls.
#[derive(Default)]
pub struct HungUp {
    last: [Option<HangUp>; 2],
    late: BTreeSet<Late>,
}

impl HangUp {
    /// The hang-up that this close of an end makes, if it was calling.
    fn of(state: Option<State>, remote: u32) -> Option<Self> {
        match (state, remote) {
            (Some(State::Calling), 0) => Some(Self::AtOnce),
            (Some(State::Calling), _) => Some(Self::Told),
            _ => None,
        }
    }

    /// The state in which it leaves the end.
    fn state(self) -> State {
        match self {
            Self::AtOnce => State::Closed,
            Self::Told => State::Closing,
        }
    }
}

impl HungUp {
    /// So many sorts of frames there are: nine kinds that quote the call or not, after two sorts of
    /// hang-ups.
    pub const SORTS: usize = 36;

    /// This end restarts: it is closed without having hung up.
    pub fn restart(&mut self, side: Side) {
        self.last[side.index()] = None;
    }

    /// A program starts: its ends are fresh.
    pub fn start(&mut self) {
        self.last = [None; 2];
    }

    /// This meeting was answered with this number. Only what is accepted counts.
    pub fn see(&mut self, meeting: &Meeting, number: u8) {
        match Message::read(&meeting.message) {
            Ok(Message::Request(request)) if number == 0 => self.request(meeting, request),
            Ok(Message::Frame(frame)) if number == 0 => self.frame(meeting, &frame),
            _ => {}
        }
    }

    /// A close may hang up; the next call or listening is another one.
    fn request(&mut self, meeting: &Meeting, request: Request) {
        let last = &mut self.last[meeting.side.index()];
        let numbers = Numbers::of(&meeting.record);
        match request {
            Request::Close => *last = HangUp::of(State::of(meeting.record[0]), numbers.remote),
            Request::Connect | Request::Listen => *last = None,
            _ => {}
        }
    }

    /// A frame comes after a hang-up if the end still is as that left it.
    fn frame(&mut self, meeting: &Meeting, frame: &Frame) {
        let state = State::of(meeting.record[0]);
        let last = self.last[meeting.side.index()];
        let last = last.filter(|hang_up| state == Some(hang_up.state()));
        self.late.extend(last.map(|after| Late {
            after,
            kind: frame.body.kind(),
            quotes_us: frame.quoted == Numbers::of(&meeting.record).local,
        }));
    }

    /// Prints how many sorts of frames came. Each one that is missing to this many is a failed
    /// case.
    pub fn report_least(&self, least: usize) -> Score {
        let seen = self.late.len();
        println!("frames after a hang-up: {seen} sorts seen, {least} expected at least");
        Score {
            passed: 0,
            failed: least.saturating_sub(seen) as u64,
        }
    }
}

#[cfg(test)]
mod tests {
    use super::HangUp::{AtOnce, Told};
    use super::*;
    use crate::reference_program::{meetings, ReferenceProgram};
    use crate::script::Script;
    use crate::{bench, hanging_up};
    use reference::bench::program::BenchProgram;
    use reference::frame::Signal::{self, Crack, Crao, Crpo, Dr, Drack, Rej};
    use reference::frame::DATA;
    use reference::program::LineProgram;
    use reference::record::RECORD;
    use reference::Notice;

    /// What comes after the hang-ups of these scripts.
    fn late<P: ReferenceProgram>(scripts: impl Iterator<Item = Script>) -> BTreeSet<Late> {
        let mut hung_up = HungUp::default();
        for script in scripts {
            hung_up.start();
            for (meeting, number) in meetings::<P>(&script) {
                hung_up.see(&meeting, number);
            }
        }
        hung_up.late
    }

    /// What comes after the hang-ups of one end with these lines.
    fn late_of(lines: &[&str]) -> Vec<Late> {
        let script = Script::from_iter(lines.iter().map(|line| line.as_bytes()));
        let late = late::<LineProgram>([script].into_iter());
        late.into_iter().collect()
    }

    const CRPO: &str = "020000000200000001";
    const CRAO: &str = "010000000100000000";

    #[test]
    fn frames_count_from_a_hang_up_to_the_next_call() {
        let rejected = Late {
            after: AtOnce,
            kind: Crpo as u8,
            quotes_us: true,
        };
        assert_eq!(late_of(&["40", "43", CRPO]), [rejected]);
        assert_eq!(late_of(&["40", CRPO, "43"]), []);
        assert_eq!(late_of(&["43", CRPO]), []);
        for next in ["40", "41"] {
            assert_eq!(late_of(&["40", "43", next, CRPO]), []);
        }
    }

    #[test]
    fn a_closing_end_counts_until_it_is_closed_and_only_if_it_never_was_open() {
        let called = Late {
            after: Told,
            kind: Crao as u8,
            quotes_us: false,
        };
        let answered = Late {
            kind: Crpo as u8,
            quotes_us: true,
            ..called
        };
        assert_eq!(late_of(&["40", CRAO, "43", CRAO]), [called]);
        assert_eq!(
            late_of(&["40", CRAO, "43", CRAO, CRPO, CRPO]),
            [called, answered]
        );
        assert_eq!(late_of(&["40", CRPO, "43", CRPO]), []);
    }

    #[test]
    fn each_sort_that_is_missing_fails() {
        let hung_up = HungUp::default();
        assert_eq!(hung_up.report_least(0).failed, 0);
        assert_eq!(hung_up.report_least(HungUp::SORTS).failed, 36);
    }

    /// Is the end of this record another's partner, as that one opens? It names it back, and
    /// neither is closed nor listens.
    fn is_partner(record: &[u8; RECORD], opening: &[u8; RECORD]) -> bool {
        let [own, other] = [record, opening].map(Numbers::of);
        let names_back = (own.local, own.remote) == (other.remote, other.local);
        let state = State::of(record[0]);
        names_back && !matches!(state, Some(State::Closed | State::Listening))
    }

    #[test]
    fn who_opens_has_a_partner_which_may_have_hung_up() {
        let mut hung_up = HungUp::default();
        let mut times = 0;
        for script in bench::hanging_up::scripts() {
            let mut program = BenchProgram::default();
            hung_up.start();
            for line in script.lines() {
                let meeting = program.meeting(line);
                let answer = program.answer(line);
                let Some(meeting) = meeting else { continue };
                hung_up.see(&meeting, BenchProgram::number(&answer));
                if BenchProgram::notice(&answer) == Notice::Connected as u8 {
                    let [side, other] = [meeting.side, meeting.side.other()];
                    assert!(is_partner(program.record(other), program.record(side)));
                    times += usize::from(hung_up.last[other.index()] == Some(Told));
                }
            }
        }
        assert!(times > 10, "{times}");
    }

    /// The kinds of those that come after this hang-up, and quote the call or not.
    fn kinds(late: &BTreeSet<Late>, hang_up: HangUp, is_about_us: bool) -> Vec<u8> {
        let late = late.iter().filter(|late| late.after == hang_up);
        let late = late.filter(|late| late.quotes_us == is_about_us);
        late.map(|late| late.kind).collect()
    }

    /// About a call that quoted no number nobody sends CRACK, DRACK or DATA, and about one that
    /// never opened nobody sends ACK. RESET answers CRPO, which a caller does not send.
    #[test]
    fn sessions_bring_all_that_a_partner_may_send_about_the_call_and_old_frames() {
        for late in [
            late::<LineProgram>(hanging_up::scripts()),
            late::<BenchProgram>(bench::hanging_up::scripts()),
        ] {
            let signals = |signals: &[Signal]| signals.iter().map(|&signal| signal as u8).collect();
            let at_once: Vec<u8> = signals(&[Crao, Crpo, Rej, Dr]);
            let mut told: Vec<u8> = signals(&[Crao, Crpo, Crack, Rej, Dr, Drack]);
            for hang_up in [AtOnce, Told] {
                let old = kinds(&late, hang_up, false);
                assert!(told.iter().all(|kind| old.contains(kind)), "{old:?}");
            }
            told.push(DATA);
            assert_eq!(kinds(&late, AtOnce, true), at_once);
            assert_eq!(kinds(&late, Told, true), told);
        }
    }
}
