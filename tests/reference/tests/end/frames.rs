//! The step table's frames.

use crate::sample::{ack, data, end, holding, open, receive, signal, Effect, Record, LAST};
use reference::frame::Signal::{self, Crack, Crao, Crpo, Dr, Drack, Rej, Reset};
use reference::State::{self, Answering, Calling, Closed, Closing, Listening, Open};

/// L of every end here.
const LOCAL: u32 = 5;
/// D where it is known.
const REMOTE: u32 = 3;
/// A number that is not L.
const OTHER: u32 = 9;

/// What each signal does. An entry has the state entered, "D=s" if D becomes s in the same state,
/// the notice, and the frame sent, which quotes s. Closed and listening know no D, so that there
/// only REJ and DRACK have s = D. What is not listed is passed over.
const TABLE: &str = "
                    | s = D, r other | s = D, r = L   | s > D, r other | s > D, r = L
    closed CRAO     |                |                | REJ            | REJ
    closed CRPO     |                |                | REJ            | REJ
    closed CRACK    |                |                | REJ            | REJ
    closed DR       |                |                | DRACK          | DRACK
    listening CRAO  |                |                | answering CRPO | answering CRPO
    listening CRPO  |                |                | RESET          | RESET
    listening DR    |                |                | DRACK          | DRACK
    calling CRAO    | D=s CRAO       | open 1 CRACK   | D=s CRAO       | open 1 CRACK
    calling CRPO    |                | open 1 CRACK   |                | open 1 CRACK
    calling CRACK   |                | open 1         |                | open 1
    calling REJ     |                | closed 2       |                | closed 2
    calling DR      | DRACK          | closed 2 DRACK | DRACK          | closed 2 DRACK
    answering CRAO  | D=s CRPO       | D=s CRPO       | D=s CRPO       | D=s CRPO
    answering CRPO  | RESET          | RESET          | RESET          | RESET
    answering CRACK |                | open 1         |                |
    answering REJ   |                | listening      |                | listening
    answering RESET |                | listening      |                | listening
    answering DR    | DRACK          | closed 3 DRACK | DRACK          | closed 3 DRACK
    open CRAO       |                | CRACK          |                |
    open CRPO       |                | CRACK          |                |
    open REJ        |                | closed 3       |                | closed 3
    open DR         |                | closed 3 DRACK |                |
    closing CRAO    |                |                | closed 4       | closed 4
    closing CRPO    |                |                | closed 4       | closed 4
    closing DR      |                | closed 4 DRACK | closed 4 DRACK | closed 4 DRACK
    closing DRACK   |                | closed 4       |                | closed 4
    closing REJ     |                | closed 4       |                | closed 4
";

/// The table's entries for this signal in this state.
fn entries(state: State, signal: Signal) -> [&'static str; 4] {
    let name = format!("{state:?} {signal:?}");
    TABLE
        .lines()
        .map(|line| line.split('|').map(str::trim).collect::<Vec<_>>())
        .find(|row| row[0].eq_ignore_ascii_case(&name))
        .map_or([""; 4], |row| row[1..].try_into().unwrap())
}

/// The partner's number that an end of this state knows.
fn remote(state: State) -> u32 {
    match state {
        Closed | Listening => 0,
        _ => REMOTE,
    }
}

/// The s and r of the table's columns.
fn columns(remote: u32) -> [(u32, u32); 4] {
    let newer = remote + 1;
    [
        (remote, OTHER),
        (remote, LOCAL),
        (newer, OTHER),
        (newer, LOCAL),
    ]
}

/// What an entry of the table says.
fn effect(state: State, s: u32, entry: &str) -> Effect {
    let mut effect = Effect::silent(end(state, LOCAL, remote(state)));
    for word in entry.split_whitespace() {
        match word {
            "closed" => effect.record = end(Closed, LOCAL, 0),
            "listening" => effect.record = end(Listening, LOCAL, 0),
            "answering" => effect.record = end(Answering, LOCAL, s),
            "open" => effect.record = end(Open, LOCAL, s),
            "D=s" => effect.record = end(state, LOCAL, s),
            "CRAO" => effect.frame = signal(Crao, LOCAL, s),
            "CRPO" => effect.frame = signal(Crpo, LOCAL, s),
            "CRACK" => effect.frame = signal(Crack, LOCAL, s),
            "REJ" => effect.frame = signal(Rej, LOCAL, s),
            "RESET" => effect.frame = signal(Reset, LOCAL, s),
            "DRACK" => effect.frame = signal(Drack, LOCAL, s),
            notice => effect.notice = notice.parse().unwrap(),
        }
    }
    effect
}

#[test]
fn every_signal_in_every_state() {
    for state in State::ALL {
        let record = end(state, LOCAL, remote(state));
        for kind in Signal::ALL {
            let entries = entries(state, kind);
            for ((s, r), entry) in columns(remote(state)).into_iter().zip(entries) {
                if s == 0 && !matches!(kind, Rej | Drack) {
                    continue;
                }
                let found = receive(record, &signal(kind, s, r));
                assert_eq!(found, effect(state, s, entry), "{state:?} {kind:?} {s} {r}");
            }
        }
    }
}

#[test]
fn frames_older_than_the_partner_are_passed_over() {
    for state in [Calling, Answering, Open, Closing] {
        let record = end(state, LOCAL, REMOTE);
        for r in [LOCAL, OTHER] {
            let signals = Signal::ALL.map(|kind| signal(kind, REMOTE - 1, r));
            let others = [
                data(REMOTE - 1, r, 0, b"a"),
                data(REMOTE - 1, r, 1, b"b"),
                ack(REMOTE - 1, r, 1),
            ];
            for frame in signals.into_iter().chain(others) {
                assert_eq!(receive(record, &frame), Effect::silent(record));
            }
        }
    }
    let calling = end(Calling, LOCAL, REMOTE);
    assert_eq!(
        receive(calling, &signal(Rej, 0, LOCAL)),
        Effect::silent(calling)
    );
}

#[test]
fn data_and_ack_count_only_in_the_open_connection_and_are_rejected_by_a_closed_end() {
    for state in State::ALL {
        let record = match state {
            Open => open(1, 0, &[b"waiting"]),
            _ => end(state, LOCAL, remote(state)),
        };
        for (s, r) in columns(remote(state)) {
            if s == 0 || (state, s, r) == (Open, REMOTE, LOCAL) {
                continue;
            }
            let right = || match state {
                Closed => Effect::silent(record).frame(signal(Rej, LOCAL, s)),
                _ => Effect::silent(record),
            };
            for frame in [data(s, r, 0, b"a"), data(s, r, 1, b"b"), ack(s, r, 1)] {
                assert_eq!(receive(record, &frame), right());
            }
        }
    }
}

#[test]
fn every_data_is_acknowledged_the_awaited_one_handed_up_and_an_early_one_held() {
    for handed_up in [0, 1, 7, LAST - 1, LAST] {
        let before = open(2, handed_up, &[b"waiting"]);
        for sequence in [0, 1, 6, 7, 8, 14, 15, LAST - 2, LAST - 1] {
            let found = receive(before, &data(REMOTE, LOCAL, sequence, b"block"));
            let above = i64::from(sequence) - i64::from(handed_up);
            let right = match above {
                0 => {
                    let after = open(2, handed_up + 1, &[b"waiting"]);
                    let acknowledgement = ack(LOCAL, REMOTE, handed_up + 1);
                    Effect::silent(after).frame(acknowledgement).block(b"block")
                }
                1..=7 => {
                    let after = holding(before, &[(above as usize, b"block")]);
                    Effect::silent(after).frame(ack(LOCAL, REMOTE, handed_up))
                }
                _ => Effect::silent(before).frame(ack(LOCAL, REMOTE, handed_up)),
            };
            assert_eq!(found, right);
        }
    }
}

#[test]
fn acknowledged_blocks_leave() {
    let blocks: [&[u8]; 4] = [&[1; 64], &[2; 1], &[3; 30], &[4; 64]];
    for accepted in [4, 20, LAST] {
        let before = open(accepted, 0, &blocks);
        let oldest = accepted - 4;
        for count in [
            0,
            1,
            oldest.wrapping_sub(1),
            oldest,
            LAST,
            accepted.wrapping_add(1),
        ] {
            let is_new = oldest < count && count <= accepted;
            if !is_new {
                assert_eq!(
                    receive(before, &ack(REMOTE, LOCAL, count)),
                    Effect::silent(before)
                );
            }
        }
        for leaving in 1..=4 {
            let after = open(accepted, 0, &blocks[leaving..]);
            let frame = ack(REMOTE, LOCAL, oldest + leaving as u32);
            assert_eq!(receive(before, &frame), Effect::silent(after));
        }
    }
}

#[test]
fn leaving_open_clears_counts_and_blocks() {
    let record: Record = open(LAST, LAST, &[[7; 64].as_slice(); 8]);
    let right = Effect::silent(end(Closed, LOCAL, 0))
        .notice(3)
        .frame(signal(Drack, LOCAL, REMOTE));
    assert_eq!(receive(record, &signal(Dr, REMOTE, LOCAL)), right);
    for s in [REMOTE, REMOTE + 1, LAST] {
        let right = Effect::silent(end(Closed, LOCAL, 0)).notice(3);
        assert_eq!(receive(record, &signal(Rej, s, LOCAL)), right);
    }
}

#[test]
fn a_fresh_end_answers_with_sender_0() {
    let fresh = end(Closed, 0, 0);
    for (kind, answer) in [(Crao, Rej), (Crpo, Rej), (Crack, Rej), (Dr, Drack)] {
        let right = Effect::silent(fresh).frame(signal(answer, 0, 7));
        assert_eq!(receive(fresh, &signal(kind, 7, 1)), right);
    }
    for frame in [data(7, 1, 0, b"a"), ack(7, 1, 0)] {
        let right = Effect::silent(fresh).frame(signal(Rej, 0, 7));
        assert_eq!(receive(fresh, &frame), right);
    }
    let calling = end(Calling, 1, 0);
    let right = Effect::silent(end(Closed, 1, 0)).notice(2);
    assert_eq!(receive(calling, &signal(Rej, 0, 1)), right);
}
