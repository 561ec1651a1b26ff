//! The step table's requests.

use crate::sample::{
    data, end, open, request, send, signal, Effect, Record, CLOSE, COLLECT, CONNECT, END_LISTENING,
    LAST, LAST_LOCAL, LISTEN, TIMER,
};
use reference::frame::Signal::{Crao, Crpo, Dr};
use reference::State::{Answering, Calling, Closed, Closing, Listening, Open};

/// A record of each state, where calling has two: it may know a partner or none. L is 5, and D 3
/// where it is known.
fn each_state() -> [Record; 7] {
    [
        end(Closed, 5, 0),
        end(Listening, 5, 0),
        end(Calling, 5, 0),
        end(Calling, 5, 3),
        end(Answering, 5, 3),
        end(Open, 5, 3),
        end(Closing, 5, 3),
    ]
}

#[test]
fn every_request_in_every_state() {
    let [closed, listening, unheard, calling, answering, opened, closing] = each_state();
    let a = send(b"a");
    let hanging_up = || Effect::silent(closing).frame(signal(Dr, 5, 3));
    let rows = [
        (
            closed,
            CONNECT,
            Effect::silent(end(Calling, 6, 0)).frame(signal(Crao, 6, 0)),
        ),
        (closed, LISTEN, Effect::silent(end(Listening, 6, 0))),
        (closed, TIMER, Effect::silent(closed)),
        (listening, END_LISTENING, Effect::silent(closed)),
        (listening, TIMER, Effect::silent(listening)),
        (unheard, CLOSE, Effect::silent(closed).notice(4)),
        (
            unheard,
            TIMER,
            Effect::silent(unheard).frame(signal(Crao, 5, 0)),
        ),
        (calling, CLOSE, hanging_up()),
        (
            calling,
            TIMER,
            Effect::silent(calling).frame(signal(Crao, 5, 3)),
        ),
        (
            answering,
            TIMER,
            Effect::silent(answering).frame(signal(Crpo, 5, 3)),
        ),
        (opened, CLOSE, hanging_up()),
        (
            opened,
            &a,
            Effect::silent(open(1, 0, &[b"a"])).frame(data(5, 3, 0, b"a")),
        ),
        (opened, TIMER, Effect::silent(opened)),
        (opened, COLLECT, Effect::silent(opened)),
        (closing, TIMER, hanging_up()),
    ];
    for record in each_state() {
        for bytes in [CONNECT, LISTEN, END_LISTENING, CLOSE, &a, TIMER, COLLECT] {
            let row = rows
                .iter()
                .find(|(other, request, _)| *other == record && *request == bytes);
            let refused = Effect::refused(record, 8);
            let right = row.map_or(&refused, |(_, _, effect)| effect);
            assert_eq!(&request(record, bytes), right);
        }
    }
}

#[test]
fn the_timer_sends_the_oldest_block() {
    let record = open(9, 4, &[b"old", b"middle", b"young"]);
    let right = Effect::silent(record).frame(data(5, 3, 6, b"old"));
    assert_eq!(request(record, TIMER), right);
}

#[test]
fn a_sent_block_joins_as_number_t() {
    let record = open(9, 4, &[b"older"]);
    let right = Effect::silent(open(10, 4, &[b"older", b"younger"]));
    let right = right.frame(data(5, 3, 9, b"younger"));
    assert_eq!(request(record, &send(b"younger")), right);
}

#[test]
fn close_clears_counts_and_blocks() {
    let record = open(LAST, LAST, &[[7; 64].as_slice(); 8]);
    let right = Effect::silent(end(Closing, 5, 3)).frame(signal(Dr, 5, 3));
    assert_eq!(request(record, CLOSE), right);
}

#[test]
fn no_number_is_left_after_the_last() {
    for (bytes, state) in [(CONNECT, Calling), (LISTEN, Listening)] {
        let used_up = end(Closed, LAST_LOCAL, 0);
        assert_eq!(request(used_up, bytes), Effect::refused(used_up, 9));
        let effect = request(end(Closed, LAST_LOCAL - 1, 0), bytes);
        let last = end(state, LAST_LOCAL, 0);
        assert_eq!((effect.number, effect.record), (0, last));
    }
    let a = send(b"a");
    assert_eq!(request(open(LAST, 0, &[]), &a).number, 9);
    assert_eq!(request(open(LAST, 0, &[b"b".as_slice(); 8]), &a).number, 9);
    let right = Effect::silent(open(LAST, 0, &[b"a"])).frame(data(5, 3, LAST - 1, b"a"));
    assert_eq!(request(open(LAST - 1, 0, &[]), &a), right);
}
