//! The document's edges that concern one end.

use crate::sample::{ack, data, end, holding, open, receive, request, send, signal, Effect};
use reference::frame::Signal::{Crack, Crao, Rej, Reset};
use reference::State::{Answering, Calling, Closed, Closing, Listening};

#[test]
fn the_eleven_proved_cases() {
    let calling = end(Calling, 5, 3);
    let closing = end(Closing, 5, 3);
    let answering = end(Answering, 2, 6);
    let seven: &[&[u8]] = &[b"b".as_slice(); 7];
    let eight: &[&[u8]] = &[b"b".as_slice(); 8];
    let cases = [
        (
            receive(calling, &signal(Rej, 3, 5)),
            Effect::silent(end(Closed, 5, 0)).notice(2),
        ),
        (
            receive(calling, &signal(Rej, 2, 5)),
            Effect::silent(calling),
        ),
        (
            receive(closing, &signal(Crao, 4, 0)),
            Effect::silent(end(Closed, 5, 0)).notice(4),
        ),
        (
            receive(closing, &signal(Crao, 3, 5)),
            Effect::silent(closing),
        ),
        (
            receive(answering, &signal(Reset, 7, 2)),
            Effect::silent(end(Listening, 2, 0)),
        ),
        (
            receive(answering, &signal(Reset, 5, 2)),
            Effect::silent(answering),
        ),
        (
            receive(open(0, 0, &[]), &data(3, 5, 1, b"a")),
            Effect::silent(holding(open(0, 0, &[]), &[(1, b"a")])).frame(ack(5, 3, 0)),
        ),
        (
            request(end(Closed, 65_535, 0), &[0x40]),
            Effect::silent(end(Calling, 65_536, 0)).frame(signal(Crao, 65_536, 0)),
        ),
        (
            request(end(Closed, 65_536, 0), &[0x40]),
            Effect::refused(end(Closed, 65_536, 0), 9),
        ),
        (
            request(open(7, 0, seven), &send(b"b")),
            Effect::silent(open(8, 0, eight)).frame(data(5, 3, 7, b"b")),
        ),
        (
            request(open(8, 0, eight), &send(b"b")),
            Effect::refused(open(8, 0, eight), 10),
        ),
    ];
    for (found, right) in cases {
        assert_eq!(found, right);
    }
}

#[test]
fn blocks_have_1_to_64_bytes() {
    let record = open(0, 0, &[]);
    for length in [1, 64] {
        let block = vec![7; length];
        let sent = request(record, &send(&block));
        assert_eq!(sent.frame, data(5, 3, 0, &block));
        let received = receive(record, &data(3, 5, 0, &block));
        assert_eq!((received.notice, received.block), (5, block));
    }
    for count in [0, 65] {
        let block = vec![7; count];
        assert_eq!(request(record, &send(&block)), Effect::refused(record, 5));
        let mut frame = data(3, 5, 0, &[7]);
        frame.truncate(13);
        frame.push(count as u8);
        frame.extend(block);
        assert_eq!(receive(record, &frame), Effect::refused(record, 5));
    }
}

#[test]
fn believable_errors_are_not_made() {
    // REJ with s = D taken as old.
    let rejected = receive(end(Calling, 5, 3), &signal(Rej, 3, 5));
    assert_eq!((rejected.notice, rejected.record), (2, end(Closed, 5, 0)));
    // Opening on a CRAO that quotes another number.
    let called = receive(end(Calling, 5, 3), &signal(Crao, 4, 4));
    let right = Effect::silent(end(Calling, 5, 4)).frame(signal(Crao, 5, 4));
    assert_eq!(called, right);
    // A new L on return to listening.
    let reset = receive(end(Answering, 5, 3), &signal(Reset, 3, 5));
    assert_eq!(reset, Effect::silent(end(Listening, 5, 0)));
    // Handing up DATA while answering.
    let answering = end(Answering, 5, 3);
    let early = receive(answering, &data(3, 5, 0, b"early"));
    assert_eq!(early, Effect::silent(answering));
}

#[test]
fn an_old_connection_opens_nothing() {
    let answering = end(Answering, 5, 3);
    for (s, r) in [(2, 5), (4, 5), (3, 4), (3, 6)] {
        let found = receive(answering, &signal(Crack, s, r));
        assert_eq!(found, Effect::silent(answering));
    }
}
