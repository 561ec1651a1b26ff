//! Calls that are hung up before they open, as both ends see it.

use crate::sample::{
    end, receive, request, signal, Effect, CLOSE, CONNECT, FRESH, LAST, LAST_LOCAL, LISTEN, TIMER,
};
use reference::frame::Signal::{Crack, Crao, Crpo, Dr, Drack, Rej};
use reference::State::{Answering, Calling, Closed, Closing, Listening, Open};

/// A fresh end calls.
fn call() -> Effect {
    request(FRESH, CONNECT)
}

/// Of two fresh ends that call, the one that has heard the other's call.
fn heard_call() -> Effect {
    receive(call().record, &call().frame)
}

/// An end with these numbers hangs up, and tells its partner.
fn hanging_up(local: u32, remote: u32) -> Effect {
    Effect::silent(end(Closing, local, remote)).frame(signal(Dr, local, remote))
}

/// An end that has hung up is closed, and says so to its host alone.
fn close_finished(local: u32) -> Effect {
    Effect::silent(end(Closed, local, 0)).notice(4)
}

#[test]
fn numbers_at_the_edges_stay_as_they_are() {
    for local in [1, LAST_LOCAL] {
        let found = request(end(Calling, local, 0), CLOSE);
        assert_eq!(found, close_finished(local));
        for remote in [1, LAST] {
            let found = request(end(Calling, local, remote), CLOSE);
            assert_eq!(found, hanging_up(local, remote));
        }
    }
}

#[test]
fn a_call_that_heard_nothing_is_over_at_once() {
    let hung_up = request(call().record, CLOSE);
    assert_eq!(hung_up, close_finished(1));
    let refused = receive(FRESH, &call().frame);
    assert_eq!(refused.frame, signal(Rej, 0, 1));
    let late = receive(hung_up.record, &refused.frame);
    assert_eq!(late, Effect::silent(hung_up.record));
    let next = request(hung_up.record, CONNECT);
    let right = Effect::silent(end(Calling, 2, 0)).frame(signal(Crao, 2, 0));
    assert_eq!(next, right);
    let later = receive(next.record, &refused.frame);
    assert_eq!(later, Effect::silent(next.record));
}

#[test]
fn a_partner_that_calls_too_is_told() {
    let a = heard_call();
    let right = Effect::silent(end(Calling, 1, 1)).frame(signal(Crao, 1, 1));
    assert_eq!(a, right);
    let a = request(a.record, CLOSE);
    assert_eq!(a, hanging_up(1, 1));
    let b = receive(call().record, &a.frame);
    let rejected = Effect::silent(end(Closed, 1, 0)).notice(2);
    assert_eq!(b, rejected.frame(signal(Drack, 1, 1)));
    assert_eq!(receive(a.record, &b.frame), close_finished(1));
}

#[test]
fn an_answer_to_a_call_that_is_over_is_rejected() {
    let a = request(call().record, CLOSE);
    let listening = request(FRESH, LISTEN).record;
    let b = receive(listening, &call().frame);
    let right = Effect::silent(end(Answering, 1, 1)).frame(signal(Crpo, 1, 1));
    assert_eq!(b, right);
    let rejecting = receive(a.record, &b.frame);
    let right = Effect::silent(end(Closed, 1, 0)).frame(signal(Rej, 1, 1));
    assert_eq!(rejecting, right);
    let b = receive(b.record, &rejecting.frame);
    assert_eq!(b, Effect::silent(end(Listening, 1, 0)));
}

#[test]
fn an_answer_from_a_newer_incarnation_ends_the_closing() {
    let a = heard_call();
    let b = request(call().record, CLOSE);
    let b = request(b.record, LISTEN);
    let b = receive(b.record, &call().frame);
    let right = Effect::silent(end(Answering, 2, 1)).frame(signal(Crpo, 2, 1));
    assert_eq!(b, right);
    let hung_up = request(a.record, CLOSE);
    assert_eq!(hung_up, hanging_up(1, 1));
    let a = receive(hung_up.record, &b.frame);
    assert_eq!(a, close_finished(1));
    let told = receive(b.record, &hung_up.frame);
    let right = Effect::silent(end(Answering, 2, 1)).frame(signal(Drack, 2, 1));
    assert_eq!(told, right);
    assert_eq!(receive(a.record, &told.frame), Effect::silent(a.record));
    let again = request(told.record, TIMER);
    assert_eq!(again.frame, b.frame);
    let rejecting = receive(a.record, &again.frame);
    assert_eq!(rejecting.frame, signal(Rej, 1, 2));
    let b = receive(again.record, &rejecting.frame);
    assert_eq!(b, Effect::silent(end(Listening, 2, 0)));
}

#[test]
fn a_hang_up_that_is_lost_is_sent_again() {
    let lost = request(heard_call().record, CLOSE);
    let again = request(lost.record, TIMER);
    assert_eq!(again, lost);
    let b = receive(call().record, &again.frame);
    assert_eq!((b.number, b.notice), (0, 2));
    let answered_twice = receive(b.record, &lost.frame);
    let right = Effect::silent(end(Closed, 1, 0)).frame(signal(Drack, 1, 1));
    assert_eq!(answered_twice, right);
    assert_eq!(receive(again.record, &b.frame), close_finished(1));
}

/// Both have heard the other's call, so that their records and frames are the same.
#[test]
fn two_that_hang_up_end_each_other() {
    let either = request(heard_call().record, CLOSE);
    let told = receive(either.record, &either.frame);
    assert_eq!(told, close_finished(1).frame(signal(Drack, 1, 1)));
    let late = receive(told.record, &told.frame);
    assert_eq!(late, Effect::silent(told.record));
}

#[test]
fn the_partner_may_open_after_the_hang_up() {
    let a = heard_call();
    let hung_up = request(a.record, CLOSE);
    let b = receive(call().record, &a.frame);
    let right = Effect::silent(end(Open, 1, 1)).notice(1);
    assert_eq!(b, right.frame(signal(Crack, 1, 1)));
    let late = receive(hung_up.record, &b.frame);
    assert_eq!(late, Effect::silent(hung_up.record));
    let b = receive(b.record, &hung_up.frame);
    let right = Effect::silent(end(Closed, 1, 0)).notice(3);
    assert_eq!(b, right.frame(signal(Drack, 1, 1)));
    assert_eq!(receive(late.record, &b.frame), close_finished(1));
}
