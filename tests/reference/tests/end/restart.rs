//! Ends that lose their power and come back, and how their partners hear of it.

use crate::bench::{Lent, UNSOUND};
use crate::sample::{
    ack, data, end, holding, open, page, page_of, receive, request, send, signal, Effect, Page,
    Record, CONNECT, FRESH, LAST_LOCAL, LISTEN, TIMER,
};
use reference::bench::Side::{self, A, B};
use reference::call;
use reference::frame::Signal::{Crack, Crao, Crpo, Dr, Drack, Rej};
use reference::page::{next, reserve};
use reference::record::RECORD;
use reference::Refusal;
use reference::State::{Answering, Calling, Closed, Closing, Listening, Open};

/// The record of an end that restarts with this page.
fn restarted(page: &Page) -> Record {
    let mut record = UNSOUND;
    assert_eq!(call::restart(&mut record, page), Ok(()));
    record
}

#[test]
fn an_end_restarts_closed_with_sixteen_numbers_a_reserved_byte() {
    for reserved in [0, 1, 2, 255, 256, 4095, 4096] {
        let right = end(Closed, 16 * reserved as u32, 0);
        assert_eq!(restarted(&page(reserved)), right);
    }
    assert_eq!(restarted(&page(0)), FRESH);
}

#[test]
fn the_record_that_is_replaced_is_not_looked_at() {
    let busy = holding(open(9, 2, &[b"b".as_slice(); 8]), &[(3, b"held")]);
    for record in [FRESH, UNSOUND, busy, end(Closed, u32::MAX, 0)] {
        let mut record = record;
        assert_eq!(call::restart(&mut record, &page(1)), Ok(()));
        assert_eq!(record, end(Closed, 16, 0));
    }
}

#[test]
fn a_page_that_is_no_run_is_refused_and_the_record_left() {
    for count in [0, 1, 5, 4095, 4096] {
        for (place, byte) in [
            (0, 0x01),
            (0, 0xfe),
            (3, 0x80),
            (4095, 0x01),
            (4095, 0x7f),
            (2047, 0x55),
        ] {
            let mut page = page(count);
            page[place] = byte;
            let mut record = UNSOUND;
            assert_eq!(call::restart(&mut record, &page), Err(Refusal::Page));
            assert_eq!(record, UNSOUND);
        }
    }
    let mut hole = page(5);
    hole[2] = 0xff;
    assert_eq!(call::restart(&mut FRESH.clone(), &hole), Err(Refusal::Page));
    let mut beyond = page(5);
    beyond[6] = 0x00;
    assert_eq!(
        call::restart(&mut FRESH.clone(), &beyond),
        Err(Refusal::Page)
    );
}

#[test]
fn the_first_number_after_a_restart_is_a_new_one() {
    for local in 1..=100 {
        let before = page_of(&end(Listening, local, 0));
        let back = restarted(&before);
        let next = request(back, CONNECT);
        let reserved = local.div_ceil(16);
        assert_eq!(next.frame, signal(Crao, 16 * reserved + 1, 0));
    }
    let used_up = restarted(&page(4096));
    assert_eq!(request(used_up, LISTEN), Effect::refused(used_up, 9));
    let last = request(restarted(&page(4095)), LISTEN);
    assert_eq!(last.record, end(Listening, LAST_LOCAL - 15, 0));
}

/// A cut inside a call is a restart on the page before or after its one store: no number used
/// before comes again.
#[test]
fn no_cut_lets_a_number_be_used_twice() {
    for local in 0..200 {
        let mut page = page_of(&end(Closed, local, 0));
        for _ in 0..2 {
            let next_number = request(restarted(&page), CONNECT).record;
            let found = u32::from_be_bytes(next_number[1..5].try_into().unwrap());
            assert!(found > local, "{found} after {local}");
            match next(local) {
                Some(place) => reserve(&mut page, place),
                None => break,
            }
        }
    }
}

#[test]
fn a_closed_end_rejects_what_belongs_to_a_connection() {
    let closed = end(Closed, 16, 0);
    for s in [1, 3, u32::MAX] {
        for r in [1, 16, 40] {
            for frame in [
                signal(Crao, s, r),
                signal(Crpo, s, r),
                signal(Crack, s, r),
                data(s, r, 0, b"a"),
                data(s, r, 9, &[7; 64]),
                ack(s, r, 0),
                ack(s, r, u32::MAX),
            ] {
                let right = Effect::silent(closed).frame(signal(Rej, 16, s));
                assert_eq!(receive(closed, &frame), right);
            }
        }
    }
}

#[test]
fn an_open_end_is_closed_by_a_rej_that_is_not_older_than_its_partner() {
    let busy = holding(open(9, 2, &[b"b".as_slice(); 8]), &[(3, b"held")]);
    let right = || Effect::silent(end(Closed, 5, 0)).notice(3);
    for s in [3, 4, 16, u32::MAX] {
        assert_eq!(receive(busy, &signal(Rej, s, 5)), right());
    }
    for (s, r) in [(2, 5), (0, 5), (3, 4), (3, 6), (16, 4), (u32::MAX, 6)] {
        assert_eq!(receive(busy, &signal(Rej, s, r)), Effect::silent(busy));
    }
}

#[test]
fn a_restart_of_an_end_on_the_bench() {
    for (lead, side) in [(0x50, A), (0x51, B)] {
        let records = [open(1, 0, &[b"a"]), end(Calling, 40, 7)];
        let before = Lent::new(records, &[(A, data(5, 3, 0, b"a"))]).longer(2);
        let mut lent = before.clone();
        let told = lent.line(&[0x53, lead]);
        let local = [16, 48][side.index()];
        assert_eq!((told.number, told.side), (0, side));
        assert_eq!((told.state, told.notice, told.sent), (0, 0, 0));
        assert_eq!((told.local, told.remote), (local, 0));
        let mut right = before;
        right.records[side.index()][..RECORD].copy_from_slice(&end(Closed, local, 0));
        assert_eq!(lent, right);
        assert_eq!(lent.line(&[0x53, lead]), told);
        assert_eq!(lent, right);
    }
}

#[test]
fn a_restart_passes_with_a_full_book_and_beside_any_record_of_its_own() {
    for (lead, side) in [(0x50, A), (0x51, B)] {
        let mut lent = Lent::new([FRESH; 2], &[]).filled(512);
        assert_eq!(lent.asked(&[0x53, lead]), (0, side));
        lent.records[side.index()] = UNSOUND.to_vec();
        assert_eq!(lent.asked(&[0x53, lead]), (0, side));
        lent.pages[side.index()][..7].fill(0);
        let told = lent.line(&[0x53, lead]);
        assert_eq!((told.number, told.side, told.local), (0, side, 112));
        assert_eq!(lent.records[side.index()], end(Closed, 112, 0));
    }
}

/// The bench with this end's record unsound.
fn unsound(side: Side) -> Lent {
    let mut lent = Lent::new([FRESH; 2], &[]);
    lent.records[side.index()] = UNSOUND.to_vec();
    lent
}

/// The bench with this end's page a run that its record does not ask for.
fn wrong_count(side: Side) -> Lent {
    let mut lent = Lent::new([FRESH; 2], &[]);
    lent.pages[side.index()][0] = 0;
    lent
}

/// The bench with this end's page no run.
fn no_run(side: Side) -> Lent {
    let mut lent = Lent::new([FRESH; 2], &[]);
    lent.pages[side.index()][4095] = 0x0f;
    lent
}

#[test]
fn only_a_whole_line_53_leaves_its_own_record_unasked() {
    for (lead, side) in [(0x50, A), (0x51, B)] {
        let restart = [0x53, lead];
        let others = [
            &[0x53][..],
            &[0x53, 0x52],
            &[0x53, 0x52, 0],
            &[0x53, lead, lead],
            &[0x53, lead, 0, 0],
            &[lead, 0x40],
            &[lead, 0x53],
            &[0x52, 0, 0],
            &[],
        ];
        assert_eq!(unsound(side).asked(&restart), (0, side));
        assert_eq!(wrong_count(side).asked(&restart), (0, side));
        for line in others {
            assert_eq!(unsound(side).asked(line), (12, A));
            assert_eq!(wrong_count(side).asked(line), (15, A));
            assert_eq!(no_run(side).asked(line), (15, A));
        }
        for text in ["535", "53zz", "5", "zz", "53 0"] {
            assert_eq!(unsound(side).asked_text(text.as_bytes()), (12, A));
            assert_eq!(wrong_count(side).asked_text(text.as_bytes()), (15, A));
        }
    }
}

#[test]
fn a_restart_is_refused_by_11_12_and_15_in_this_order_and_told_of_a() {
    for (lead, side) in [(0x50, A), (0x51, B)] {
        let line = [0x53, lead];
        let other = side.other();
        assert_eq!(unsound(other).asked(&line), (12, A));
        assert_eq!(wrong_count(other).asked(&line), (15, A));
        assert_eq!(no_run(other).asked(&line), (15, A));
        assert_eq!(no_run(side).asked(&line), (15, A));
        let mut both = unsound(other);
        both.pages = no_run(side).pages;
        assert_eq!(both.asked(&line), (12, A));
        both.count = 513;
        assert_eq!(both.asked(&line), (12, A));
        let mut counted = Lent::new([FRESH; 2], &[]);
        counted.count = 513;
        assert_eq!(counted.asked(&line), (12, A));
        for short in 0..7 {
            let mut lent = both.clone();
            lent.buffers()[short].pop();
            assert_eq!(lent.asked(&line), (11, A));
        }
    }
}

#[test]
fn lines_53_are_asked_1_to_4() {
    let records = [end(Listening, 7, 0), end(Listening, 9, 0)];
    let lent = Lent::new(records, &[]);
    for (text, number) in [
        ("53", 4),
        ("5352", 3),
        ("5353", 3),
        ("5300", 3),
        ("53ff", 3),
        ("535200", 3),
        ("530050", 3),
        ("535050", 4),
        ("535150", 4),
        ("535000", 4),
        ("53510000", 4),
        ("535", 1),
        ("53500", 1),
        ("5 50", 2),
        ("53g0", 2),
    ] {
        assert_eq!(lent.asked_text(text.as_bytes()), (number, A), "{text}");
    }
    assert_eq!(lent.asked_text(b"5350"), (0, A));
    assert_eq!(lent.asked_text(b"5351"), (0, B));
    let refused = lent.clone().line(&[0x53, 0x52]);
    assert_eq!((refused.state, refused.local), (1, 7));
}

/// Two ends that opened, A by a call of its own.
fn opened() -> Lent {
    let mut lent = Lent::new([FRESH; 2], &[]);
    for line in [
        &[0x51, 0x41][..],
        &[0x50, 0x40],
        &[0x52, 0, 0],
        &[0x52, 0, 1],
        &[0x52, 0, 2],
    ] {
        assert_eq!(lent.line(line).number, 0);
    }
    assert_eq!(lent.records, [end(Open, 1, 1), end(Open, 1, 1)]);
    lent
}

/// Delivers the last frame of the book.
fn deliver_last(lent: &mut Lent) -> (u8, u8, u8) {
    let number = lent.count as u8 - 1;
    let told = lent.line(&[0x52, 0, number]);
    (told.number, told.state, told.notice)
}

#[test]
fn a_partner_that_still_sends_is_told_and_closes() {
    let mut lent = opened();
    let told = lent.line(&[0x53, 0x51]);
    assert_eq!((told.number, told.side, told.local), (0, B, 16));
    let block = [&[0x50][..], &send(b"still sending")].concat();
    assert_eq!(lent.line(&block).number, 0);
    assert_eq!(deliver_last(&mut lent), (0, 0, 0));
    assert_eq!(lent.out[..9], signal(Rej, 16, 1));
    assert_eq!(deliver_last(&mut lent), (0, 0, 3));
    assert_eq!(lent.records, [end(Closed, 1, 0), end(Closed, 16, 0)]);
    assert_eq!(lent.line(&[0x51, 0x41]).local, 17);
    assert_eq!(lent.pages, [page(1).to_vec(), page(2).to_vec()]);
}

#[test]
fn an_end_that_calls_at_once_after_its_restart_leaves_its_partner_open() {
    let mut lent = opened();
    assert_eq!(lent.line(&[0x53, 0x51]).number, 0);
    assert_eq!(lent.line(&[0x51, 0x40]).local, 17);
    assert_eq!(deliver_last(&mut lent), (0, 4, 0));
    let block = [&[0x50][..], &send(b"block")].concat();
    assert_eq!(lent.line(&block).number, 0);
    assert_eq!(deliver_last(&mut lent), (0, 2, 0));
    assert_eq!(lent.records[0], open_as_caller());
    assert_eq!(lent.records[1], end(Calling, 17, 0));
    assert_eq!(lent.line(&[0x51, 0x43]).notice, 4);
    assert_eq!(lent.line(&[0x50, 0x45]).sent, 14 + 5);
    assert_eq!(deliver_last(&mut lent), (0, 0, 0));
    assert_eq!(lent.out[..9], signal(Rej, 17, 1));
    assert_eq!(deliver_last(&mut lent), (0, 0, 3));
}

/// The record of A in `opened`, with one block waiting.
fn open_as_caller() -> Record {
    let mut record = open(1, 0, &[b"block"]);
    record[1..9].copy_from_slice(&[0, 0, 0, 1, 0, 0, 0, 1]);
    record
}

#[test]
fn what_was_sent_before_a_restart_opens_nothing_after_it() {
    let mut lent = opened();
    assert_eq!(lent.line(&[0x53, 0x50]).number, 0);
    assert_eq!(lent.line(&[0x50, 0x41]).local, 17);
    assert_eq!(lent.line(&[0x52, 0, 1]).state, 1);
    assert_eq!(lent.records[0], end(Listening, 17, 0));
    assert_eq!(lent.line(&[0x50, 0x42]).state, 0);
    assert_eq!(lent.line(&[0x50, 0x40]).local, 18);
    for number in [1, 3] {
        assert_eq!(lent.line(&[0x52, 0, number]).number, 0);
        assert_eq!(lent.records[0][..5], end(Calling, 18, 0)[..5]);
    }
}

#[test]
fn the_other_states_hear_a_rej_as_before() {
    let heard = |state| receive(end(state, 5, 3), &signal(Rej, 16, 5));
    let closed = || Effect::silent(end(Closed, 5, 0));
    assert_eq!(heard(Calling), closed().notice(2));
    assert_eq!(heard(Answering), Effect::silent(end(Listening, 5, 0)));
    assert_eq!(heard(Closing), closed().notice(4));
}

#[test]
fn what_a_timer_call_sends_reaches_an_end_that_restarted() {
    let back = restarted(&page(1));
    for (state, sent, answer) in [
        (Calling, Crao, Rej),
        (Answering, Crpo, Rej),
        (Closing, Dr, Drack),
    ] {
        let frame = request(end(state, 5, 3), TIMER).frame;
        assert_eq!(frame, signal(sent, 5, 3));
        let right = Effect::silent(back).frame(signal(answer, 16, 5));
        assert_eq!(receive(back, &frame), right);
    }
}
