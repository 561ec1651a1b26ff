//! Blocks that arrive early are held, and collected when it is their turn.

use crate::sample::{
    ack, data, end, holding, open, receive, request, send, signal, Effect, Held, Record, CLOSE,
    COLLECT, LAST, TIMER,
};
use reference::frame::Signal::{Dr, Drack};
use reference::State::{self, Closed, Closing, Listening};

/// A DATA of the open connection.
fn arriving(number: u32, block: &[u8]) -> Vec<u8> {
    data(3, 5, number, block)
}

/// This record is left, and the blocks before e are acknowledged.
fn acknowledged(record: Record, e: u32) -> Effect {
    Effect::silent(record).frame(ack(5, 3, e))
}

/// An open end that has handed up so many blocks, and holds these.
fn open_holding(e: u32, held: Held) -> Record {
    holding(open(4, e, &[b"waiting"]), held)
}

#[test]
fn the_first_copy_of_an_early_block_is_held() {
    for e in [0, 1, 1000, LAST - 8] {
        for above in 1..=7 {
            for block in [&b"b"[..], b"early", &[7; 64]] {
                let found = receive(open_holding(e, &[]), &arriving(e + above, block));
                let after = open_holding(e, &[(above as usize, block)]);
                assert_eq!(found, acknowledged(after, e));
            }
        }
    }
}

#[test]
fn a_second_copy_changes_nothing() {
    let before = open_holding(9, &[(1, b"first"), (4, &[4; 64]), (7, b"7")]);
    for number in [10, 13, 16] {
        for block in [&b"first"[..], b"f", b"second copy", &[9; 64]] {
            let found = receive(before, &arriving(number, block));
            assert_eq!(found, acknowledged(before, 9));
        }
    }
}

#[test]
fn what_is_further_ahead_or_behind_is_acknowledged_alone() {
    for before in [
        open_holding(9, &[]),
        open_holding(9, &[(0, b"n"), (2, b"e")]),
    ] {
        for number in [0, 1, 7, 8, 17, 18, 9 + 256, LAST - 1] {
            let found = receive(before, &arriving(number, b"block"));
            assert_eq!(found, acknowledged(before, 9));
        }
    }
}

#[test]
fn each_number_has_a_place_of_its_own() {
    let blocks: [&[u8]; 8] = [b"0", b"11", b"22", b"3", b"4", b"55", b"6", &[7; 64]];
    let all: Vec<_> = (1..8).map(|above| (above, blocks[above])).collect();
    for order in [
        [1, 2, 3, 4, 5, 6, 7],
        [7, 6, 5, 4, 3, 2, 1],
        [4, 1, 7, 2, 6, 3, 5],
    ] {
        let mut record = open_holding(20, &[]);
        for above in order {
            record = receive(record, &arriving(20 + above as u32, blocks[above])).record;
        }
        assert_eq!(record, open_holding(20, &all));
    }
}

#[test]
fn the_awaited_block_goes_up_alone_and_the_others_move() {
    let before = open_holding(9, &[(1, b"ten"), (2, b"eleven"), (7, b"sixteen")]);
    let after = open_holding(10, &[(0, b"ten"), (1, b"eleven"), (6, b"sixteen")]);
    let found = receive(before, &arriving(9, b"nine"));
    assert_eq!(found, acknowledged(after, 10).block(b"nine"));
}

#[test]
fn a_held_copy_of_the_awaited_block_is_dropped() {
    let before = open_holding(9, &[(0, b"copy"), (3, &[3; 64])]);
    let after = open_holding(10, &[(2, &[3; 64])]);
    for block in [&b"copy"[..], b"other", &[9; 64]] {
        let found = receive(before, &arriving(9, block));
        assert_eq!(found, acknowledged(after, 10).block(block));
    }
}

#[test]
fn a_place_that_becomes_free_as_e_rises_takes_the_next_number() {
    let before = open_holding(9, &[(7, b"sixteen")]);
    let refused = receive(before, &arriving(17, b"seventeen"));
    assert_eq!(refused, acknowledged(before, 9));
    let risen = receive(before, &arriving(9, b"nine")).record;
    let found = receive(risen, &arriving(17, b"seventeen"));
    let after = open_holding(10, &[(6, b"sixteen"), (7, b"seventeen")]);
    assert_eq!(found, acknowledged(after, 10));
}

#[test]
fn collect_hands_up_block_e_and_acknowledges_it() {
    let steps: [(Held, Held); 2] = [
        (&[(0, b"nine")], &[]),
        (
            &[(0, b"nine"), (1, b"ten"), (7, &[7; 64])],
            &[(0, b"ten"), (6, &[7; 64])],
        ),
    ];
    for (held, left) in steps {
        let found = request(open_holding(9, held), COLLECT);
        let after = open_holding(10, left);
        assert_eq!(found, acknowledged(after, 10).block(b"nine"));
    }
    for length in 1..=64 {
        let block = vec![length as u8; length];
        let found = request(open_holding(0, &[(0, &block)]), COLLECT);
        assert_eq!(found, acknowledged(open_holding(1, &[]), 1).block(&block));
    }
}

#[test]
fn collect_does_nothing_where_block_e_is_not_held() {
    let others: [Held; 3] = [
        &[],
        &[(1, b"ten")],
        &[(1, b"ten"), (2, b"eleven"), (7, b"sixteen")],
    ];
    for held in others {
        let record = open_holding(9, held);
        assert_eq!(request(record, COLLECT), Effect::silent(record));
    }
}

#[test]
fn collect_is_allowed_when_open_alone() {
    for state in State::ALL {
        let remote = match state {
            Closed | Listening => 0,
            _ => 3,
        };
        let record = end(state, 5, remote);
        let right = match state {
            State::Open => Effect::silent(record),
            _ => Effect::refused(record, 8),
        };
        assert_eq!(request(record, COLLECT), right);
    }
}

#[test]
fn the_other_calls_of_an_open_end_leave_what_is_held() {
    let held: Held = &[(0, b"nine"), (5, &[5; 64])];
    let record = open_holding(9, held);
    let timed = request(record, TIMER);
    assert_eq!(timed.record, record);
    let sent = request(record, &send(b"block"));
    let after = holding(open(5, 9, &[b"waiting", b"block"]), held);
    assert_eq!(sent.record, after);
    let heard = receive(record, &ack(3, 5, 4));
    assert_eq!(heard.record, holding(open(4, 9, &[]), held));
    let passed_over = receive(record, &signal(Dr, 4, 5));
    assert_eq!(passed_over, Effect::silent(record));
}

#[test]
fn leaving_open_clears_what_is_held() {
    let held: Vec<(usize, &[u8])> = (0..8).map(|above| (above, &[7; 64][..])).collect();
    let record = open_holding(9, &held);
    let hung_up = Effect::silent(end(Closed, 5, 0)).notice(3);
    assert_eq!(
        receive(record, &signal(Dr, 3, 5)),
        hung_up.frame(signal(Drack, 5, 3))
    );
    let closing = Effect::silent(end(Closing, 5, 3));
    assert_eq!(request(record, CLOSE), closing.frame(signal(Dr, 5, 3)));
}

#[test]
fn the_last_number_is_held_and_collected() {
    let held = receive(open_holding(LAST - 8, &[]), &arriving(LAST - 1, b"last"));
    let right = open_holding(LAST - 8, &[(7, b"last")]);
    assert_eq!(held, acknowledged(right, LAST - 8));
    let found = request(open_holding(LAST - 1, &[(0, b"last")]), COLLECT);
    let after = open_holding(LAST, &[]);
    assert_eq!(found, acknowledged(after, LAST).block(b"last"));
    assert_eq!(request(after, COLLECT), Effect::silent(after));
    let again = receive(after, &arriving(LAST - 1, b"last"));
    assert_eq!(again, acknowledged(after, LAST));
}

/// All orders of these things.
fn orders(things: &[u32]) -> Vec<Vec<u32>> {
    let Some((&last, others)) = things.split_last() else {
        return vec![vec![]];
    };
    let places = 0..=others.len();
    let with_last = |order: Vec<u32>| {
        places.clone().map(move |place| {
            let mut order = order.clone();
            order.insert(place, last);
            order
        })
    };
    orders(others).into_iter().flat_map(with_last).collect()
}

/// What comes up as the blocks so far above e arrive in this order, followed by seven collects.
fn handed_up(e: u32, order: &[u32]) -> Vec<Vec<u8>> {
    let mut record = open_holding(e, &[]);
    let mut blocks = Vec::new();
    let messages = order
        .iter()
        .map(|&above| (receive as Call, eighth(e, above)));
    let collects = (0..7).map(|_| (request as Call, COLLECT.to_vec()));
    for (call, message) in messages.chain(collects) {
        let effect = call(record, &message);
        record = effect.record;
        assert_eq!(effect.number, 0);
        assert_eq!(effect.block.is_empty(), effect.notice != 5);
        if effect.notice == 5 {
            blocks.push(effect.block);
        }
    }
    assert_eq!(record, open_holding(e + 8, &[]));
    blocks
}

type Call = fn(Record, &[u8]) -> Effect;

/// The DATA so far above e, with a block that says so.
fn eighth(e: u32, above: u32) -> Vec<u8> {
    arriving(e + above, &vec![above as u8; 1 + 9 * above as usize])
}

#[test]
fn eight_blocks_come_up_in_sequence_in_whatever_order_they_arrive() {
    let orders = orders(&[0, 1, 2, 3, 4, 5, 6, 7]);
    assert_eq!(orders.len(), 40_320);
    let right: Vec<_> = (0..8_u8)
        .map(|above| vec![above; 1 + 9 * usize::from(above)])
        .collect();
    for (place, order) in orders.iter().enumerate() {
        let e = [0, 7, 1000, LAST - 8][place % 4];
        assert_eq!(handed_up(e, order), right, "{order:?}");
    }
}

/// The number of a timer call and of a frame that is passed over, which have to agree.
fn asked(record: Record) -> u8 {
    let timed = request(record, TIMER).number;
    assert_eq!(receive(record, &signal(Dr, 1, 1)).number, timed);
    timed
}

#[test]
fn a_held_length_is_at_most_64() {
    for above in 0..8 {
        for length in [1, 63, 64] {
            assert_eq!(asked(open_holding(9, &[(above, &vec![7; length])])), 0);
        }
        for length in [65, 66, 128, 255] {
            let mut record = open_holding(9, &[(above, &[7; 64])]);
            record[538 + above] = length;
            assert_eq!(asked(record), 12);
        }
    }
}

#[test]
fn a_held_number_is_at_most_4294967294() {
    for above in 0..8 {
        let held: Held = &[(above, b"held")];
        let last = 4294967294 - above as u32;
        assert_eq!(asked(open_holding(last, held)), 0);
        for over in 1..=above as u32 + 1 {
            assert_eq!(asked(open_holding(last + over, held)), 12);
        }
    }
    assert_eq!(asked(open_holding(LAST, &[])), 0);
}

#[test]
fn nothing_is_held_outside_open() {
    for state in State::ALL {
        let record = match state {
            Closed | Listening => end(state, 5, 0),
            _ => end(state, 5, 3),
        };
        for above in 0..8 {
            let right = if state == State::Open { 0 } else { 12 };
            assert_eq!(asked(holding(record, &[(above, b"held")])), right);
        }
    }
}

#[test]
fn what_is_unused_of_the_held_places_is_0() {
    let record = open_holding(9, &[(0, b"nine"), (6, &[6; 63])]);
    assert_eq!(asked(record), 0);
    for place in 546..1058 {
        let (above, byte) = ((place - 546) / 64, (place - 546) % 64);
        let mut record = record;
        record[place] ^= 1;
        let is_used = (above == 0 && byte < 4) || (above == 6 && byte < 63);
        assert_eq!(asked(record), if is_used { 0 } else { 12 }, "byte {place}");
    }
}
