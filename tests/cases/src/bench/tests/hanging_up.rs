//! What is wrong about a call that is hung up on a bench with a full book is found.

use super::{failed_lines, Faulty};
use crate::bench::{Bench, Lent, Reply};
use crate::records::Numbers;
use crate::Reference;
use reference::bench::book::PLACES;
use reference::State;

/// The reference, whose faults have to do with question 14.
struct Broken<const FAULT: u8>;

const ASKS_14_WHERE_NOTHING_IS_SENT: u8 = 0;
const HANGS_UP_BEFORE_14: u8 = 1;

impl<const FAULT: u8> Faulty for Broken<FAULT> {
    fn line(lent: Lent, line: &[u8]) -> Reply {
        let count = lent.count;
        let [a, b] = lent.records;
        let remote = match line {
            b"5043" => calling_remote(a),
            b"5143" => calling_remote(b),
            _ => None,
        };
        let broken = Lent {
            records: [&mut *a, &mut *b],
            ..lent
        };
        let mut reply = Reference::line(broken, line);
        match (FAULT, remote, reply.end.number) {
            (ASKS_14_WHERE_NOTHING_IS_SENT, Some(0), 0) if count == PLACES => {
                reply.end.number = 14;
            }
            (HANGS_UP_BEFORE_14, Some(1..), 14) => {
                [a, b][usize::from(reply.side)][0] = State::Closing as u8;
            }
            _ => {}
        }
        reply
    }
}

/// D of a calling end.
fn calling_remote(record: &[u8]) -> Option<u32> {
    let record = record.first_chunk()?;
    let is_calling = record[0] == State::Calling as u8;
    is_calling.then(|| Numbers::of(record).remote)
}

#[test]
fn every_fault_of_a_hang_up_in_a_full_book_is_found() {
    let failed = [
        failed_lines::<Broken<ASKS_14_WHERE_NOTHING_IS_SENT>>(),
        failed_lines::<Broken<HANGS_UP_BEFORE_14>>(),
    ];
    assert!(failed.iter().all(|&failed| failed > 0), "{failed:?}");
}
