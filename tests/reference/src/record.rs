//! The record of an end.

use crate::buffer::put;
use crate::held::{Held, HELD};
use crate::waiting::{Waiting, WAITING};
use crate::{Refusal, State};

/// The bytes of a record.
pub const RECORD: usize = HEAD + WAITING + HELD;
/// The bytes before the waiting blocks: state, L, D, t, e.
const HEAD: usize = 17;
/// Where L stands.
const LOCAL: usize = 1;

/// A sound record: its numbers by value, its blocks where they stand.
pub struct Record<'a> {
    pub state: State,
    /// L, the local incarnation number.
    pub local: u32,
    /// D, the partner's as understood here; 0 means not known.
    pub remote: u32,
    /// t, how many blocks were accepted for sending in this incarnation.
    pub accepted: u32,
    /// e, how many blocks were handed up.
    pub handed_up: u32,
    pub waiting: Waiting<'a>,
    pub held: Held<'a>,
    /// Where the numbers are written.
    head: &'a mut [u8; HEAD],
}

impl<'a> Record<'a> {
    /// Question 12; success gives the record.
    pub fn read(bytes: &'a mut [u8; RECORD]) -> Result<Self, Refusal> {
        let (head, blocks) = bytes
            .split_first_chunk_mut()
            .expect("the head stands first");
        let (waiting, held) = blocks
            .split_first_chunk_mut()
            .expect("the waiting blocks stand next");
        let held = held.try_into().expect("the rest is the held blocks");
        let record = Self {
            state: State::of(head[0]).ok_or(Refusal::Unsound)?,
            local: number(head, LOCAL),
            remote: number(head, 5),
            accepted: number(head, 9),
            handed_up: number(head, 13),
            waiting: Waiting::of(waiting),
            held: Held::of(held),
            head,
        };
        if !record.is_sound() {
            return Err(Refusal::Unsound);
        }
        Ok(record)
    }

    /// Writes the numbers; the blocks stand in their places already.
    pub fn write(self) {
        self.head[0] = self.state as u8;
        let numbers = [self.local, self.remote, self.accepted, self.handed_up];
        let (places, _) = self.head[1..].as_chunks_mut();
        for (place, number) in places.iter_mut().zip(numbers) {
            *place = number.to_be_bytes();
        }
    }

    /// Enters this state: closed and listening know no partner, and only open has counts and
    /// blocks.
    pub fn enter(&mut self, state: State) {
        if matches!(state, State::Closed | State::Listening) {
            self.remote = 0;
        }
        if state != State::Open {
            self.accepted = 0;
            self.handed_up = 0;
            self.waiting.clear();
            self.held.clear();
        }
        self.state = state;
    }

    /// Block e is handed up: e rises by one, and the places of the held blocks move with it.
    pub fn hand_up(&mut self) {
        self.handed_up += 1;
        self.held.advance();
    }

    /// t - w, the number of the oldest waiting block, or of the next if none waits.
    pub fn oldest(&self) -> u32 {
        self.accepted - self.waiting.count() as u32
    }

    /// Do the numbers, the state and the blocks agree?
    fn is_sound(&self) -> bool {
        let numbers = match self.state {
            State::Closed => self.remote == 0,
            State::Listening => self.local >= 1 && self.remote == 0,
            State::Calling => self.local >= 1,
            State::Answering | State::Open | State::Closing => self.local >= 1 && self.remote >= 1,
        };
        let blocks = self.waiting.is_sound() && self.held.is_sound(self.handed_up);
        numbers && self.counts_are_sound() && blocks
    }

    /// Is w at most t, and outside open t = w = e = 0 and nothing held?
    fn counts_are_sound(&self) -> bool {
        let waiting = self.waiting.count();
        match self.state {
            State::Open => waiting as u32 <= self.accepted,
            _ => {
                let counts = waiting == 0 && self.accepted == 0 && self.handed_up == 0;
                counts && self.held.is_empty()
            }
        }
    }
}

/// The state byte, L and D of a record as it stands, sound or not; zeros if it is too short.
pub fn summary(record: &[u8]) -> (u8, u32, u32) {
    match record.first_chunk::<RECORD>() {
        Some(record) => (record[0], local(record), number(record, 5)),
        None => (0, 0, 0),
    }
}

/// L of a record.
pub fn local(record: &[u8; RECORD]) -> u32 {
    number(record, LOCAL)
}

/// Question 12 of a record that is only read.
pub fn ask_sound(record: &[u8; RECORD]) -> Result<(), Refusal> {
    Record::read(&mut record.clone()).map(drop)
}

/// Makes the record that of an end which restarts with this L: closed, all else 0.
pub fn restart(record: &mut [u8; RECORD], local: u32) {
    record.fill(0);
    put(&mut record[LOCAL..], &local.to_be_bytes());
}

/// The number in these 4 bytes.
fn number<const LENGTH: usize>(bytes: &[u8; LENGTH], place: usize) -> u32 {
    let number = bytes[place..].first_chunk().expect("4 bytes from there on");
    u32::from_be_bytes(*number)
}

#[cfg(test)]
mod tests {
    use super::*;
    use crate::Block;

    /// A record of this state, L, D, t, e with so many waiting blocks of one byte.
    fn bytes(state: u8, numbers: [u32; 4], waiting: usize) -> [u8; RECORD] {
        let mut bytes = [0; RECORD];
        bytes[0] = state;
        bytes[1..HEAD].copy_from_slice(&numbers.map(u32::to_be_bytes).concat());
        let blocks = bytes[HEAD..].first_chunk_mut().unwrap();
        for _ in 0..waiting {
            let block = Block::new(b"a").unwrap();
            Waiting::of(blocks).push(block).unwrap();
        }
        bytes
    }

    /// The record with a block of so many bytes in one of the places for held ones.
    fn holding(mut bytes: [u8; RECORD], place: usize, length: u8) -> [u8; RECORD] {
        bytes[538 + place] = length;
        bytes[546 + 64 * place..][..usize::from(length)].fill(b'h');
        bytes
    }

    fn is_sound(state: u8, numbers: [u32; 4], waiting: usize) -> bool {
        Record::read(&mut bytes(state, numbers, waiting)).is_ok()
    }

    #[test]
    fn a_record_has_1058_bytes_in_the_order_of_the_document() {
        assert_eq!(RECORD, 1058);
        let mut bytes = bytes(4, [0x0102_0304, 5, 6, 0x0708_090a], 2);
        bytes[538..546].copy_from_slice(&[2, 0, 0, 0, 0, 0, 0, 1]);
        bytes[546..548].copy_from_slice(b"ab");
        bytes[1058 - 64] = b'c';
        assert_eq!(
            bytes[..HEAD],
            [4, 1, 2, 3, 4, 0, 0, 0, 5, 0, 0, 0, 6, 7, 8, 9, 10]
        );
        assert_eq!(bytes[HEAD..][..3], [2, 1, 1]);
        assert_eq!(summary(&bytes), (4, 0x0102_0304, 5));
        let record = Record::read(&mut bytes).unwrap();
        assert_eq!(record.state, State::Open);
        assert_eq!((record.local, record.remote), (0x0102_0304, 5));
        assert_eq!((record.accepted, record.handed_up), (6, 0x0708_090a));
        assert_eq!((record.waiting.count(), record.oldest()), (2, 4));
        assert_eq!(record.held.next(), Block::new(b"ab").ok());
    }

    #[test]
    fn a_record_written_reads_as_itself() {
        let before = holding(bytes(4, [u32::MAX, 2, 0x0102_0304, u32::MAX - 1], 3), 0, 9);
        let mut after = before;
        Record::read(&mut after).unwrap().write();
        assert_eq!(after, before);
    }

    #[test]
    fn states_above_5_are_unsound() {
        for state in 6..=u8::MAX {
            assert!(!is_sound(state, [1, 1, 0, 0], 0));
            assert!(!is_sound(state, [1, 0, 0, 0], 0));
        }
    }

    #[test]
    fn numbers_agree_with_the_state() {
        let sound_numbers: [&[[u32; 2]]; 6] = [
            &[[0, 0], [1, 0]],
            &[[1, 0]],
            &[[1, 0], [1, 1]],
            &[[1, 1]],
            &[[1, 1]],
            &[[1, 1]],
        ];
        for (state, sound) in (0..).zip(sound_numbers) {
            for numbers in [[0, 0], [0, 1], [1, 0], [1, 1]] {
                let [local, remote] = numbers;
                assert_eq!(
                    is_sound(state, [local, remote, 0, 0], 0),
                    sound.contains(&numbers)
                );
            }
        }
    }

    #[test]
    fn only_open_has_counts_and_blocks() {
        for state in 0..=5 {
            let remote = u32::from(state > 1);
            assert!(is_sound(state, [1, remote, 0, 0], 0));
            for (accepted, handed_up, waiting) in [(1, 0, 0), (0, 1, 0), (1, 0, 1), (9, 9, 8)] {
                let numbers = [1, remote, accepted, handed_up];
                assert_eq!(is_sound(state, numbers, waiting), state == 4);
            }
        }
    }

    #[test]
    fn only_open_holds_blocks() {
        for state in 0..=5 {
            let record = bytes(state, [1, u32::from(state > 1), 0, 0], 0);
            for place in 0..8 {
                let mut record = holding(record, place, 1);
                assert_eq!(Record::read(&mut record).is_ok(), state == 4);
            }
        }
    }

    #[test]
    fn held_blocks_are_asked_beside_e() {
        let is_sound = |e: u32, place: usize, length: u8| {
            let record = bytes(4, [1, 1, 0, e], 0);
            Record::read(&mut holding(record, place, length)).is_ok()
        };
        assert!(is_sound(4294967294, 0, 64));
        assert!(!is_sound(4294967295, 0, 64));
        assert!(is_sound(4294967287, 7, 1));
        assert!(!is_sound(4294967288, 7, 1));
        assert!(is_sound(0, 7, 64));
        assert!(!is_sound(0, 6, 65));
    }

    #[test]
    fn what_is_unused_of_the_places_for_held_blocks_is_0() {
        let sound = holding(bytes(4, [1, 1, 0, 0], 0), 3, 5);
        for place in 546..RECORD {
            let mut record = sound;
            record[place] = b'x';
            let is_used = (546 + 3 * 64..546 + 3 * 64 + 5).contains(&place);
            assert_eq!(Record::read(&mut record).is_ok(), is_used, "byte {place}");
        }
    }

    #[test]
    fn held_blocks_move_as_one_is_handed_up() {
        let before = holding(holding(bytes(4, [1, 1, 0, 6], 0), 0, 2), 4, 3);
        let mut found = before;
        let mut record = Record::read(&mut found).unwrap();
        record.hand_up();
        record.write();
        assert_eq!(found, holding(bytes(4, [1, 1, 0, 7], 0), 3, 3));
    }

    #[test]
    fn w_is_at_most_t() {
        for waiting in 0..=8 {
            for accepted in 0..=9 {
                let sound = waiting as u32 <= accepted;
                assert_eq!(is_sound(4, [1, 1, accepted, 0], waiting), sound);
            }
            assert!(is_sound(4, [1, 1, u32::MAX, u32::MAX], waiting));
        }
    }

    #[test]
    fn entering_a_state_clears_what_it_does_not_have() {
        for state in State::ALL {
            let mut bytes = holding(bytes(4, [5, 3, 9, 9], 8), 7, 64);
            let mut record = Record::read(&mut bytes).unwrap();
            record.enter(state);
            record.write();
            let knows_partner = !matches!(state, State::Closed | State::Listening);
            assert_eq!(
                summary(&bytes),
                (state as u8, 5, if knows_partner { 3 } else { 0 })
            );
            let clear = bytes[9..].iter().all(|&byte| byte == 0);
            assert_eq!(clear, state != State::Open);
            assert!(Record::read(&mut bytes).is_ok());
        }
    }

    #[test]
    fn a_record_that_restarts_is_closed_and_sound_with_zeros_beside_l() {
        for local in [0, 16, 0x0001_0000] {
            let mut found = [7; RECORD];
            restart(&mut found, local);
            assert_eq!(found, bytes(0, [local, 0, 0, 0], 0));
            assert!(Record::read(&mut found).is_ok());
        }
    }

    #[test]
    fn the_summary_of_too_short_a_record_is_zeros() {
        assert_eq!(summary(&[7; RECORD - 1]), (0, 0, 0));
        assert_eq!(summary(&[7; RECORD]), (7, 0x0707_0707, 0x0707_0707));
    }
}
