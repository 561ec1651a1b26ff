//! Records: sound, unsound by one field, and of random bytes.

#[cfg(test)]
pub mod unsound;

use crate::random::Random;
use crate::sample::{block, number};
use reference::block::LONGEST_BLOCK;
use reference::page::{LAST_NUMBER, PAGE, STRETCH};
use reference::record::RECORD;
use reference::State;

/// Where the numbers L, D, t and e stand in a record.
const NUMBERS: [usize; 4] = [1, 5, 9, 13];
/// Where L stands.
const LOCAL: usize = NUMBERS[0];
/// Where e stands.
const HANDED_UP: usize = NUMBERS[3];
/// Where w stands.
const WAITING: usize = 17;
/// Where the lengths of the waiting blocks stand.
const LENGTHS: usize = 18;
/// Where the waiting blocks stand, each with the room of the longest.
const BLOCKS: usize = LENGTHS + PLACES;
/// Where the lengths of the held blocks stand.
pub const HELD_LENGTHS: usize = BLOCKS + PLACES * LONGEST_BLOCK;
/// Where the held blocks stand, each with the room of the longest.
const HELD_BLOCKS: usize = HELD_LENGTHS + PLACES;
/// So many blocks wait at most, and so many have a place to be held.
pub const PLACES: usize = 8;

/// A record's numbers.
#[derive(Clone, Copy)]
pub struct Numbers {
    pub local: u32,
    pub remote: u32,
    pub accepted: u32,
    pub handed_up: u32,
}

impl Numbers {
    /// The numbers of a record, sound or not.
    pub fn of(record: &[u8; RECORD]) -> Self {
        let [local, remote, accepted, handed_up] = NUMBERS.map(|place| {
            let bytes = record[place..].first_chunk().expect("a number's bytes");
            u32::from_be_bytes(*bytes)
        });
        Self {
            local,
            remote,
            accepted,
            handed_up,
        }
    }

    /// A record of this state with these numbers and waiting blocks.
    pub fn record(self, state: State, blocks: &[Vec<u8>]) -> [u8; RECORD] {
        let mut record = [0; RECORD];
        record[0] = state as u8;
        let numbers = [self.local, self.remote, self.accepted, self.handed_up];
        for (place, number) in NUMBERS.into_iter().zip(numbers) {
            put(&mut record, place, &number.to_be_bytes());
        }
        record[WAITING] = blocks.len() as u8;
        for (place, block) in blocks.iter().enumerate() {
            record[LENGTHS + place] = block.len() as u8;
            put(&mut record, BLOCKS + place * LONGEST_BLOCK, block);
        }
        record
    }
}

/// How many blocks wait, as a record says.
pub fn waiting(record: &[u8; RECORD]) -> u8 {
    record[WAITING]
}

/// The lengths of the held blocks, the one numbered e first; 0 where none is held.
pub fn held(record: &[u8; RECORD]) -> &[u8; PLACES] {
    let lengths = record[HELD_LENGTHS..].first_chunk();
    lengths.expect("the lengths of the held blocks")
}

/// Makes this the block that is held so far above e; an empty one is none.
pub fn hold(record: &mut [u8; RECORD], above: usize, block: &[u8]) {
    let place = HELD_BLOCKS + above * LONGEST_BLOCK;
    record[place..place + LONGEST_BLOCK].fill(0);
    put(record, place, block);
    record[HELD_LENGTHS + above] = block.len() as u8;
}

/// Does this byte of a record belong to the places of blocks?
pub fn is_of_a_block(place: usize) -> bool {
    (BLOCKS..HELD_LENGTHS).contains(&place) || place >= HELD_BLOCKS
}

/// A record: mostly sound, else with an L too high for a page, unsound by one field, or of random
/// bytes.
pub fn any(random: &mut Random) -> [u8; RECORD] {
    match random.within(0..=15) {
        0 => [(); RECORD].map(|()| random.byte()),
        3 => {
            let mut record = sound(random);
            put(&mut record, LOCAL, &too_high(random).to_be_bytes());
            record
        }
        1 | 2 => {
            let mut record = sound(random);
            spoil(random, &mut record);
            record
        }
        _ => sound(random),
    }
}

/// A sound record, often with numbers at their limits, whose L a page can have reserved. Open ends,
/// which differ most, are frequent.
pub fn sound(random: &mut Random) -> [u8; RECORD] {
    let state = match random.within(0..=3) {
        0 => State::Open,
        _ => random.pick(&State::ALL),
    };
    let local = match state {
        State::Closed => local(random),
        _ => local(random).max(1),
    };
    let remote = match state {
        State::Closed | State::Listening => 0,
        State::Calling => heard(random),
        State::Answering | State::Open | State::Closing => limit(random, 1),
    };
    let numbers = Numbers {
        local,
        remote,
        accepted: 0,
        handed_up: 0,
    };
    match state {
        State::Open => open(random, numbers),
        _ => numbers.record(state, &[]),
    }
}

/// An L that a page can have reserved: a small one, one at the edge of a page byte, one of the last,
/// or any.
fn local(random: &mut Random) -> u32 {
    match random.within(0..=4) {
        0 => random.within(0..=40) as u32,
        1 => {
            let byte = random.within(0..=PAGE) as u32;
            let near = byte * STRETCH + random.within(0..=2) as u32;
            near.saturating_sub(1).min(LAST_NUMBER)
        }
        2 => LAST_NUMBER - random.within(0..=2) as u32,
        3 => LAST_NUMBER - random.within(0..=40) as u32,
        _ => random.within(0..=LAST_NUMBER as usize) as u32,
    }
}

/// An L that no page can have reserved; some are low where only their last bytes are looked at.
fn too_high(random: &mut Random) -> u32 {
    match random.within(0..=3) {
        0 => LAST_NUMBER + random.within(1..=17) as u32,
        1 => random.pick(&[1 << 17, 1 << 24, 1 << 31, 1 << 20 | 16, u32::MAX - 15]),
        2 => random.pick(&[u32::MAX, u32::MAX - 1]),
        _ => (random.bits() as u32).max(LAST_NUMBER + 1),
    }
}

/// D of a calling end: none as often as one, since the two are hung up in different ways.
fn heard(random: &mut Random) -> u32 {
    match random.within(0..=1) {
        0 => 0,
        _ => limit(random, 0),
    }
}

/// A sound record of an open end with these numbers L and D.
fn open(random: &mut Random, numbers: Numbers) -> [u8; RECORD] {
    let accepted = limit(random, 0);
    let waiting = some(random, PLACES.min(accepted as usize));
    let blocks: Vec<_> = (0..waiting).map(|_| block(random)).collect();
    let handed_up = match random.within(0..=3) {
        0 => near_the_last(random),
        _ => limit(random, 0),
    };
    let numbers = Numbers {
        accepted,
        handed_up,
        ..numbers
    };
    let mut record = numbers.record(State::Open, &blocks);
    let most = PLACES.min((u32::MAX - handed_up) as usize);
    for _ in 0..some(random, 2 * most) {
        let above = random.within(0..=most - 1);
        hold(&mut record, above, &block(random));
    }
    record
}

/// Some number up to this one, often none or all.
fn some(random: &mut Random, most: usize) -> usize {
    match random.within(0..=3) {
        0 => 0,
        1 => most,
        _ => random.within(0..=most),
    }
}

/// A number from this one on: a small one, one at the upper limit, or any.
fn limit(random: &mut Random, lowest: u32) -> u32 {
    let number = match random.within(0..=3) {
        0 => random.within(0..=12) as u32,
        _ => number(random),
    };
    number.max(lowest)
}

/// One of the last numbers.
fn near_the_last(random: &mut Random) -> u32 {
    u32::MAX - random.within(0..=9) as u32
}

/// Alters one field, so that the record is unsound in most cases.
pub fn spoil(random: &mut Random, record: &mut [u8; RECORD]) {
    match random.within(0..=10) {
        0 => record[0] = random.byte(),
        1 => record[0] = random.within(0..=7) as u8,
        2 | 3 => {
            let place = random.pick(&NUMBERS);
            put(record, place, &number(random).to_be_bytes());
        }
        4 => record[WAITING] = random.within(0..=10) as u8,
        5 => spoil_length(random, record, LENGTHS),
        6 => spoil_length(random, record, HELD_LENGTHS),
        7 => {
            let last = held(record).iter().rposition(|&length| length > 0);
            let e = u32::MAX - last.unwrap_or(0) as u32 - random.within(0..=1) as u32;
            put(record, HANDED_UP, &e.to_be_bytes());
        }
        8 => {
            let above = random.within(0..=PLACES - 1);
            hold(record, above, &block(random));
        }
        9 => record[random.within(BLOCKS..=HELD_LENGTHS - 1)] = random.byte(),
        _ => record[random.within(HELD_BLOCKS..=RECORD - 1)] = random.byte(),
    }
}

/// Alters one of the lengths that start here.
fn spoil_length(random: &mut Random, record: &mut [u8; RECORD], lengths: usize) {
    let place = lengths + random.within(0..=PLACES - 1);
    record[place] = random.pick(&[0, 1, 63, 64, 65, 65, 66, 255]);
}

/// Writes the bytes from this place on.
fn put(record: &mut [u8; RECORD], place: usize, bytes: &[u8]) {
    record[place..place + bytes.len()].copy_from_slice(bytes);
}

#[cfg(test)]
mod tests {
    use super::*;
    use reference::record::Record;

    fn is_sound(record: &[u8; RECORD]) -> bool {
        Record::read(&mut record.clone()).is_ok()
    }

    #[test]
    fn sound_records_are_sound_and_show_every_state_and_count() {
        let mut random = Random::new(0);
        let mut states = [0; 6];
        let mut counts = [0; 9];
        for _ in 0..5_000 {
            let record = sound(&mut random);
            states[usize::from(record[0])] += 1;
            counts[usize::from(waiting(&record))] += 1;
            assert!(is_sound(&record));
        }
        assert!(states.iter().all(|&times| times > 100));
        assert!(counts.iter().all(|&times| times > 10));
    }

    #[test]
    fn sound_records_have_an_l_at_the_edges_of_page_bytes_and_none_too_high() {
        let mut random = Random::new(4);
        let mut within_byte = [0; 16];
        let mut last = [0; 3];
        for _ in 0..5_000 {
            let local = Numbers::of(&sound(&mut random)).local;
            within_byte[local as usize % 16] += 1;
            if let Some(below) = [65_536, 65_535, 65_534].iter().position(|&l| l == local) {
                last[below] += 1;
            }
            assert!(local <= 65_536);
        }
        assert!(
            within_byte.iter().all(|&times| times > 50),
            "{within_byte:?}"
        );
        assert!(last.iter().all(|&times| times > 100), "{last:?}");
        let too_high = (0..5_000).filter(|_| {
            let record = any(&mut random);
            is_sound(&record) && Numbers::of(&record).local > 65_536
        });
        assert!(too_high.count() > 200);
    }

    #[test]
    fn sound_records_of_calling_ends_know_a_partner_or_none() {
        let mut random = Random::new(3);
        let [mut unheard, mut heard] = [0; 2];
        for _ in 0..5_000 {
            let record = sound(&mut random);
            if record[0] == State::Calling as u8 {
                match Numbers::of(&record).remote {
                    0 => unheard += 1,
                    _ => heard += 1,
                }
            }
        }
        assert!(unheard > 200 && heard > 200, "{unheard} {heard}");
    }

    #[test]
    fn sound_records_hold_blocks_in_every_place_and_with_the_last_number() {
        let mut random = Random::new(1);
        let [mut none, mut all] = [0; 2];
        let [mut places, mut lasts] = [[0; PLACES]; 2];
        for _ in 0..20_000 {
            let record = sound(&mut random);
            if record[0] != State::Open as u8 {
                assert_eq!(held(&record), &[0; PLACES]);
                continue;
            }
            let e = Numbers::of(&record).handed_up;
            let in_use: Vec<_> = (0..PLACES)
                .filter(|&above| held(&record)[above] > 0)
                .collect();
            none += usize::from(in_use.is_empty());
            all += usize::from(in_use.len() == PLACES);
            for above in in_use {
                places[above] += 1;
                lasts[above] += usize::from(e + above as u32 == 4294967294);
            }
        }
        assert!(none > 100 && all > 100, "{none} {all}");
        assert!(places.iter().all(|&times| times > 100), "{places:?}");
        assert!(lasts.iter().all(|&times| times > 10), "{lasts:?}");
    }

    #[test]
    fn spoiled_records_are_mostly_unsound() {
        let mut random = Random::new(0);
        let unsound = (0..1_000).filter(|_| {
            let mut record = sound(&mut random);
            spoil(&mut random, &mut record);
            !is_sound(&record)
        });
        assert!((500..1_000).contains(&unsound.count()));
    }

    #[test]
    fn records_are_unsound_in_every_way_that_held_blocks_have() {
        let mut random = Random::new(2);
        let mut times = [0; unsound::ALL.len()];
        for _ in 0..50_000 {
            let record = any(&mut random);
            for (fault, times) in unsound::ALL.iter().zip(&mut times) {
                let is_the_only_one = fault.mended(&record).is_some();
                assert!(!is_the_only_one || !is_sound(&record));
                *times += usize::from(is_the_only_one);
            }
        }
        assert!(times.iter().all(|&times| times > 20), "{times:?}");
    }
}
