//! Reading and writing lines.

use crate::call::Call;
use cases::alter::{capitals, damage};
use cases::group::Group;
use cases::hex::Hex;
use cases::random::Random;
use cases::sample::hex_digits;
use reference::frame::LONGEST_FRAME;
use reference::line::LONGEST_LINE;

const RANDOM_LINES: usize = 40_000;
const RANDOM_BYTES: usize = 20_000;
const LONG: [usize; 6] = [312, 1_000, 65_536, 65_538, 1_000_000, 1 << 20];

/// The groups of this module, with all cases made.
pub fn groups() -> Vec<Group> {
    vec![reading(), writing()]
}

/// Each line is read into a buffer that is just large enough, and into one of any length.
fn reading() -> Group {
    let mut group = Group::new("lines", &[0, 1, 2, 11]);
    let mut random = Random::new(1);
    let mut compare = |line: Vec<u8>| {
        let call = Call::ReadLine { line: Hex(line) };
        call.compare(&mut group, LONGEST_FRAME);
        call.compare(&mut group, any_room(&mut random));
    };
    pairs().for_each(&mut compare);
    one_odd_character().for_each(&mut compare);
    every_length().for_each(&mut compare);
    random_lines().for_each(&mut compare);
    group
}

/// Each byte string is written into buffers that are too short, just large enough and longer.
fn writing() -> Group {
    let mut group = Group::new("writing lines", &[0, 11]);
    let mut random = Random::new(2);
    for length in (0..=100).cycle().take(RANDOM_BYTES).chain(LONG) {
        let bytes = Hex(random.bytes(length));
        let call = Call::WriteLine { bytes };
        let needed = 2 * length;
        let rooms = [
            0,
            length,
            needed.saturating_sub(1),
            needed,
            needed + 1,
            needed + 30,
        ];
        for room in rooms {
            call.compare(&mut group, room);
        }
    }
    group
}

/// A buffer's length, below and above 78.
fn any_room(random: &mut Random) -> usize {
    match random.within(0..=3) {
        0 => random.within(0..=77),
        1 => random.pick(&[0, 1, 77, 78, 79]),
        _ => random.within(78..=200),
    }
}

/// All lines of two characters.
fn pairs() -> impl Iterator<Item = Vec<u8>> {
    (0..=u16::MAX).map(|pair| pair.to_be_bytes().to_vec())
}

/// The longest line with every byte in every place.
fn one_odd_character() -> impl Iterator<Item = Vec<u8>> {
    let mut random = Random::new(3);
    let line = hex_digits(&mut random, LONGEST_LINE);
    let places = (0..LONGEST_LINE).flat_map(|place| (0..=u8::MAX).map(move |byte| (place, byte)));
    places.map(move |(place, byte)| {
        let mut line = line.clone();
        line[place] = byte;
        line
    })
}

/// Lines of every length up to 300 and of some far above, of digits alone and without any.
fn every_length() -> impl Iterator<Item = Vec<u8>> {
    let mut random = Random::new(4);
    (0..=300)
        .chain(LONG)
        .flat_map(move |length| [hex_digits(&mut random, length), vec![b'z'; length]])
}

/// Lines of any length, mostly readable ones, a fifth with capitals, with no or a few wrong
/// characters.
fn random_lines() -> impl Iterator<Item = Vec<u8>> {
    let mut random = Random::new(5);
    (0..RANDOM_LINES).map(move |_| {
        let length = match random.within(0..=3) {
            0 => random.within(0..=8),
            1 => random.within(150..=162),
            _ => 2 * random.within(1..=LONGEST_FRAME),
        };
        let mut line = hex_digits(&mut random, length);
        capitals(&mut random, &mut line);
        for _ in 0..random.pick(&[0, 0, 0, 1, 2, 5]) {
            damage(&mut random, &mut line);
        }
        line
    })
}
