//! Reading frames and requests, and writing frames.

use crate::call::Call;
use crate::codec::Fields;
use cases::alter::alter;
use cases::group::Group;
use cases::hex::Hex;
use cases::random::Random;
use cases::sample::{block, count_place, message, number, EDGES, FRAME_KINDS, REQUEST_KINDS};

const RANDOM_MESSAGES: usize = 40_000;
const RANDOM_BYTES: usize = 10_000;
const RANDOM_FRAMES: usize = 20_000;
/// Lengths far above a block's, most of them too large for a count byte.
const TOO_MANY: [usize; 6] = [255, 256, 257, 320, 65_537, 65_600];

/// The groups of this module, with all cases made.
pub fn groups() -> Vec<Group> {
    let mut random = Random::new(10);
    let nothing = || match random.within(3..=255) {
        3 => 0,
        other => other as u8,
    };
    vec![
        reading("reading frames", &[0, 3, 4, 5, 6, 7], || 1),
        reading("reading requests", &[0, 3, 4, 5, 6], || 2),
        reading("reading both", &[0, 3, 4, 5, 6, 7], || 3),
        reading("reading, nothing known", &[3], nothing),
        writing(),
    ]
}

/// Byte strings, readable and not.
pub fn inputs() -> impl Iterator<Item = Vec<u8>> {
    every_first_byte()
        .chain(edge_numbers())
        .chain(counts())
        .chain(altered_messages())
        .chain(random_bytes())
}

/// Each byte string is read by a call that knows what `known` says.
fn reading(name: &'static str, expected: &'static [u8], mut known: impl FnMut() -> u8) -> Group {
    let mut group = Group::new(name, expected);
    for bytes in inputs() {
        let bytes = Hex(bytes);
        let known = known();
        Call::Read { known, bytes }.compare(&mut group, 0);
    }
    group
}

/// Frames of all kinds, with blocks and buffers too small, right and too large.
fn writing() -> Group {
    let mut group = Group::new("writing frames", &[0, 3, 5, 11]);
    let mut random = Random::new(11);
    let mut compare = |kind: u8, block_length: usize, room: usize| {
        let fields = Fields {
            kind,
            sender: number(&mut random),
            quoted: number(&mut random),
            number: number(&mut random),
        };
        let block = Hex(random.bytes(block_length));
        Call::Write { fields, block }.compare(&mut group, room);
    };
    for kind in 0..=u8::MAX {
        for block_length in (0..=70).chain(TOO_MANY) {
            for room in [0, 77, 78, 100] {
                compare(kind, block_length, room);
            }
        }
    }
    let mut random = Random::new(12);
    for _ in 0..RANDOM_FRAMES {
        let kind = random.pick(&FRAME_KINDS);
        compare(kind, random.within(0..=130), random.within(70..=120));
    }
    group
}

/// No bytes; and every first byte, followed by 0 to 100 others.
fn every_first_byte() -> impl Iterator<Item = Vec<u8>> {
    let mut random = Random::new(13);
    let starts = (0..=u8::MAX).flat_map(|first| (0..=100).map(move |length| (first, length)));
    let filled = starts.map(move |(first, length)| {
        let mut bytes = vec![first];
        bytes.extend(random.bytes(length));
        bytes
    });
    filled.chain([Vec::new()])
}

/// Frames of every kind with all combinations of numbers at the edges.
fn edge_numbers() -> impl Iterator<Item = Vec<u8>> {
    let pairs = EDGES
        .into_iter()
        .flat_map(|sender| EDGES.map(|quoted| (sender, quoted)));
    let triples = pairs.flat_map(|(sender, quoted)| EDGES.map(|number| [sender, quoted, number]));
    triples.flat_map(|numbers| FRAME_KINDS.map(|kind| message(kind, &numbers, b"block")))
}

/// DATA, with readable numbers and others, and send, with every count byte and with fewer and
/// more bytes after it.
fn counts() -> impl Iterator<Item = Vec<u8>> {
    let starts = [
        (0x08, [1, 2, 3]),
        (0x08, [0, 0, 4294967295]),
        (0x44, [0; 3]),
    ];
    starts.into_iter().flat_map(|(kind, numbers)| {
        let place = count_place(kind).expect("a kind with a block");
        (0..=70).chain(TOO_MANY).flat_map(move |length| {
            (0..=u8::MAX).map(move |count| {
                let mut bytes = message(kind, &numbers, &vec![0x5a; length]);
                bytes[place] = count;
                bytes
            })
        })
    })
}

/// Frames and requests with any numbers and blocks, as they are or with one fault.
fn altered_messages() -> impl Iterator<Item = Vec<u8>> {
    let mut random = Random::new(14);
    (0..RANDOM_MESSAGES).map(move |_| {
        let kind = match random.within(0..=2) {
            0 => random.pick(&REQUEST_KINDS),
            _ => random.pick(&FRAME_KINDS),
        };
        let numbers = [(); 3].map(|()| number(&mut random));
        let mut bytes = message(kind, &numbers, &block(&mut random));
        alter(&mut random, &mut bytes);
        bytes
    })
}

/// Random byte strings of 0 to 100 bytes.
fn random_bytes() -> impl Iterator<Item = Vec<u8>> {
    let mut random = Random::new(15);
    (0..RANDOM_BYTES).map(move |_| random.bytes_within(0..=100))
}
