//! The calls of one end on lent buffers, compared with the reference: what they answer, and every
//! byte of every buffer.

mod call;
mod implementation;
#[cfg(test)]
mod tests;

pub use implementation::{End, Reply};

use crate::alter::alter;
use crate::group::{Group, Score};
use crate::met::{makes_step, Met};
use crate::random::Random;
use crate::records::{any, is_of_a_block, sound};
use crate::{near, pages, sample};
use call::{Buffers, Call};
use reference::page::PAGE;
use reference::record::RECORD;
use reference::request::TIMER;

const RESTARTS: usize = 10_000;
const REQUESTS: usize = 50_000;
const FRAMES: usize = 100_000;

/// Nothing is met yet by the calls of an end.
fn nothing_met() -> Met {
    Met::new(&[
        pages::Call::Restart,
        pages::Call::Request,
        pages::Call::Receive,
    ])
}

/// Compares the generated calls, so many rounds of them, and reports them.
pub fn compare<E: End>(rounds: usize) -> Score {
    let mut met = nothing_met();
    let groups = [
        restarts::<E>(rounds, &mut met),
        requests::<E>(rounds, &mut met),
        frames::<E>(rounds, &mut met),
        every_byte::<E>(),
        every_page_byte::<E>(),
    ];
    let calls = groups.iter().map(Group::report).sum();
    [calls, met.report()].into_iter().sum()
}

/// Ends with records of any content restart with pages of all sorts.
fn restarts<E: End>(rounds: usize, met: &mut Met) -> Group {
    let mut group = Group::new("restarts", &[0, 11, 15]);
    let mut random = Random::new(30);
    for _ in 0..rounds * RESTARTS {
        let record = any(&mut random);
        let page = pages::any(&mut random, &record);
        let buffers = Buffers::any(&mut random, &record, &page, &[]);
        let number = Call::Restart.compare::<E>(&mut group, &buffers);
        let call = pages::Call::Restart;
        met.pages.see(call, number, &record, &page);
    }
    group
}

/// Requests of ends with all sorts of records.
fn requests<E: End>(rounds: usize, met: &mut Met) -> Group {
    let mut group = Group::new("requests", &[0, 3, 4, 5, 6, 8, 9, 10, 11, 12, 15]);
    let mut random = Random::new(31);
    for _ in 0..rounds * REQUESTS {
        let record = any(&mut random);
        let page = pages::any(&mut random, &record);
        let request = message(&mut random, &record, near::request, near::frame);
        let buffers = Buffers::any(&mut random, &record, &page, &request);
        let number = Call::Request.compare::<E>(&mut group, &buffers);
        let call = pages::Call::Request;
        met.pages.see(call, number, &record, &page);
        if makes_step(number) {
            met.steps.see(&record, &request);
            met.pages.see_request(&record, &request);
        }
    }
    group
}

/// Frames that reach ends with all sorts of records.
fn frames<E: End>(rounds: usize, met: &mut Met) -> Group {
    let mut group = Group::new("frames", &[0, 3, 4, 5, 6, 7, 11, 12, 15]);
    let mut random = Random::new(32);
    for _ in 0..rounds * FRAMES {
        let record = any(&mut random);
        let page = pages::any(&mut random, &record);
        let frame = message(&mut random, &record, near::frame, near::request);
        let buffers = Buffers::any(&mut random, &record, &page, &frame);
        let number = Call::Receive.compare::<E>(&mut group, &buffers);
        let call = pages::Call::Receive;
        met.pages.see(call, number, &record, &page);
        if makes_step(number) {
            met.steps.see(&record, &frame);
        }
    }
    group
}

/// Sound records with one byte altered: every value in the numbers and lengths, some values in the
/// blocks. Their pages are right for what they were, or for what they are.
fn every_byte<E: End>() -> Group {
    let mut group = Group::new("records with one byte altered", &[0, 12, 15]);
    let mut random = Random::new(33);
    let values = |place| match is_of_a_block(place) {
        true => vec![0, 1, 128, 255],
        false => (0..=u8::MAX).collect(),
    };
    for place in 0..RECORD {
        for byte in values(place) {
            let mut record = sound(&mut random);
            let before = pages::right(&record);
            record[place] = byte;
            let page = random.pick(&[before, pages::right(&record)]);
            let buffers = Buffers::exact(&mut random, &record, &page, &[TIMER]);
            Call::Request.compare::<E>(&mut group, &buffers);
        }
    }
    group
}

/// Right pages with one byte altered, in every place.
fn every_page_byte<E: End>() -> Group {
    let mut group = Group::new("pages with one byte altered", &[0, 15]);
    let mut random = Random::new(34);
    for place in 0..PAGE {
        for byte in [0x00, 0x01, 0x80, 0xfe, 0xff] {
            let record = sound(&mut random);
            let mut page = pages::right(&record);
            page[place] = byte;
            let buffers = Buffers::exact(&mut random, &record, &page, &[TIMER]);
            Call::Request.compare::<E>(&mut group, &buffers);
            Call::Restart.compare::<E>(&mut group, &buffers);
        }
    }
    group
}

/// Makes a message for an end with this record.
type Maker = fn(&mut Random, &[u8; RECORD]) -> Vec<u8>;

/// A message as it mostly is, seldom one of the other sort; readable, with a fault, or random
/// bytes.
fn message(random: &mut Random, record: &[u8; RECORD], mostly: Maker, seldom: Maker) -> Vec<u8> {
    match random.within(0..=31) {
        0 => random.bytes_within(0..=100),
        1 => seldom(random, record),
        2..=12 => {
            let mut message = mostly(random, record);
            alter(random, &mut message);
            message
        }
        13 => sample::message(random.pick(&sample::FRAME_KINDS), &edges(random), b"block"),
        _ => mostly(random, record),
    }
}

/// Three numbers at the edges.
fn edges(random: &mut Random) -> [u32; 3] {
    [(); 3].map(|()| random.pick(&sample::EDGES))
}
