//! Scenes: two sound records with their pages and a book, right or damaged, and lines for them.

use super::implementation::Shown;
use crate::alter::{alter, capitals, damage};
use crate::random::Random;
use crate::records::{self, sound};
use crate::sample::{hex_digits, FRAME_KINDS};
use crate::{near, pages};
use reference::bench::book::{self, Place, BOOK, HEAD, PLACE, PLACES};
use reference::bench::{self, Side, DELIVER, RESTART};
use reference::block::LONGEST_BLOCK;
use reference::frame::LONGEST_FRAME;
use reference::line;
use reference::page::{self, PAGE};
use reference::record::RECORD;

/// A session has so many lines at most.
const SESSION: usize = 900;
/// Lengths of lines at the edges, and some far above that are small where only their last bytes are
/// looked at.
const LENGTHS: [usize; 8] = [154, 155, 156, 157, 158, 160, 256 + 6, (1 << 16) + 6];

/// Two records with their pages, the book and its count.
#[derive(Clone)]
pub struct Scene {
    pub records: [[u8; RECORD]; 2],
    pub pages: [[u8; PAGE]; 2],
    pub book: Vec<u8>,
    pub count: usize,
}

impl Scene {
    /// A session's bench, or sound records with a book of frames whose numbers are near theirs;
    /// some places are damaged.
    pub fn any(random: &mut Random) -> Self {
        let mut scene = match random.within(0..=3) {
            0 => Self::session(random),
            _ => Self::near(random),
        };
        let damaged = random.pick(&[0, 0, 16, 64, PLACES]);
        for _ in 0..damaged {
            let number = random.within(0..=PLACES - 1);
            damage_place(random, &mut scene.places_mut()[number]);
        }
        scene
    }

    /// The bench after a session.
    fn session(random: &mut Random) -> Self {
        let mut scene = Self {
            records: [[0; RECORD]; 2],
            pages: [page::NEW; 2],
            book: vec![0; BOOK],
            count: 0,
        };
        for _ in 0..random.within(0..=SESSION) {
            let bytes = match random.within(0..=120) {
                0 => restart(random),
                1..=60 => scene.request(random),
                _ => scene.delivery(random),
            };
            scene.take(&line::write(&bytes));
        }
        scene
    }

    /// Takes a line.
    fn take(&mut self, line: &[u8]) {
        let [a, b] = &mut self.records;
        let [a_page, b_page] = &mut self.pages;
        let pages = [&mut a_page[..], &mut b_page[..]];
        let out = &mut [0; LONGEST_FRAME];
        let up = &mut [0; LONGEST_BLOCK];
        let answer = bench::line([a, b], pages, &mut self.book, self.count, line, out, up);
        self.count = answer.count;
    }

    /// Any records, and a frame for one of them in every place, in use or not.
    fn near(random: &mut Random) -> Self {
        let records = [sound(random), sound(random)];
        let mut book = Vec::with_capacity(BOOK);
        for _ in 0..PLACES {
            let sender = random.pick(&Side::BOTH);
            let record = &records[sender.other().index()];
            let frame = match random.within(0..=1) {
                0 => {
                    let kind = random.pick(&FRAME_KINDS);
                    near::frame_of(random, record, kind)
                }
                _ => near::frame(random, record),
            };
            book.extend(book::place(sender, &frame));
        }
        let count = match random.within(0..=7) {
            0 | 1 => PLACES,
            2 => PLACES - 1,
            3 => random.within(0..=3),
            4 => random.within(0..=40),
            _ => random.within(0..=PLACES),
        };
        Self {
            pages: records.each_ref().map(pages::right),
            records,
            book,
            count,
        }
    }

    /// The same, where one of so many has a wrong record, and one a wrong page.
    pub fn damaged(&self, random: &mut Random, one_of: usize) -> Self {
        let mut scene = self.clone();
        if random.within(1..=one_of) == 1 {
            let end = random.within(0..=1);
            scene.records[end] = records::any(random);
            scene.pages[end] = pages::right(&scene.records[end]);
        }
        if random.within(1..=one_of) == 1 {
            let end = random.within(0..=1);
            pages::damage(random, &mut scene.pages[end]);
        }
        scene
    }

    /// What is lent to the question.
    pub fn shown(&self) -> Shown<'_> {
        Shown {
            records: self.records.each_ref().map(|record| &record[..]),
            pages: self.pages.each_ref().map(|page| &page[..]),
            book: &self.book,
            count: self.count,
        }
    }

    /// The places in use.
    pub fn used(&self) -> &[Place] {
        &self.book.as_chunks().0[..self.count]
    }

    /// Damages frames until the delivery of this many at most would change a record. One of them
    /// stays where it is, or changes places with the first frame or the last.
    pub fn thin(&mut self, random: &mut Random, left: usize) {
        let changing = self.shown().changing();
        let mut changing = changing.expect("the records are sound and the pages right");
        while changing.len() > left {
            let number = changing.swap_remove(random.within(0..=changing.len() - 1));
            let place = &mut self.places_mut()[number];
            match random.within(0..=3) {
                0 => place[0] = random.pick(&[2, 255]),
                1 => place[1] = random.pick(&[0, 8, 79, 255]),
                2 => place[HEAD] = random.pick(&[0, 0x0a, 0x40]),
                _ => place[HEAD + 1..HEAD + 9].fill(0),
            }
        }
        if let Some(&number) = changing.first() {
            let other = random.pick(&[0, number, self.count - 1]);
            self.places_mut().swap(number, other);
        }
    }

    /// A line for this scene.
    pub fn line(&self, random: &mut Random) -> Vec<u8> {
        let bytes = self.bytes(random);
        written(random, &bytes)
    }

    /// The bytes of a line: mostly of a request or a delivery, else of one with a fault.
    fn bytes(&self, random: &mut Random) -> Vec<u8> {
        let record = &self.records[random.within(0..=1)];
        match random.within(0..=31) {
            0 => random.bytes_within(0..=90),
            1 => near::frame(random, record),
            2 => near::request(random, record),
            3 => {
                let lead = random.pick(&Side::BOTH).lead();
                [&[lead], &near::frame(random, record)[..]].concat()
            }
            4 => [&[DELIVER], &random.bytes_within(0..=4)[..]].concat(),
            5 => [&[random.byte()], &self.request(random)[1..]].concat(),
            6 | 7 => deliver(self.number_beyond(random)),
            8..=12 => self.altered_request(random),
            13..=18 => self.request(random),
            19 => restart(random),
            20 => altered_restart(random),
            _ => self.delivery(random),
        }
    }

    /// A request of some end.
    fn request(&self, random: &mut Random) -> Vec<u8> {
        let side = random.pick(&Side::BOTH);
        let request = near::request(random, &self.records[side.index()]);
        [&[side.lead()], &request[..]].concat()
    }

    /// A request of some end with a fault.
    fn altered_request(&self, random: &mut Random) -> Vec<u8> {
        let line = self.request(random);
        let mut request = line[1..].to_vec();
        alter(random, &mut request);
        [&line[..1], &request].concat()
    }

    /// The delivery of a frame in use, often one of the last.
    fn delivery(&self, random: &mut Random) -> Vec<u8> {
        let last = self.count.saturating_sub(1);
        deliver(match random.within(0..=2) {
            0 => random.within(last.saturating_sub(5)..=last),
            _ => random.within(0..=last),
        })
    }

    /// A number that the book does not hold, in most cases.
    fn number_beyond(&self, random: &mut Random) -> usize {
        let beyond = [
            self.count,
            self.count + 1,
            PLACES - 1,
            PLACES,
            PLACES + 1,
            0xff00,
            0xffff,
        ];
        match random.within(0..=3) {
            0 => random.within(0..=0xffff),
            _ => random.pick(&beyond),
        }
    }

    /// All places.
    fn places_mut(&mut self) -> &mut [Place] {
        self.book.as_chunks_mut().0
    }
}

/// The bytes of a line that delivers the frame of this number.
pub fn deliver(number: usize) -> Vec<u8> {
    let [high, low] = (number as u16).to_be_bytes();
    vec![DELIVER, high, low]
}

/// The line of these bytes, in a fifth of the cases with capitals, now and then with wrong
/// characters or a wrong length.
fn written(random: &mut Random, bytes: &[u8]) -> Vec<u8> {
    let mut line = line::write(bytes);
    capitals(random, &mut line);
    match random.within(0..=31) {
        0 | 1 => damage(random, &mut line),
        2 => line.truncate(random.within(0..=line.len())),
        3 => line.extend(random.bytes_within(1..=3)),
        4 => line = random.bytes_within(0..=200),
        5 => {
            let length = random.pick(&LENGTHS);
            line = hex_digits(random, length);
        }
        _ => {}
    }
    line
}

/// A line that restarts an end, in a third of the cases with a fault.
pub fn restart_line(random: &mut Random) -> Vec<u8> {
    let bytes = match random.within(0..=2) {
        0 => altered_restart(random),
        _ => restart(random),
    };
    written(random, &bytes)
}

/// The bytes of a line that restarts some end.
fn restart(random: &mut Random) -> Vec<u8> {
    vec![RESTART, random.pick(&Side::BOTH).lead()]
}

/// The bytes of a line that nearly restarts an end: without an end byte, with another one, or with
/// more after it.
fn altered_restart(random: &mut Random) -> Vec<u8> {
    let other = match random.within(0..=1) {
        0 => random.pick(&[0x00, 0x40, 0x4f, 0x52, 0x53, 0xff]),
        _ => random.byte(),
    };
    let more = match random.within(0..=1) {
        0 => vec![random.pick(&[0x00, 0x40, 0x50, 0x51])],
        _ => random.bytes_within(1..=76),
    };
    match random.within(0..=3) {
        0 => vec![RESTART],
        1 => vec![RESTART, other],
        2 => [&[RESTART, other], &more[..]].concat(),
        _ => [&restart(random)[..], &more].concat(),
    }
}

/// Damages a place: its sender, its length, what follows its frame, its frame, or all of it.
fn damage_place(random: &mut Random, place: &mut Place) {
    let length = usize::from(place[1]).min(LONGEST_FRAME);
    match random.within(0..=7) {
        0 => place[0] = random.pick(&[2, 3, 128, 255]),
        1 => place[1] = random.pick(&[0, 1, 8, 79, 80, 255]),
        2 => place[1] = random.pick(&[9, 10, 13, 14, 15, 77, 78]),
        3 => {
            let tail = &mut place[HEAD + length..];
            tail.copy_from_slice(&random.bytes(tail.len()));
        }
        4 => *place = [(); PLACE].map(|()| random.byte()),
        5 => place[HEAD + random.within(0..=8)] = random.byte(),
        _ if length > 0 => {
            let mut frame = place[HEAD..][..length].to_vec();
            alter(random, &mut frame);
            frame.truncate(LONGEST_FRAME);
            *place = book::place(Side::of(place[0]).unwrap_or_default(), &frame);
        }
        _ => {}
    }
}

#[cfg(test)]
mod tests {
    use super::*;
    use reference::record::Record;

    #[test]
    fn scenes_are_sound_and_their_books_of_all_lengths() {
        let mut random = Random::new(0);
        let [mut empty, mut last, mut full] = [0; 3];
        for _ in 0..300 {
            let mut scene = Scene::any(&mut random);
            assert_eq!(scene.book.len(), BOOK);
            for record in &mut scene.records {
                assert!(Record::read(record).is_ok());
            }
            assert_eq!(scene.pages, scene.records.each_ref().map(pages::right));
            match scene.count {
                0 => empty += 1,
                511 => last += 1,
                512 => full += 1,
                count => assert!(count < PLACES),
            }
        }
        assert!(empty > 3 && last > 10 && full > 10, "{empty} {last} {full}");
    }

    #[test]
    fn a_scene_is_thinned_to_what_is_left() {
        let mut random = Random::new(1);
        let [mut first, mut last] = [0; 2];
        for left in [0, 1, 2].repeat(30) {
            let mut scene = Scene::any(&mut random);
            scene.thin(&mut random, left);
            let changing = scene.shown().changing().unwrap();
            assert!(changing.len() <= left, "{changing:?}");
            first += usize::from(changing.contains(&0));
            last += usize::from(changing.iter().any(|frame| frame + 1 == scene.count));
        }
        assert!(first > 10 && last > 10, "{first} {last}");
    }

    #[test]
    fn damaged_places_are_often_not_held() {
        let mut random = Random::new(2);
        let lost = (0..1_000).filter(|_| {
            let mut place = book::place(Side::B, &[4, 0, 0, 0, 0, 0, 0, 0, 1]);
            damage_place(&mut random, &mut place);
            book::find(&[place], 0).is_err()
        });
        assert!((200..700).contains(&lost.count()));
    }
}
