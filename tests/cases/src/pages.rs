//! Pages: right for their record, or damaged in every way.

mod seen;

pub use seen::{Call, Role, Seen};

use crate::random::Random;
use crate::records::Numbers;
use reference::page::{self, LAST_NUMBER, PAGE};
use reference::record::RECORD;

/// The right page for this record, or a full one if its L is too high for any.
pub fn right(record: &[u8; RECORD]) -> [u8; PAGE] {
    let reserved = page::reserved(Numbers::of(record).local);
    *page::of(reserved.min(PAGE))
}

/// A page for this record: mostly the right one, else damaged.
pub fn any(random: &mut Random, record: &[u8; RECORD]) -> [u8; PAGE] {
    let mut page = right(record);
    if random.within(0..=4) == 0 {
        damage(random, &mut page);
    }
    page
}

/// Damages a right page: its count, its run, one of its bytes, or all of them.
pub fn damage(random: &mut Random, page: &mut [u8; PAGE]) {
    let count = reserved(page);
    let some_place = random.within(0..=PAGE - 1);
    let near = (count + random.within(0..=2)).clamp(1, PAGE) - 1;
    match random.within(0..=7) {
        0 => page[count.saturating_sub(1)] = 0xff,
        1 => page[count.min(PAGE - 1)] = 0x00,
        2 => *page = *page::of(random.pick(&[0, 1, some_place, PAGE - 1, PAGE])),
        3 => page[random.within(0..=count.saturating_sub(2))] = 0xff,
        4 => page[random.within((count + 1).min(PAGE - 1)..=PAGE - 1)] = 0x00,
        5 => page[some_place] = wrong_byte(random),
        6 => page[near] = wrong_byte(random),
        _ => page.copy_from_slice(&random.bytes(PAGE)),
    }
}

/// A byte that is neither 00 nor FF, often one that differs from them by a single bit.
fn wrong_byte(random: &mut Random) -> u8 {
    match random.within(0..=1) {
        0 => random.pick(&[0x01, 0x10, 0x7f, 0x80, 0xfe, 0xef]),
        _ => random.within(0x01..=0xfe) as u8,
    }
}

/// How many 00 a page starts with.
fn reserved(page: &[u8; PAGE]) -> usize {
    let first_other = page.iter().position(|&byte| byte != 0x00);
    first_other.unwrap_or(PAGE)
}

/// How a page stands beside an L.
#[derive(Clone, Copy, Debug, PartialEq, Eq, PartialOrd, Ord)]
pub enum Sort {
    Right,
    OneTooFew,
    OneTooMany,
    /// A run of another count.
    OtherCount,
    /// A run, but L is too high for any page.
    NumberTooHigh,
    /// 00 and FF alone, with an FF before a 00.
    Gap,
    /// A byte is neither 00 nor FF.
    OtherByte,
}

impl Sort {
    pub const ALL: [Self; 7] = [
        Self::Right,
        Self::OneTooFew,
        Self::OneTooMany,
        Self::OtherCount,
        Self::NumberTooHigh,
        Self::Gap,
        Self::OtherByte,
    ];

    /// How this page stands beside this L.
    pub fn of(page: &[u8; PAGE], local: u32) -> Self {
        let count = page.partition_point(|&byte| byte == 0x00);
        if page != page::of(count) {
            return Self::of_no_run(page);
        }
        if local > LAST_NUMBER {
            return Self::NumberTooHigh;
        }
        match count as i64 - page::reserved(local) as i64 {
            0 => Self::Right,
            -1 => Self::OneTooFew,
            1 => Self::OneTooMany,
            _ => Self::OtherCount,
        }
    }

    /// The sort of a page that is no run.
    fn of_no_run(page: &[u8; PAGE]) -> Self {
        match page.iter().any(|byte| !matches!(byte, 0x00 | 0xff)) {
            true => Self::OtherByte,
            false => Self::Gap,
        }
    }
}

#[cfg(test)]
mod tests {
    use super::*;
    use crate::records;

    #[test]
    fn right_pages_are_right() {
        let mut random = Random::new(0);
        for _ in 0..1_000 {
            let record = records::sound(&mut random);
            let local = Numbers::of(&record).local;
            assert_eq!(page::ask(&right(&record), local), Ok(()));
            assert_eq!(Sort::of(&right(&record), local), Sort::Right);
        }
    }

    #[test]
    fn a_sort_says_whether_a_page_is_taken() {
        let mut random = Random::new(1);
        for _ in 0..5_000 {
            let record = records::any(&mut random);
            let local = Numbers::of(&record).local;
            let page = any(&mut random, &record);
            let sort = Sort::of(&page, local);
            assert_eq!(page::ask(&page, local).is_ok(), sort == Sort::Right);
            let is_run = !matches!(sort, Sort::Gap | Sort::OtherByte);
            assert_eq!(page::restarted(&page).is_ok(), is_run);
        }
    }

    #[test]
    fn pages_are_mostly_right_and_damaged_in_every_way() {
        let mut random = Random::new(2);
        let mut times = [0; Sort::ALL.len()];
        for _ in 0..10_000 {
            let record = records::any(&mut random);
            let page = any(&mut random, &record);
            let sort = Sort::of(&page, Numbers::of(&record).local);
            times[sort as usize] += 1;
        }
        assert!(times[0] > 5_000, "{times:?}");
        assert!(times.iter().all(|&times| times > 100), "{times:?}");
    }

    #[test]
    fn sorts_are_told_apart() {
        let run = |count| *page::of(count);
        let altered = |count, place: usize, byte| {
            let mut page = run(count);
            page[place] = byte;
            page
        };
        for (page, local, sort) in [
            (run(1), 16, Sort::Right),
            (run(4096), 65_536, Sort::Right),
            (run(1), 17, Sort::OneTooFew),
            (run(2), 16, Sort::OneTooMany),
            (run(3), 16, Sort::OtherCount),
            (run(0), 17, Sort::OtherCount),
            (run(4096), 65_537, Sort::NumberTooHigh),
            (altered(3, 1, 0xff), 48, Sort::Gap),
            (altered(3, 4, 0x00), 48, Sort::Gap),
            (altered(3, 4095, 0xfe), 48, Sort::OtherByte),
            (altered(3, 2, 0x01), 48, Sort::OtherByte),
        ] {
            assert_eq!(Sort::of(&page, local), sort);
        }
    }
}
