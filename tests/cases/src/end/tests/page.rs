//! What is wrong about pages and restarts is found.

use super::super::{nothing_met, restarts, End, Reply};
use super::{failed_frames, failed_requests, Faulty};
use crate::pages::{self, Sort};
use crate::records::Numbers;
use crate::Reference;
use reference::page::{self, PAGE};
use reference::record::RECORD;

/// How many restarts of an implementation fail.
fn failed_restarts<E: End>() -> u64 {
    restarts::<E>(1, &mut nothing_met()).report().failed
}

/// The reference that takes pages of this sort for right, in every call.
struct Lenient<const SORT: usize>;

impl<const SORT: usize> Lenient<SORT> {
    /// The right page, if this one is of the sort; else the same.
    fn mended(record: &[u8], page: &[u8]) -> Vec<u8> {
        let (Some(record), Some(start)) = (record.first_chunk(), page.first_chunk()) else {
            return page.to_vec();
        };
        let sort = Sort::of(start, Numbers::of(record).local);
        match sort == Sort::ALL[SORT] {
            true => pages::right(record).to_vec(),
            false => page.to_vec(),
        }
    }
}

impl<const SORT: usize> Faulty for Lenient<SORT> {
    fn restart(record: &mut [u8], page: &[u8]) -> u8 {
        Reference::restart(record, &Self::mended(record, page))
    }

    fn request(
        record: &mut [u8],
        page: &mut [u8],
        request: &[u8],
        out: &mut [u8],
        up: &mut [u8],
    ) -> Reply {
        let mut mended = Self::mended(record, page);
        if mended == page {
            return Reference::request(record, page, request, out, up);
        }
        Reference::request(record, &mut mended, request, out, up)
    }

    fn receive(record: &mut [u8], page: &[u8], frame: &[u8], out: &mut [u8]) -> Reply {
        Reference::receive(record, &Self::mended(record, page), frame, out)
    }
}

/// An implementation that takes a page of one of these sorts is found by requests and by frames.
#[test]
fn every_sort_of_wrong_page_is_found() {
    let failed = [
        failed_requests::<Lenient<{ Sort::OneTooFew as usize }>>(),
        failed_requests::<Lenient<{ Sort::OneTooMany as usize }>>(),
        failed_requests::<Lenient<{ Sort::OtherCount as usize }>>(),
        failed_requests::<Lenient<{ Sort::Gap as usize }>>(),
        failed_requests::<Lenient<{ Sort::OtherByte as usize }>>(),
        failed_frames::<Lenient<{ Sort::OneTooFew as usize }>>(),
        failed_frames::<Lenient<{ Sort::OneTooMany as usize }>>(),
        failed_frames::<Lenient<{ Sort::OtherCount as usize }>>(),
        failed_frames::<Lenient<{ Sort::Gap as usize }>>(),
        failed_frames::<Lenient<{ Sort::OtherByte as usize }>>(),
        failed_restarts::<Lenient<{ Sort::Gap as usize }>>(),
        failed_restarts::<Lenient<{ Sort::OtherByte as usize }>>(),
        failed_restarts::<Lenient<{ Sort::OneTooFew as usize }>>(),
        failed_restarts::<Lenient<{ Sort::OneTooMany as usize }>>(),
    ];
    assert!(failed.iter().all(|&failed| failed > 0), "{failed:?}");
}

/// The reference, whose faults have to do with the page of a call.
struct Broken<const FAULT: u8>;

const STORES_NO_BYTE: u8 = 0;
const STORES_THE_BYTE_AFTER: u8 = 1;
const STORES_A_BYTE_EACH_TIME: u8 = 2;
const STORES_AS_9_REFUSES: u8 = 3;
const ASKS_15_BEFORE_12: u8 = 4;
const ASKS_15_AFTER_3: u8 = 5;
const ASKS_NO_PAGE_LENGTH: u8 = 6;
const TAKES_ONE_NUMBER_MORE: u8 = 7;
const TAKES_ONE_NUMBER_FEWER: u8 = 8;
const A_HIGH_NUMBER_IS_12: u8 = 9;

impl<const FAULT: u8> Broken<FAULT> {
    /// Spoils what is answered to a call that was lent this record and page.
    fn spoil_number(reply: &mut Reply, record: &[u8], page: &[u8]) {
        let (Some(record), Some(page)) = (record.first_chunk(), page.first_chunk()) else {
            return;
        };
        let sort = Sort::of(page, Numbers::of(record).local);
        match (FAULT, reply.number) {
            (ASKS_15_BEFORE_12, 12) if sort != Sort::Right => reply.number = 15,
            (A_HIGH_NUMBER_IS_12, 15) if sort == Sort::NumberTooHigh => reply.number = 12,
            _ => {}
        }
    }
}

impl<const FAULT: u8> Faulty for Broken<FAULT> {
    fn request(
        record: &mut [u8],
        page: &mut [u8],
        request: &[u8],
        out: &mut [u8],
        up: &mut [u8],
    ) -> Reply {
        let page_before = page.to_vec();
        let mut longer = [&page[..], &[0xff; PAGE]].concat();
        let mut reply = match FAULT {
            ASKS_NO_PAGE_LENGTH if page.len() < PAGE => {
                Reference::request(record, &mut longer, request, out, up)
            }
            _ => Reference::request(record, page, request, out, up),
        };
        Self::spoil_number(&mut reply, record, page);
        let has_begun = reply.number == 0 && matches!(request, [0x40 | 0x41]);
        let next = reply.local as usize / 16;
        match FAULT {
            STORES_NO_BYTE if page != page_before => page.copy_from_slice(&page_before),
            STORES_THE_BYTE_AFTER if page != page_before && next + 1 < PAGE => page[next + 1] = 0,
            STORES_A_BYTE_EACH_TIME if has_begun && next + 1 < PAGE => page[next + 1] = 0,
            STORES_AS_9_REFUSES if reply.number == 9 => page[PAGE - 1] = 0xff,
            ASKS_15_AFTER_3 if reply.number == 15 && request.is_empty() => reply.number = 3,
            TAKES_ONE_NUMBER_MORE if reply.number == 9 && request == [0x40] => reply.number = 0,
            TAKES_ONE_NUMBER_FEWER if has_begun && reply.local == 65_536 => reply.number = 9,
            _ => {}
        }
        reply
    }

    fn receive(record: &mut [u8], page: &[u8], frame: &[u8], out: &mut [u8]) -> Reply {
        let mut reply = Reference::receive(record, page, frame, out);
        Self::spoil_number(&mut reply, record, page);
        reply
    }
}

#[test]
fn every_fault_of_a_page_is_found() {
    let failed = [
        failed_requests::<Broken<STORES_NO_BYTE>>(),
        failed_requests::<Broken<STORES_THE_BYTE_AFTER>>(),
        failed_requests::<Broken<STORES_A_BYTE_EACH_TIME>>(),
        failed_requests::<Broken<STORES_AS_9_REFUSES>>(),
        failed_requests::<Broken<ASKS_15_BEFORE_12>>(),
        failed_frames::<Broken<ASKS_15_BEFORE_12>>(),
        failed_requests::<Broken<ASKS_15_AFTER_3>>(),
        failed_requests::<Broken<ASKS_NO_PAGE_LENGTH>>(),
        failed_requests::<Broken<TAKES_ONE_NUMBER_MORE>>(),
        failed_requests::<Broken<TAKES_ONE_NUMBER_FEWER>>(),
        failed_requests::<Broken<A_HIGH_NUMBER_IS_12>>(),
        failed_frames::<Broken<A_HIGH_NUMBER_IS_12>>(),
    ];
    assert!(failed.iter().all(|&failed| failed > 0), "{failed:?}");
}

/// The reference, whose faults have to do with a restart.
struct BrokenRestart<const FAULT: u8>;

const LOOKS_AT_THE_RECORD: u8 = 0;
const ASKS_THE_COUNT: u8 = 1;
const KEEPS_A_BYTE: u8 = 2;
const RESTARTS_ONE_BYTE_BACK: u8 = 3;
const RESTARTS_ONE_NUMBER_ON: u8 = 4;
const ASKS_NO_LENGTH: u8 = 5;
const CUTS_THE_NUMBER: u8 = 6;

impl<const FAULT: u8> Faulty for BrokenRestart<FAULT> {
    fn restart(record: &mut [u8], page: &[u8]) -> u8 {
        let before = record.to_vec();
        let number = match FAULT {
            ASKS_NO_LENGTH if page.len() < PAGE => {
                Reference::restart(record, &[page, &[0xff; PAGE]].concat())
            }
            _ => Reference::restart(record, page),
        };
        let (Some(found), Some(start), 0) = (before.first_chunk(), page.first_chunk(), number)
        else {
            return number;
        };
        let sort = Sort::of(start, Numbers::of(found).local);
        let local = page::restarted(start).unwrap_or_default();
        let put =
            |record: &mut [u8], local: u32| record[1..5].copy_from_slice(&local.to_be_bytes());
        match FAULT {
            LOOKS_AT_THE_RECORD if reference::record::ask_sound(found).is_err() => return 12,
            ASKS_THE_COUNT if sort != Sort::Right => return 15,
            KEEPS_A_BYTE => record[RECORD - 1] = before[RECORD - 1],
            RESTARTS_ONE_BYTE_BACK => put(record, local.saturating_sub(16)),
            RESTARTS_ONE_NUMBER_ON => put(record, local + 1),
            CUTS_THE_NUMBER => put(record, local & 0xffff),
            _ => {}
        }
        number
    }
}

#[test]
fn every_fault_of_a_restart_is_found() {
    let failed = [
        failed_restarts::<BrokenRestart<LOOKS_AT_THE_RECORD>>(),
        failed_restarts::<BrokenRestart<ASKS_THE_COUNT>>(),
        failed_restarts::<BrokenRestart<KEEPS_A_BYTE>>(),
        failed_restarts::<BrokenRestart<RESTARTS_ONE_BYTE_BACK>>(),
        failed_restarts::<BrokenRestart<RESTARTS_ONE_NUMBER_ON>>(),
        failed_restarts::<BrokenRestart<ASKS_NO_LENGTH>>(),
        failed_restarts::<BrokenRestart<CUTS_THE_NUMBER>>(),
    ];
    assert!(failed.iter().all(|&failed| failed > 0), "{failed:?}");
}
