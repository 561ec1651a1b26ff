//! The page of an end: bytes that outlive a loss of power, and say which incarnation numbers may
//! have been used.

use crate::Refusal;

/// The bytes of a page.
pub const PAGE: usize = 4096;
/// A page that reserves no number yet.
pub const NEW: [u8; PAGE] = [FREE; PAGE];
/// So many numbers does each byte reserve.
pub const STRETCH: u32 = 16;
/// The last number that a page can reserve.
pub const LAST_NUMBER: u32 = STRETCH * PAGE as u32;

/// A byte whose numbers are reserved.
const RESERVED: u8 = 0x00;
/// A byte whose numbers are not reserved yet.
const FREE: u8 = 0xff;

/// All right pages: each of them is a part of this, so that one comparison asks for all bytes.
static RUNS: [u8; 2 * PAGE] = {
    let mut runs = [FREE; 2 * PAGE];
    let mut place = 0;
    while place < PAGE {
        runs[place] = RESERVED;
        place += 1;
    }
    runs
};

/// The right page with so many bytes reserved, not more than there are.
pub fn of(reserved: usize) -> &'static [u8; PAGE] {
    let page = RUNS[PAGE - reserved..].first_chunk();
    page.expect("a page of free bytes follows the reserved ones")
}

/// So many bytes does an end with this L have reserved: L/16, rounded up.
pub fn reserved(local: u32) -> usize {
    local.div_ceil(STRETCH) as usize
}

/// Question 15: is the page a run of 00 followed only by FF, with as many 00 as L asks for?
pub fn ask(page: &[u8; PAGE], local: u32) -> Result<(), Refusal> {
    let reserved = reserved(local);
    if reserved > PAGE || page != of(reserved) {
        return Err(Refusal::Page);
    }
    Ok(())
}

/// Question 15 of an end that restarts, which has no L: is the page a run of 00 followed only by
/// FF? Success gives the L that the end restarts with, the last number reserved.
pub fn restarted(page: &[u8; PAGE]) -> Result<u32, Refusal> {
    let reserved = page.partition_point(|&byte| byte == RESERVED);
    if page != of(reserved) {
        return Err(Refusal::Page);
    }
    Ok(STRETCH * reserved as u32)
}

/// The byte that an end with this L has to reserve before it uses the next number, if it has to.
pub fn next(local: u32) -> Option<usize> {
    local.is_multiple_of(STRETCH).then_some(reserved(local))
}

/// Reserves the numbers of this byte, and stores nothing else.
pub fn reserve(page: &mut [u8], place: usize) {
    page[place] = RESERVED;
}

#[cfg(test)]
mod tests {
    use super::*;

    /// A page of so many 00 and then FF, made byte by byte.
    fn run(reserved: usize) -> [u8; PAGE] {
        let mut page = [0xff; PAGE];
        page[..reserved].fill(0);
        page
    }

    /// Numbers of reserved bytes at the edges of pages and of words.
    const COUNTS: [usize; 12] = [0, 1, 2, 7, 8, 15, 16, 63, 64, 2048, 4095, 4096];

    #[test]
    fn a_new_page_is_4096_times_ff_and_reserves_none() {
        assert_eq!(NEW, [0xff; 4096]);
        assert_eq!(restarted(&NEW), Ok(0));
        assert_eq!(LAST_NUMBER, 65_536);
    }

    #[test]
    fn a_page_with_so_many_reserved_is_a_run_of_00_then_ff() {
        for count in COUNTS {
            assert_eq!(of(count), &run(count));
            assert_eq!(restarted(&run(count)), Ok(16 * count as u32));
        }
    }

    #[test]
    fn each_byte_has_sixteen_numbers() {
        for (local, count) in [
            (0, 0),
            (1, 1),
            (15, 1),
            (16, 1),
            (17, 2),
            (32, 2),
            (33, 3),
            (65_520, 4095),
            (65_521, 4096),
            (65_535, 4096),
            (65_536, 4096),
        ] {
            assert_eq!(reserved(local), count);
            for found in COUNTS {
                let asked = ask(&run(found), local);
                assert_eq!(asked.is_ok(), found == count, "{local} {found}");
            }
        }
    }

    #[test]
    fn an_l_above_the_last_number_has_no_page() {
        for local in [
            65_537,
            65_552,
            65_553,
            1 << 20,
            1 << 31,
            u32::MAX - 1,
            u32::MAX,
        ] {
            for count in COUNTS {
                assert_eq!(ask(&run(count), local), Err(Refusal::Page));
            }
        }
    }

    #[test]
    fn a_byte_that_breaks_the_run_is_found_in_every_place() {
        for count in COUNTS {
            let right = run(count);
            let local = STRETCH * count as u32;
            for place in 0..PAGE {
                for byte in [0x00, 0x01, 0x7f, 0x80, 0xfe, 0xff] {
                    let mut page = right;
                    page[place] = byte;
                    let is_whole = ask(&page, local).is_ok();
                    assert_eq!(is_whole, page == right);
                    let next_run =
                        (place == count && byte == 0) || (place + 1 == count && byte == 0xff);
                    let is_run = restarted(&page).is_ok();
                    assert_eq!(is_run, page == right || next_run, "{count} {place} {byte}");
                }
            }
        }
    }

    #[test]
    fn a_byte_is_reserved_before_the_first_of_its_numbers() {
        for local in 0..70 {
            let right = (local % 16 == 0).then_some(local as usize / 16);
            assert_eq!(next(local), right);
        }
        assert_eq!(next(65_520), Some(4095));
        assert_eq!(next(65_535), None);
    }

    #[test]
    fn reserving_makes_the_next_run() {
        for count in COUNTS.into_iter().filter(|&count| count < PAGE) {
            let mut page = run(count);
            reserve(&mut page, next(16 * count as u32).unwrap());
            assert_eq!(page, run(count + 1));
        }
    }
}
