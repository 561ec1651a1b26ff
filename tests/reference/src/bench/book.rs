//! The book: every frame ever sent on a bench.

use super::Side;
use crate::buffer::put;
use crate::frame::LONGEST_FRAME;
use crate::Refusal;

/// How many frames the book holds.
pub const PLACES: usize = 512;
/// The bytes of a place: sender, length, frame, zeros.
pub const PLACE: usize = HEAD + LONGEST_FRAME;
/// The bytes of the book.
pub const BOOK: usize = PLACES * PLACE;
/// The bytes before the frame: sender, length.
pub const HEAD: usize = 2;
/// The fewest bytes a frame has.
const SHORTEST_FRAME: usize = 9;

/// A place of the book.
pub type Place = [u8; PLACE];

/// Question 13: the sender and the frame of this number, counted from 0, among the places in use.
pub fn find(used: &[Place], number: usize) -> Result<(Side, &[u8]), Refusal> {
    let [sender, length, rest @ ..] = used.get(number).ok_or(Refusal::Absent)?;
    let sender = Side::of(*sender).ok_or(Refusal::Absent)?;
    let length = usize::from(*length);
    if !(SHORTEST_FRAME..=LONGEST_FRAME).contains(&length) {
        return Err(Refusal::Absent);
    }
    Ok((sender, &rest[..length]))
}

/// The whole place of a frame.
pub fn place(sender: Side, frame: &[u8]) -> Place {
    let mut place = [0; PLACE];
    place[0] = sender as u8;
    place[1] = frame.len() as u8;
    put(&mut place[HEAD..], frame);
    place
}

#[cfg(test)]
mod tests {
    use super::*;

    const FRAME: [u8; 9] = [4, 0, 0, 0, 0, 0, 0, 0, 1];

    #[test]
    fn the_book_has_512_places_of_80_bytes() {
        assert_eq!((PLACES, PLACE, BOOK), (512, 80, 40_960));
    }

    #[test]
    fn a_place_is_sender_length_frame_and_zeros() {
        let place = place(Side::B, &FRAME);
        assert_eq!(place[..11], [1, 9, 4, 0, 0, 0, 0, 0, 0, 0, 1]);
        assert_eq!(place[11..], [0; 69]);
    }

    #[test]
    fn a_frame_put_in_a_place_is_found_there() {
        let longest = [7; LONGEST_FRAME];
        let used = [place(Side::A, &FRAME), place(Side::B, &longest)];
        assert_eq!(find(&used, 0), Ok((Side::A, &FRAME[..])));
        assert_eq!(find(&used, 1), Ok((Side::B, &longest[..])));
        for number in [2, 511, 512, 65_535] {
            assert_eq!(find(&used, number), Err(Refusal::Absent));
        }
    }

    #[test]
    fn the_sender_is_0_or_1_and_the_length_9_to_78() {
        for byte in 0..=u8::MAX {
            let mut place = place(Side::A, &FRAME);
            place[0] = byte;
            assert_eq!(find(&[place], 0).is_ok(), byte <= 1);
            place[0] = 0;
            place[1] = byte;
            assert_eq!(find(&[place], 0).is_ok(), (9..=78).contains(&byte));
        }
    }

    #[test]
    fn what_follows_the_frame_is_not_asked() {
        let mut place = place(Side::A, &FRAME);
        place[11..].fill(0xff);
        assert_eq!(find(&[place], 0), Ok((Side::A, &FRAME[..])));
    }
}
