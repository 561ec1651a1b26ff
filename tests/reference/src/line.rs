//! Lines: bytes in hexadecimal, read in either case and written in small letters. The line feed is
//! not part of them.

use crate::frame::LONGEST_FRAME;
use crate::Refusal;
use std::ops::Deref;

const DIGITS: &[u8; 16] = b"0123456789abcdef";
/// The most characters a line has.
pub const LONGEST_LINE: usize = 2 * LONGEST_FRAME;

/// The bytes of a line.
#[derive(Clone, Copy, Debug)]
pub struct Bytes {
    bytes: [u8; LONGEST_FRAME],
    length: usize,
}

impl Deref for Bytes {
    type Target = [u8];

    fn deref(&self) -> &[u8] {
        &self.bytes[..self.length]
    }
}

/// Questions 1 and 2 of a line; success gives its bytes.
pub fn read(line: &[u8]) -> Result<Bytes, Refusal> {
    ask_length(line)?;
    let (pairs, _) = line.as_chunks();
    let mut bytes = [0; LONGEST_FRAME];
    for (byte, &[high, low]) in bytes.iter_mut().zip(pairs) {
        *byte = digit(high)? << 4 | digit(low)?;
    }
    let length = pairs.len();
    Ok(Bytes { bytes, length })
}

/// The bytes as a line.
pub fn write(bytes: &[u8]) -> Vec<u8> {
    let mut line = Vec::new();
    append(bytes, &mut line);
    line
}

/// Appends the bytes as a line, or as a further part of one.
pub fn append(bytes: &[u8], line: &mut Vec<u8>) {
    let values = bytes.iter().flat_map(|byte| [byte >> 4, byte & 15]);
    line.extend(values.map(|value| DIGITS[usize::from(value)]));
}

/// Question 1: has the line 2 to 156 characters, an even number?
fn ask_length(line: &[u8]) -> Result<(), Refusal> {
    let length = line.len();
    if !(2..=LONGEST_LINE).contains(&length) || !length.is_multiple_of(2) {
        return Err(Refusal::LineLength);
    }
    Ok(())
}

/// Question 2 of one character; success gives the digit's value.
fn digit(character: u8) -> Result<u8, Refusal> {
    match character {
        b'0'..=b'9' => Ok(character - b'0'),
        b'A'..=b'F' => Ok(character - b'A' + 10),
        b'a'..=b'f' => Ok(character - b'a' + 10),
        _ => Err(Refusal::LineCharacter),
    }
}

#[cfg(test)]
mod tests {
    use super::*;

    fn read(line: &[u8]) -> Result<Vec<u8>, Refusal> {
        super::read(line).map(|bytes| bytes.to_vec())
    }

    #[test]
    fn a_line_gives_its_bytes() {
        assert_eq!(
            read(b"0123456789abcdef"),
            Ok(vec![1, 35, 69, 103, 137, 171, 205, 239])
        );
        assert_eq!(read(b"41"), Ok(vec![0x41]));
    }

    #[test]
    fn lengths_at_the_edges() {
        for length in [2, 4, 154, 156] {
            assert_eq!(read(&vec![b'0'; length]), Ok(vec![0; length / 2]));
        }
        for length in [0, 1, 3, 155, 157, 158, 160, 1 << 20] {
            assert_eq!(read(&vec![b'0'; length]), Err(Refusal::LineLength));
        }
    }

    #[test]
    fn the_length_is_asked_before_the_characters() {
        assert_eq!(read(b"zzz"), Err(Refusal::LineLength));
        assert_eq!(read(&[b'z'; 158]), Err(Refusal::LineLength));
        assert_eq!(read(&[b'z'; 156]), Err(Refusal::LineCharacter));
        assert_eq!(read(b"zz"), Err(Refusal::LineCharacter));
    }

    #[test]
    fn nothing_is_trimmed_and_characters_are_bytes() {
        assert_eq!(read(b"41\r"), Err(Refusal::LineLength));
        assert_eq!(read(b"4\r"), Err(Refusal::LineCharacter));
        assert_eq!(read("é".as_bytes()), Err(Refusal::LineCharacter));
    }

    #[test]
    fn only_the_sixteen_digits_pass_with_letters_of_either_case() {
        for character in 0..=u8::MAX {
            let small = character.to_ascii_lowercase();
            let value = (0..16).find(|&value: &u8| DIGITS[usize::from(value)] == small);
            let wanted = |byte: Option<u8>| byte.map(|byte| vec![byte]);
            assert_eq!(
                read(&[character, b'0']).ok(),
                wanted(value.map(|value| value << 4))
            );
            assert_eq!(read(&[b'0', character]).ok(), wanted(value));
        }
    }

    #[test]
    fn the_neighbours_of_the_digits_are_refused() {
        for character in *b"/:@G`g" {
            for line in [[character, b'0'], [b'0', character]] {
                assert_eq!(read(&line), Err(Refusal::LineCharacter));
            }
        }
    }

    #[test]
    fn cases_may_be_mixed_and_what_is_written_is_small() {
        let bytes = read(b"0aBcDEfF4A").unwrap();
        assert_eq!(bytes, [0x0a, 0xbc, 0xde, 0xff, 0x4a]);
        assert_eq!(write(&bytes), b"0abcdeff4a");
    }

    #[test]
    fn bytes_are_written_in_small_letters() {
        assert_eq!(write(&[0x80, 0x0a, 0xff]), b"800aff");
        assert_eq!(write(&[]), b"");
    }

    #[test]
    fn each_byte_written_reads_as_itself() {
        for byte in 0..=u8::MAX {
            assert_eq!(read(&write(&[byte])), Ok(vec![byte]));
        }
    }
}
