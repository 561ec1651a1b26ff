//! Buffers lent by a caller.

use crate::Refusal;

/// Question 11: has the lent buffer at least this many bytes?
pub fn ask_room(buffer: &[u8], needed: usize) -> Result<(), Refusal> {
    if buffer.len() < needed {
        return Err(Refusal::Buffer);
    }
    Ok(())
}

/// Question 11: the start of a lent buffer that is only read, if it has so many bytes.
pub fn start<const LENGTH: usize>(buffer: &[u8]) -> Result<&[u8; LENGTH], Refusal> {
    buffer.first_chunk().ok_or(Refusal::Buffer)
}

/// Question 11: the start of a lent buffer, if it has so many bytes.
pub fn start_mut<const LENGTH: usize>(buffer: &mut [u8]) -> Result<&mut [u8; LENGTH], Refusal> {
    buffer.first_chunk_mut().ok_or(Refusal::Buffer)
}

/// Writes the bytes at the start of the buffer, and no other byte; answers their count.
///
/// The buffer has room for them: question 11 is asked before.
pub fn put(buffer: &mut [u8], bytes: &[u8]) -> usize {
    buffer[..bytes.len()].copy_from_slice(bytes);
    bytes.len()
}

#[cfg(test)]
mod tests {
    use super::*;

    #[test]
    fn room_is_enough_from_the_needed_length_on() {
        assert_eq!(ask_room(&[0; 77], 78), Err(Refusal::Buffer));
        assert_eq!(ask_room(&[0; 78], 78), Ok(()));
        assert_eq!(ask_room(&[0; 79], 78), Ok(()));
    }

    #[test]
    fn put_leaves_the_rest() {
        let mut buffer = [9; 4];
        assert_eq!(put(&mut buffer, &[1, 2]), 2);
        assert_eq!(buffer, [1, 2, 9, 9]);
    }
}
