//! The calls that an implementation of the codec offers.

use cases::random::Random;

/// The numbers of a frame or request.
#[derive(Clone, Debug, Default, PartialEq)]
pub struct Fields {
    pub kind: u8,
    pub sender: u32,
    pub quoted: u32,
    pub number: u32,
}

impl Fields {
    /// Fields of any values.
    pub fn any(random: &mut Random) -> Self {
        Self {
            kind: random.byte(),
            sender: random.bits() as u32,
            quoted: random.bits() as u32,
            number: random.bits() as u32,
        }
    }
}

/// One implementation of the codec. Each call answers 0, or the number of the question that
/// refused it.
pub trait Codec {
    /// Questions 11, 1 and 2 of a line; its bytes and their count.
    fn read_line(line: &[u8], out: &mut [u8], length: &mut usize) -> u8;
    /// The bytes as a line; 11 if it has no room.
    fn write_line(bytes: &[u8], out: &mut [u8]) -> u8;
    /// Questions 3 to 7 of a call that knows frames (1), requests (2), both (3) or nothing; the numbers
    /// and the length of the block, which is the end of the bytes.
    fn read(known: u8, bytes: &[u8], fields: &mut Fields, block: &mut usize) -> u8;
    /// The bytes of a frame and their count; 11, 3 and 5 are asked.
    fn write(fields: &Fields, block: &[u8], out: &mut [u8], length: &mut usize) -> u8;
}
