//! Parts of a frame or request, taken from the front.

use crate::Refusal;

/// The kind byte and what follows it; no bytes at all have no kind.
pub fn kind(bytes: &[u8]) -> Result<(u8, &[u8]), Refusal> {
    bytes
        .split_first()
        .map(|(&kind, rest)| (kind, rest))
        .ok_or(Refusal::Kind)
}

/// A number of 4 bytes, big-endian, and what follows it.
pub fn number(bytes: &[u8]) -> Result<(u32, &[u8]), Refusal> {
    bytes
        .split_first_chunk()
        .map(|(number, rest)| (u32::from_be_bytes(*number), rest))
        .ok_or(Refusal::FixedPart)
}

/// Question 4, where there is no block: is nothing left?
pub fn end(bytes: &[u8]) -> Result<(), Refusal> {
    if !bytes.is_empty() {
        return Err(Refusal::FixedPart);
    }
    Ok(())
}
