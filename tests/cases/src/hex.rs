//! Bytes that are shown in hexadecimal.

use std::fmt;

const SHOWN: usize = 1_100;

/// Bytes, shown in hexadecimal; of very many only the first are shown.
#[derive(Clone, PartialEq)]
pub struct Hex(pub Vec<u8>);

impl fmt::Debug for Hex {
    fn fmt(&self, out: &mut fmt::Formatter) -> fmt::Result {
        for byte in self.0.iter().take(SHOWN) {
            write!(out, "{byte:02x}")?;
        }
        if self.0.len() > SHOWN {
            write!(out, "... ({} bytes)", self.0.len())?;
        }
        Ok(())
    }
}
