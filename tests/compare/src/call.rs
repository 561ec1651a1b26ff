//! One call of a codec, the memory lent to it, and what it answers and leaves there.

use crate::codec::{Codec, Fields};
use crate::proved::Proved;
use cases::group::Group;
use cases::guarded::Guarded;
use cases::hex::Hex;
use cases::random::Random;
use cases::Reference;

/// A call with all that it is given to read.
#[derive(Debug)]
pub enum Call {
    ReadLine { line: Hex },
    WriteLine { bytes: Hex },
    Read { known: u8, bytes: Hex },
    Write { fields: Fields, block: Hex },
}

/// All that a call may write.
#[derive(Clone, Debug, PartialEq)]
struct Memory {
    out: Guarded,
    length: usize,
    fields: Fields,
}

/// What a call answers, and the memory after it.
#[derive(Debug, PartialEq)]
struct After {
    number: u8,
    memory: Memory,
}

impl Memory {
    /// Memory filled with random values, whose lent buffer has this many bytes.
    fn new(random: &mut Random, room: usize) -> Self {
        Self {
            out: Guarded::any(random, room),
            length: random.bits() as usize,
            fields: Fields::any(random),
        }
    }
}

impl Call {
    /// One case: both implementations make the call, lent a buffer of this many bytes.
    pub fn compare(&self, group: &mut Group, room: usize) {
        let memory = Memory::new(&mut Random::new(group.compared()), room);
        let found = self.after::<Proved>(memory.clone());
        let right = self.after::<Reference>(memory);
        group.check(self, right.number, &found, &right);
    }

    /// Makes the call in this implementation.
    fn after<C: Codec>(&self, mut memory: Memory) -> After {
        let out = memory.out.bytes_mut();
        let number = match self {
            Self::ReadLine { line } => C::read_line(&line.0, out, &mut memory.length),
            Self::WriteLine { bytes } => C::write_line(&bytes.0, out),
            Self::Read { known, bytes } => {
                C::read(*known, &bytes.0, &mut memory.fields, &mut memory.length)
            }
            Self::Write { fields, block } => C::write(fields, &block.0, out, &mut memory.length),
        };
        After { number, memory }
    }
}
