//! The questions' numbers.

/// A question whose answer is no.
#[derive(Clone, Copy, Debug, PartialEq, Eq)]
#[repr(u8)]
pub enum Refusal {
    /// The line has not 2 to 156 characters, an even number.
    LineLength = 1,
    /// A character of the line is none of 0-9, A-F, a-f.
    LineCharacter = 2,
    /// The kind is not known to the call.
    Kind = 3,
    /// The fixed part is incomplete, or more follows where there is no block.
    FixedPart = 4,
    /// The count byte is not 1 to 64.
    Count = 5,
    /// There are not exactly that many bytes after the count.
    BlockLength = 6,
    /// A number of the frame is one that no end sends.
    Numbers = 7,
    /// The state does not allow the request.
    State = 8,
    /// No number is left for a new incarnation or a further block.
    NumbersUsedUp = 9,
    /// Eight blocks are waiting.
    WaitingFull = 10,
    /// A lent buffer is too small.
    Buffer = 11,
    /// A record is not sound, or the book's count is above 512.
    Unsound = 12,
    /// The book does not hold that frame.
    Absent = 13,
    /// The book has no place left for the frame to send.
    BookFull = 14,
    /// A page is not a run of 00 followed only by FF, or has not as many 00 as L asks for.
    Page = 15,
}

impl Refusal {
    /// The document's number of the question.
    pub fn number(self) -> u8 {
        self as u8
    }
}

/// The number a call answers: 0 for success, else the refusal's.
pub fn number<T>(result: Result<T, Refusal>) -> u8 {
    result.err().map_or(0, Refusal::number)
}

#[cfg(test)]
mod tests {
    use super::*;

    #[test]
    fn success_is_0_and_a_refusal_its_number() {
        assert_eq!(number(Ok(())), 0);
        assert_eq!(number::<()>(Err(Refusal::LineLength)), 1);
        assert_eq!(number::<()>(Err(Refusal::Buffer)), 11);
        assert_eq!(number::<()>(Err(Refusal::BookFull)), 14);
        assert_eq!(number::<()>(Err(Refusal::Page)), 15);
    }
}
