//! The input of a program as a stream of lines.

use crate::line::LONGEST_LINE;
use std::io::{ErrorKind, Read, Result, Write};

/// So many bytes of input are taken at once.
const PORTION: usize = 1 << 14;

/// A program that is asked line by line.
pub trait Lines {
    /// Takes one line, without its line feed; appends the answer line and, if a frame is sent,
    /// its line.
    fn line(&mut self, line: &[u8], output: &mut Vec<u8>);
}

/// Runs the program to the end of the input. All answers are written whenever the input at hand
/// is used up.
pub fn run(program: impl Lines, mut input: impl Read, mut output: impl Write) -> Result<()> {
    let mut reader = Reader::new(program);
    let mut portion = [0; PORTION];
    let mut answers = Vec::new();
    loop {
        let length = match input.read(&mut portion) {
            Err(error) if error.kind() == ErrorKind::Interrupted => continue,
            length => length?,
        };
        match length {
            0 => reader.end(&mut answers),
            _ => reader.take(&portion[..length], &mut answers),
        }
        output.write_all(&answers)?;
        output.flush()?;
        answers.clear();
        if length == 0 {
            return Ok(());
        }
    }
}

/// Splits the input into lines for a program.
struct Reader<P> {
    program: P,
    /// The line begun: all of it, or so much that it is too long.
    begun: Vec<u8>,
}

impl<P: Lines> Reader<P> {
    /// A reader that has read nothing yet.
    fn new(program: P) -> Self {
        Self {
            program,
            begun: Vec::new(),
        }
    }

    /// Takes a portion of the input, which may begin and end within a line.
    fn take(&mut self, portion: &[u8], answers: &mut Vec<u8>) {
        for piece in portion.split_inclusive(|&byte| byte == b'\n') {
            match piece.strip_suffix(b"\n") {
                Some(rest) => {
                    self.lengthen(rest);
                    self.finish(answers);
                }
                None => self.lengthen(piece),
            }
        }
    }

    /// The input ends: text after the last line feed is a line too.
    fn end(&mut self, answers: &mut Vec<u8>) {
        if !self.begun.is_empty() {
            self.finish(answers);
        }
    }

    /// Adds a piece to the line begun. Of a line that is too long no more is kept.
    fn lengthen(&mut self, piece: &[u8]) {
        let room = (LONGEST_LINE + 1).saturating_sub(self.begun.len());
        self.begun.extend(&piece[..piece.len().min(room)]);
    }

    /// The line begun is complete.
    fn finish(&mut self, answers: &mut Vec<u8>) {
        self.program.line(&self.begun, answers);
        self.begun.clear();
    }
}

#[cfg(test)]
mod tests {
    use super::*;

    /// Prints each line as it is, and its end.
    struct Echo;

    impl Lines for Echo {
        fn line(&mut self, line: &[u8], output: &mut Vec<u8>) {
            output.extend(line);
            output.push(b';');
        }
    }

    /// Gives one byte at a time.
    struct Dripping<'a>(&'a [u8]);

    impl Read for Dripping<'_> {
        fn read(&mut self, buffer: &mut [u8]) -> Result<usize> {
            self.0.read(&mut buffer[..1])
        }
    }

    /// The output for this input, which is the same where it comes byte by byte.
    fn output(input: &[u8]) -> String {
        let [mut whole, mut dripped] = [Vec::new(), Vec::new()];
        run(Echo, input, &mut whole).unwrap();
        run(Echo, Dripping(input), &mut dripped).unwrap();
        assert_eq!(whole, dripped);
        String::from_utf8(whole).unwrap()
    }

    #[test]
    fn text_after_the_last_line_feed_is_a_line() {
        assert_eq!(output(b""), "");
        assert_eq!(output(b"\n"), ";");
        assert_eq!(output(b"a"), "a;");
        assert_eq!(output(b"a\n"), "a;");
        assert_eq!(output(b"a\n\nb"), "a;;b;");
        assert_eq!(output(b"\r\n"), "\r;");
    }

    #[test]
    fn of_a_long_line_enough_is_kept_that_it_is_too_long() {
        for length in [156, 157, 158, 100_000] {
            let long = "0".repeat(length);
            let kept = "0".repeat(length.min(157));
            let input = format!("a\n{long}\nb");
            assert_eq!(output(input.as_bytes()), format!("a;{kept};b;"));
        }
    }

    #[test]
    fn answers_are_written_whenever_the_input_at_hand_is_used_up() {
        /// Gives one line at a time.
        struct Typed<'a>(&'a [&'a [u8]]);
        impl Read for Typed<'_> {
            fn read(&mut self, buffer: &mut [u8]) -> Result<usize> {
                let Some((next, rest)) = self.0.split_first() else {
                    return Ok(0);
                };
                self.0 = rest;
                buffer[..next.len()].copy_from_slice(next);
                Ok(next.len())
            }
        }
        /// Notes what is written at once.
        struct Notes<'a>(&'a mut Vec<Vec<u8>>);
        impl Write for Notes<'_> {
            fn write(&mut self, bytes: &[u8]) -> Result<usize> {
                self.0.push(bytes.to_vec());
                Ok(bytes.len())
            }
            fn flush(&mut self) -> Result<()> {
                Ok(())
            }
        }
        let mut notes = Vec::new();
        let lines: [&[u8]; 3] = [b"a\n", b"b\nc\nd", b"\n"];
        run(Echo, Typed(&lines), Notes(&mut notes)).unwrap();
        assert_eq!(notes, [&b"a;"[..], b"b;c;", b"d;"]);
    }
}
