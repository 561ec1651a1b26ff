//! Scripts: the whole input of a program.

use cases::alter::capitals;
use cases::random::Random;
use reference::line;

/// The bytes that a program reads.
#[derive(Clone, Default)]
pub struct Script(pub Vec<u8>);

impl Script {
    /// Appends a frame or request as a line, a fifth of them with capitals as their place in the
    /// script decides. Gives the line.
    pub fn push(&mut self, message: &[u8]) -> &[u8] {
        let start = self.0.len();
        let mut line = line::write(message);
        capitals(&mut Random::new(start as u64), &mut line);
        self.push_line(&line);
        &self.0[start..start + line.len()]
    }

    /// Appends a line as it is.
    pub fn push_line(&mut self, line: &[u8]) {
        self.0.extend(line);
        self.0.push(b'\n');
    }

    /// The same without the last line feed.
    pub fn unfinished(mut self) -> Self {
        if self.0.ends_with(b"\n") {
            self.0.pop();
        }
        self
    }

    /// The lines. Text after the last line feed is one too.
    pub fn lines(&self) -> impl Iterator<Item = &[u8]> {
        let lines = self.0.split_inclusive(|&byte| byte == b'\n');
        lines.map(|line| line.strip_suffix(b"\n").unwrap_or(line))
    }
}

impl<'a> FromIterator<&'a [u8]> for Script {
    fn from_iter<I: IntoIterator<Item = &'a [u8]>>(lines: I) -> Self {
        let mut script = Self::default();
        lines.into_iter().for_each(|line| script.push_line(line));
        script
    }
}

#[cfg(test)]
mod tests {
    use super::*;

    fn lines(bytes: &[u8]) -> Vec<Vec<u8>> {
        Script(bytes.to_vec()).lines().map(<[u8]>::to_vec).collect()
    }

    #[test]
    fn text_after_the_last_line_feed_is_a_line() {
        assert_eq!(lines(b""), Vec::<Vec<u8>>::new());
        assert_eq!(lines(b"\n"), [b""]);
        assert_eq!(lines(b"a"), [b"a"]);
        assert_eq!(lines(b"a\n"), [b"a"]);
        assert_eq!(lines(b"a\n\nb"), [&b"a"[..], b"", b"b"]);
    }

    #[test]
    fn messages_become_lines() {
        let mut script = Script::default();
        assert_eq!(script.push(&[0x40]), b"40");
        assert!(script
            .push(&[0x44, 1, 0xff])
            .eq_ignore_ascii_case(b"4401ff"));
        assert!(script.0.eq_ignore_ascii_case(b"40\n4401ff\n"));
        assert!(script.unfinished().0.eq_ignore_ascii_case(b"40\n4401ff"));
    }

    #[test]
    fn a_fifth_of_the_messages_has_capitals() {
        let mut script = Script::default();
        for _ in 0..10_000 {
            script.push(&[0xab, 0xcd, 0xef]);
        }
        let small = script.lines().filter(|line| line == b"abcdef").count();
        assert!((7_800..8_200).contains(&small), "{small}");
    }
}
