//! A person at the program: the next line is typed only when the last one is answered.

use crate::comparison::Text;
use crate::reference_program::ReferenceProgram;
use crate::script::Script;
use cases::group::Group;
use std::ffi::OsStr;
use std::io::{Error, ErrorKind, Read, Result, Write};
use std::process::{Child, ChildStdin, Command, Stdio};
use std::sync::mpsc::{channel, Receiver};
use std::thread;
use std::time::Duration;

/// An answer that takes longer is none.
const PATIENCE: Duration = Duration::from_secs(5);

/// Types a script's lines, a character at a time.
pub fn group<P: ReferenceProgram>(program: &OsStr, script: &Script) -> Group {
    let mut group = Group::new("typed", &[0]);
    if let Err(error) = typed::<P>(program, script, &mut group) {
        group.fail(&format_args!("the program cannot be typed to: {error}"));
    }
    group
}

fn typed<P: ReferenceProgram>(program: &OsStr, script: &Script, group: &mut Group) -> Result<()> {
    let mut dialogue = Dialogue::start(program)?;
    let mut reference = P::default();
    for line in script.lines() {
        let right = reference.answer(line);
        dialogue.say(line)?;
        let found = dialogue.hear(right.len());
        if found.len() < right.len() {
            return Err(Error::new(ErrorKind::TimedOut, "a line is not answered"));
        }
        group.check(&Text(line), P::number(&right), &Text(&found), &Text(&right));
    }
    if let Some(surplus) = dialogue.end()? {
        group.fail(&format_args!("ended with {:?}", Text(&surplus)));
    }
    Ok(())
}

/// A running program.
struct Dialogue {
    child: Child,
    input: ChildStdin,
    output: Receiver<Vec<u8>>,
    /// What was printed and not heard yet.
    printed: Vec<u8>,
}

impl Dialogue {
    fn start(program: &OsStr) -> Result<Self> {
        let mut child = Command::new(program)
            .stdin(Stdio::piped())
            .stdout(Stdio::piped())
            .spawn()?;
        let input = child.stdin.take().expect("standard input is piped");
        let mut stdout = child.stdout.take().expect("standard output is piped");
        let (sender, output) = channel();
        thread::spawn(move || {
            let mut portion = [0; 4096];
            while let Ok(length @ 1..) = stdout.read(&mut portion) {
                if sender.send(portion[..length].to_vec()).is_err() {
                    return;
                }
            }
        });
        Ok(Self {
            child,
            input,
            output,
            printed: Vec::new(),
        })
    }

    /// Types a line and its line feed.
    fn say(&mut self, line: &[u8]) -> Result<()> {
        for character in line {
            self.input.write_all(&[*character])?;
        }
        self.input.write_all(b"\n")
    }

    /// The next so many bytes of output, or fewer where no more come.
    fn hear(&mut self, length: usize) -> Vec<u8> {
        while self.printed.len() < length {
            match self.output.recv_timeout(PATIENCE) {
                Ok(portion) => self.printed.extend(portion),
                Err(_) => break,
            }
        }
        let rest = self.printed.split_off(length.min(self.printed.len()));
        std::mem::replace(&mut self.printed, rest)
    }

    /// Ends the input: what else was printed, or nothing where the program ends well and silently.
    fn end(mut self) -> Result<Option<Vec<u8>>> {
        drop(self.input);
        while let Ok(portion) = self.output.recv_timeout(PATIENCE) {
            self.printed.extend(portion);
        }
        let succeeded = self.child.wait()?.success();
        Ok((!succeeded || !self.printed.is_empty()).then_some(self.printed))
    }
}

#[cfg(test)]
mod tests {
    use super::*;
    use reference::program::LineProgram;

    /// How many answers of this program pass and fail.
    fn score(program: &str) -> (u64, u64) {
        let script = Script::from_iter([b"40".as_slice(), b"45", b"zz"]);
        let score = group::<LineProgram>(OsStr::new(program), &script).report();
        (score.passed, score.failed)
    }

    #[test]
    fn a_program_that_only_echoes_is_found_out() {
        assert!(score("cat").1 > 0);
    }

    #[test]
    fn a_program_that_does_not_run_is_found_out() {
        assert!(score("no/such/program").1 > 0);
        assert!(score("false").1 > 0);
    }
}
