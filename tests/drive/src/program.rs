//! Running the program under test.

use std::env;
use std::ffi::{OsStr, OsString};
use std::io::{Read, Result, Write};
use std::process::{Command, Stdio};
use std::thread;

/// What a run of the program gave.
pub struct Run {
    pub output: Vec<u8>,
    /// Did it end with the exit status of success?
    pub succeeded: bool,
}

/// The program that the command line names. Without one, this usage is printed.
pub fn named(usage: &str) -> Option<OsString> {
    let program = env::args_os().nth(1);
    if program.is_none() {
        eprintln!("usage: {usage}");
    }
    program
}

/// Runs the program with this input to its end.
pub fn run(program: &OsStr, input: &[u8]) -> Result<Run> {
    let mut child = Command::new(program)
        .stdin(Stdio::piped())
        .stdout(Stdio::piped())
        .spawn()?;
    let mut stdin = child.stdin.take().expect("standard input is piped");
    let mut stdout = child.stdout.take().expect("standard output is piped");
    let mut output = Vec::new();
    thread::scope(|scope| {
        // A program that ends before it has read all its input lacks answers, which is found there.
        scope.spawn(move || stdin.write_all(input).ok());
        stdout.read_to_end(&mut output)
    })?;
    let succeeded = child.wait()?.success();
    Ok(Run { output, succeeded })
}

#[cfg(test)]
mod tests {
    use super::*;

    #[test]
    fn a_run_gives_output_and_status() {
        let input = vec![b'a'; 1 << 20];
        let copied = run(OsStr::new("cat"), &input).unwrap();
        assert!(copied.succeeded);
        assert_eq!(copied.output, input);
        let failed = run(OsStr::new("false"), &input).unwrap();
        assert!(!failed.succeeded);
        assert_eq!(failed.output, b"");
        assert!(run(OsStr::new("no/such/program"), &input).is_err());
    }
}
