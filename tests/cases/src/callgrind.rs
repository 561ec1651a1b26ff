//! Instructions by callgrind: the same count in every run, whatever else the machine does.

use std::ffi::OsStr;
use std::io::{Error, Result};
use std::process::{Command, Stdio};

/// How many instructions a program takes with these arguments and this input.
pub fn instructions<S: AsRef<OsStr>>(
    program: &OsStr,
    arguments: &[S],
    input: Stdio,
) -> Result<u64> {
    let output = Command::new("valgrind")
        .args(["--tool=callgrind", "--callgrind-out-file=/dev/null"])
        .arg(program)
        .args(arguments)
        .stdin(input)
        .output()?;
    let said = String::from_utf8_lossy(&output.stderr);
    count_in(&said).ok_or_else(|| Error::other(said.into_owned()))
}

/// The count in what callgrind says.
fn count_in(said: &str) -> Option<u64> {
    let mut counts = said
        .lines()
        .filter_map(|line| line.split_once("Collected : "));
    counts.next()?.1.trim().parse().ok()
}

#[cfg(test)]
mod tests {
    use super::*;

    #[test]
    fn the_count_stands_after_its_word() {
        let said = "==7== Events    : Ir\n==7== Collected : 141701770\n==7== \n";
        assert_eq!(count_in(said), Some(141_701_770));
        assert_eq!(count_in("valgrind: no such program\n"), None);
    }
}
