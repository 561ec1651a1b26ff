//! Instructions a call: the difference of many calls and few, each in a run of this program under
//! callgrind.

use crate::measure::print_row;
use cases::callgrind::instructions;
use std::env;
use std::io::Result;
use std::process::Stdio;

/// So many calls.
const FEW: u32 = 50;
const MANY: u32 = 250;

/// The words on the command line that make one call so often.
pub const REPEAT: &str = "repeat";
pub const PROVED: &str = "proved";
const REFERENCE: &str = "reference";

/// Counts the instructions of each of these calls in both implementations.
pub fn count(names: &[String]) -> Result<()> {
    for name in names {
        print_row(name, of(name, PROVED)?, of(name, REFERENCE)?);
    }
    Ok(())
}

fn of(name: &str, implementation: &str) -> Result<f64> {
    let program = env::current_exe()?;
    let run = |times: u32| {
        let words = [REPEAT, name, implementation, &times.to_string()];
        instructions(program.as_os_str(), &words, Stdio::null())
    };
    Ok((run(MANY)? - run(FEW)?) as f64 / f64::from(MANY - FEW))
}
