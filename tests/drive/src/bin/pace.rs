//! How many lines a second programs answer: each runs the same long script from a file into
//! nothing, in turns.
//!
//! The command line names the script, then the programs, and one to compare with last.

use drive::long;
use std::env;
use std::ffi::OsStr;
use std::fs::{self, File};
use std::io::Result;
use std::process::{Command, ExitCode, Stdio};
use std::time::{Duration, Instant};

const ROUNDS: u32 = 15;

fn main() -> Result<ExitCode> {
    let Some((script, programs)) = long::asked_for("pace") else {
        return Ok(ExitCode::FAILURE);
    };
    let path = env::temp_dir().join(format!("pace-{}", std::process::id()));
    fs::write(&path, &script.0)?;
    let mut times = vec![Duration::MAX; programs.len()];
    for _ in 0..ROUNDS {
        for (program, time) in programs.iter().zip(&mut times) {
            *time = run(program, File::open(&path)?)?.min(*time);
        }
    }
    fs::remove_file(&path)?;
    let lines = script.lines().count() as f64;
    let last = times[times.len() - 1].as_secs_f64();
    for (program, time) in programs.iter().zip(&times) {
        println!(
            "{}: {:.0} lines a second, {:.2} of the last one's time",
            program.to_string_lossy(),
            lines / time.as_secs_f64(),
            time.as_secs_f64() / last
        );
    }
    Ok(ExitCode::SUCCESS)
}

/// The time of one run.
fn run(program: &OsStr, input: File) -> Result<Duration> {
    let begin = Instant::now();
    let status = Command::new(program)
        .stdin(input)
        .stdout(Stdio::null())
        .status()?;
    let time = begin.elapsed();
    assert!(status.success(), "the program failed");
    Ok(time)
}
