//! How many instructions a line the programs take. What a program takes for no line at all does not
//! count.
//!
//! The command line names the script, of which the first lines are taken, then the programs.

use cases::callgrind::instructions;
use drive::long;
use drive::script::Script;
use std::env;
use std::ffi::OsStr;
use std::fs::{self, File};
use std::io::Result;
use std::process::ExitCode;

/// So many lines of the script are answered.
const LINES: usize = 50_000;

fn main() -> Result<ExitCode> {
    let Some((script, programs)) = long::asked_for("count") else {
        return Ok(ExitCode::FAILURE);
    };
    let lines = Script::from_iter(script.lines().take(LINES));
    for program in &programs {
        let count = count(program, &lines)? - count(program, &Script::default())?;
        println!(
            "{}: {:.1} instructions a line",
            program.to_string_lossy(),
            count as f64 / lines.lines().count() as f64
        );
    }
    Ok(ExitCode::SUCCESS)
}

/// The instructions of one run.
fn count(program: &OsStr, script: &Script) -> Result<u64> {
    let path = env::temp_dir().join(format!("count-{}", std::process::id()));
    fs::write(&path, &script.0)?;
    let count = instructions::<&OsStr>(program, &[], File::open(&path)?.into());
    fs::remove_file(&path)?;
    count
}
