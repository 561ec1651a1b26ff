//! `machine FILE..`: that no digit is written by a jump, as the machine code of programs and libraries
//! shows. A loop that writes digits has one conditional jump, its own.
//!
//! The last line is 'N passed, M failed'.

mod digits;
mod listing;

use digits::Loop;
use std::env;
use std::process::{Command, ExitCode};

fn main() -> ExitCode {
    let files: Vec<_> = env::args().skip(1).collect();
    if files.is_empty() {
        eprintln!("usage: machine FILE..");
        return ExitCode::FAILURE;
    }
    let verdicts: Vec<bool> = files.iter().flat_map(|file| look(file)).collect();
    let passed = verdicts.iter().filter(|&&passed| passed).count();
    let failed = verdicts.len() - passed;
    println!("{passed} passed, {failed} failed");
    ExitCode::from(u8::from(failed > 0))
}

/// Whether each loop of a file that writes digits passes; a file without one fails.
fn look(file: &str) -> Vec<bool> {
    let listing = match disassembled(file) {
        Ok(listing) => listing,
        Err(error) => {
            println!("{file}: {error}");
            return vec![false];
        }
    };
    let functions = listing::functions(&listing);
    let loops = digits::loops(&functions);
    if loops.is_empty() {
        println!("{file}: no loop that writes digits: none multiplies by 39 (see tests/machine)");
        return vec![false];
    }
    loops.iter().map(|found| passes(file, found)).collect()
}

fn passes(file: &str, found: &Loop) -> bool {
    let jumps: Vec<_> = found
        .jumps()
        .iter()
        .map(|jump| format!("{} at {:x}", jump.name, jump.address))
        .collect();
    println!(
        "{file}: {}: the loop at {:x} writes digits in {} instructions, {} of them conditional moves; conditional jumps: {}",
        found.function,
        found.instructions[0].address,
        found.instructions.len(),
        found.moves(),
        jumps.join(", ")
    );
    let own = jumps.len() == 1;
    if !own {
        println!("{file}: a digit is written by a jump: the loop's own is one");
    }
    own
}

fn disassembled(file: &str) -> Result<String, String> {
    let output = Command::new("objdump")
        .args(["-d", "--no-show-raw-insn", file])
        .output()
        .map_err(|error| format!("objdump: {error}"))?;
    if !output.status.success() {
        return Err(String::from_utf8_lossy(&output.stderr).trim().to_string());
    }
    Ok(String::from_utf8_lossy(&output.stdout).into_owned())
}
