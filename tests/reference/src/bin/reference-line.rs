//! The line program of the reference: reads standard input to its end, answers on standard output.

use reference::program::LineProgram;
use reference::stream::run;
use std::io::{stdin, stdout, Result};

fn main() -> Result<()> {
    run(LineProgram::default(), stdin().lock(), stdout().lock())
}
