//! The bench program of the reference: reads standard input to its end, answers on standard output.

use reference::bench::program::BenchProgram;
use reference::stream::run;
use std::io::{stdin, stdout, Result};

fn main() -> Result<()> {
    run(BenchProgram::default(), stdin().lock(), stdout().lock())
}
