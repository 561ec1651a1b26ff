//! What the proved implementation's calls take, beside the reference's: `speed` prints nanoseconds a
//! call, `speed count` instructions. (`speed repeat CALL proved|reference TIMES` is what is counted.)

mod bench;
mod count;
mod end;
mod line;
mod measure;
mod sample;

use measure::{Measure, Names, Repeat, Time};
use std::env;
use std::process::ExitCode;

fn main() -> ExitCode {
    let words: Vec<_> = env::args().skip(1).collect();
    let words: Vec<_> = words.iter().map(String::as_str).collect();
    match words[..] {
        [] => {
            measure::print_head();
            all(&mut Time);
        }
        ["count"] => {
            measure::print_head();
            let mut names = Names::default();
            all(&mut names);
            if let Err(error) = count::count(&names.0) {
                eprintln!("speed: {error}");
                return ExitCode::FAILURE;
            }
        }
        [count::REPEAT, name, implementation, times] => all(&mut Repeat {
            name: name.to_string(),
            proved: implementation == count::PROVED,
            times: times.parse().unwrap_or(0),
        }),
        _ => {
            eprintln!("usage: speed [count]");
            return ExitCode::FAILURE;
        }
    }
    ExitCode::SUCCESS
}

/// All calls that are measured.
fn all(measure: &mut impl Measure) {
    line::measure(measure);
    end::measure(measure);
    bench::measure(measure);
}
