//! Both implementations in one process, on the same bytes: what is done with each call.

use std::time::{Duration, Instant};

/// How each implementation makes a call, with all that is lent to it.
pub struct Both<C> {
    pub proved: fn(&mut C),
    pub reference: fn(&mut C),
}

/// What is done with each call.
pub trait Measure {
    /// The call of this name, with so many at once where it is timed.
    fn call<C>(&mut self, name: &str, batch: u32, case: &mut C, both: Both<C>);
}

/// Times both, batch by batch in turns, and prints nanoseconds a call.
pub struct Time;

/// So many batches of each are timed.
const BATCHES: u32 = 50;

impl Measure for Time {
    fn call<C>(&mut self, name: &str, batch: u32, case: &mut C, both: Both<C>) {
        let [mut proved, mut reference] = [Duration::ZERO; 2];
        for _ in 0..BATCHES {
            proved += time(batch, case, both.proved);
            reference += time(batch, case, both.reference);
        }
        let calls = f64::from(batch * BATCHES);
        let [proved, reference] = [proved, reference].map(|time| time.as_nanos() as f64 / calls);
        print_row(name, proved, reference);
    }
}

/// The time of so many calls.
fn time<C>(batch: u32, case: &mut C, call: fn(&mut C)) -> Duration {
    let begin = Instant::now();
    repeat(batch, case, call);
    begin.elapsed()
}

fn repeat<C>(times: u32, case: &mut C, call: fn(&mut C)) {
    for _ in 0..times {
        call(case);
    }
}

/// The names of the calls.
#[derive(Default)]
pub struct Names(pub Vec<String>);

impl Measure for Names {
    fn call<C>(&mut self, name: &str, _: u32, _: &mut C, _: Both<C>) {
        self.0.push(name.to_string());
    }
}

/// Makes one call so many times, in one implementation.
pub struct Repeat {
    pub name: String,
    pub proved: bool,
    pub times: u32,
}

impl Measure for Repeat {
    fn call<C>(&mut self, name: &str, _: u32, case: &mut C, both: Both<C>) {
        if name == self.name {
            let call = if self.proved {
                both.proved
            } else {
                both.reference
            };
            repeat(self.times, case, call);
        }
    }
}

/// Prints what stands in the columns.
pub fn print_head() {
    println!(
        "{:40} {:>10} {:>10} {:>6}",
        "call", "proved", "reference", "ratio"
    );
}

pub fn print_row(name: &str, proved: f64, reference: f64) {
    let ratio = proved / reference;
    println!("{name:40} {proved:10.1} {reference:10.1} {ratio:6.2}");
}
