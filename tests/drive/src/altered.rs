//! Scripts of the other sorts with faults in many lines.

use crate::nearby;
use crate::script::Script;
use crate::sessions::session;
use cases::alter::{alter, damage};
use cases::random::Random;
use reference::bench::{REQUEST_A, REQUEST_B};
use reference::line;

const SOURCES: u64 = 8;
const CALLS: usize = 2_000;

/// All scripts of this sort for one end.
pub fn scripts() -> impl Iterator<Item = Script> {
    of((300..300 + SOURCES).flat_map(|seed| {
        let [a, b] = session(seed, 2 * CALLS);
        [a, b, nearby::script(seed, CALLS)]
    }))
}

/// These scripts with faults; every other one lacks its last line feed.
pub fn of(sources: impl Iterator<Item = Script>) -> impl Iterator<Item = Script> {
    (400..).zip(sources).map(|(seed, source)| {
        let script = altered(seed, &source);
        match seed % 2 {
            0 => script,
            _ => script.unfinished(),
        }
    })
}

/// The script with about half its lines altered or other ones put before them.
fn altered(seed: u64, source: &Script) -> Script {
    let mut random = Random::new(seed);
    let mut script = Script::default();
    for line in source.lines() {
        match random.within(0..=7) {
            0 => {
                script.push(&with_fault(&mut random, line));
            }
            1 => script.push_line(&damaged(&mut random, line)),
            2 => {
                script.push(&with_fault(&mut random, line));
                script.push_line(line);
            }
            3 => {
                script.push_line(&damaged(&mut random, line));
                script.push_line(line);
            }
            _ => script.push_line(line),
        }
    }
    script
}

/// The line's message, altered in most cases; on a bench line that of the end.
fn with_fault(random: &mut Random, line: &[u8]) -> Vec<u8> {
    let bytes = line::read(line).expect("a line of the source");
    let lead = usize::from(matches!(bytes[0], REQUEST_A | REQUEST_B));
    let mut message = bytes[lead..].to_vec();
    alter(random, &mut message);
    [&bytes[..lead], &message].concat()
}

/// The line with a wrong character, or cut, or lengthened.
fn damaged(random: &mut Random, line: &[u8]) -> Vec<u8> {
    let mut line = line.to_vec();
    match random.within(0..=3) {
        0 => line.truncate(random.within(0..=line.len())),
        1 => line.extend(random.bytes_within(1..=3)),
        _ => damage(random, &mut line),
    }
    line
}
