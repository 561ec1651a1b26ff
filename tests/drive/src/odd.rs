//! Input at the edges: lines of all lengths, every kind, no text at all, and random bytes.

use crate::script::Script;
use cases::random::Random;
use cases::sample::{hex_digits, message, EDGES};
use reference::frame::{DATA, LONGEST_FRAME};
use reference::line::{self, LONGEST_LINE};
use reference::request::{CLOSE, CONNECT, LISTEN, SEND, TIMER};

/// The run of the document.
pub const RUN: &[u8] = b"41\n010000000700000000\n030000000700000001\n\
    08000000070000000100000000026162\nzz\n";
const MEGABYTE: usize = 1 << 20;
/// So many bytes of its input a program takes at once.
const PORTION: usize = 1 << 16;
const RANDOM_SCRIPTS: usize = 20;
const RANDOM_BYTES: usize = 4_000;

/// All scripts of this sort for one end.
pub fn scripts() -> Vec<Script> {
    let mut scripts = of(RUN, &[&[]]);
    scripts.push(edges());
    scripts
}

/// The scripts for a program with this run, whose requests stand after one of these leads.
pub fn of(run: &[u8], leads: &[&[u8]]) -> Vec<Script> {
    let whole = Script(run.to_vec());
    let unfinished = whole.clone().unfinished();
    let mut scripts = vec![whole, unfinished, lengths(), characters()];
    for lead in leads {
        scripts.push(kinds(lead));
        scripts.push(counts(run, lead));
        scripts.extend(few_bytes(lead));
    }
    scripts.extend(line_feeds());
    scripts.extend(portions(run));
    scripts.extend(megabytes(run));
    scripts.extend(random_bytes());
    scripts
}

/// Inputs of very few bytes, some with a request after this lead.
fn few_bytes(lead: &[u8]) -> Vec<Script> {
    let request = line::write(&[lead, &[CONNECT]].concat());
    let surroundings: [(&[u8], &[u8]); 14] = [
        (b"", b""),
        (b"", b"\n"),
        (b"", b"\n\n"),
        (b"", b"\n\n\n"),
        (b"", b"\n\n\r"),
        (b"\n", b""),
        (b"\n\n", b"\n"),
        (b"\n\r\n", b"\n\n"),
        (b"", b"\r\n"),
        (b"\r\n", b""),
        (b"", b"\0\n"),
        (b" ", b"\n"),
        (b"", b" \n"),
        (b"\xff\xfe", b"\n"),
    ];
    let requests = surroundings.map(|(before, after)| [before, &request, after].concat());
    let inputs: [&[u8]; 8] = [
        b"",
        b"\r",
        b"\r\n",
        b"\n\r\n\n\r",
        &request[..request.len() - 1],
        b"\0",
        b"\0\n\n",
        "é\n".as_bytes(),
    ];
    let inputs = inputs.map(<[u8]>::to_vec);
    requests.into_iter().chain(inputs).map(Script).collect()
}

/// Nothing but line feeds: few, as many as a program takes at once, and one more.
fn line_feeds() -> impl Iterator<Item = Script> {
    let counts = [1, 2, 3, PORTION, PORTION + 1];
    counts.into_iter().map(|count| Script(vec![b'\n'; count]))
}

/// A long line, and then this run with an empty line after each of its lines. The first portion of
/// the input ends in every place of the run, also before each of its line feeds.
fn portions(run: &[u8]) -> impl Iterator<Item = Script> {
    let lines = run.split_inclusive(|&byte| byte == b'\n');
    let spaced = lines.flat_map(|line| [line, b"\n"]).flatten();
    let spaced: Vec<u8> = spaced.copied().collect();
    (0..spaced.len()).map(move |place| {
        let mut script = Script::from_iter([&vec![b'0'; PORTION - 1 - place][..]]);
        script.0.extend(&spaced);
        script
    })
}

/// Lines of a megabyte: first, between others, last and unfinished, and with other characters.
fn megabytes(run: &[u8]) -> [Script; 4] {
    let long = vec![b'0'; MEGABYTE];
    let odd = vec![0xff; MEGABYTE + 1];
    let run = run.trim_ascii_end();
    let between = Script::from_iter([run, &long, run]);
    let last = Script::from_iter([run, &long]).unfinished();
    let mixed = Script::from_iter([&odd, run, &odd, run]);
    [Script(long), between, last, mixed]
}

/// Lines of every length up to 320, of digits alone and without any.
fn lengths() -> Script {
    let mut random = Random::new(500);
    let lines = (0..=2 * LONGEST_LINE + 8)
        .flat_map(|length| [hex_digits(&mut random, length), vec![b'z'; length]]);
    lines.fold(Script::default(), |mut script, line| {
        script.push_line(&line);
        script
    })
}

/// Every byte as either character of a line of two.
fn characters() -> Script {
    let mut script = Script::default();
    for byte in 0..=u8::MAX {
        script.push_line(&[byte, b'5']);
        script.push_line(&[b'4', byte]);
    }
    script
}

/// Every kind after this lead, with every number of bytes after it.
fn kinds(lead: &[u8]) -> Script {
    let mut random = Random::new(501);
    let mut script = Script::default();
    for kind in 0..=u8::MAX {
        let lengths = match kind {
            0x00..=0x0a | 0x3f..=0x53 => 0..LONGEST_FRAME - lead.len(),
            _ => 0..3,
        };
        for length in lengths {
            script.push(&[lead, &[kind], &random.bytes(length)].concat());
        }
    }
    script
}

/// After this run, DATA and send after this lead with every count byte, followed by fewer bytes,
/// as many and more.
fn counts(run: &[u8], lead: &[u8]) -> Script {
    let mut script = Script(run.to_vec());
    for kind in [DATA, SEND] {
        let fixed = [lead, &message(kind, &[7, 1, 1], &[])].concat();
        for count in 0..=u8::MAX {
            let right = usize::from(count);
            for length in [0, right.saturating_sub(1), right, right + 1] {
                let length = length.min(LONGEST_FRAME - fixed.len());
                let mut bytes = fixed.clone();
                *bytes.last_mut().expect("the count byte") = count;
                bytes.resize(fixed.len() + length, 0x61);
                script.push(&bytes);
            }
        }
    }
    script
}

/// Frames of every kind with all combinations of numbers at the edges, to ends of several states.
fn edges() -> Script {
    let mut script = Script::default();
    for request in [CONNECT, LISTEN, CLOSE, TIMER] {
        for sender in EDGES {
            for quoted in EDGES {
                for number in EDGES {
                    script.push(&[request]);
                    for kind in 0x01..=0x09 {
                        script.push(&message(kind, &[sender, quoted, number], b"block"));
                    }
                }
            }
        }
    }
    script
}

/// Random bytes, with line feeds among them.
fn random_bytes() -> impl Iterator<Item = Script> {
    let mut random = Random::new(502);
    (0..RANDOM_SCRIPTS).map(move |_| {
        let mut bytes = random.bytes(RANDOM_BYTES);
        for byte in &mut bytes {
            if random.within(0..=7) == 0 {
                *byte = b'\n';
            }
        }
        Script(bytes)
    })
}
