//! The calls of a bench on lent buffers, compared with the reference: what they answer, and every
//! byte of every buffer.

mod call;
mod implementation;
mod questions;
mod scene;
#[cfg(test)]
mod tests;
mod walks;

pub use implementation::{Bench, Lent, Named, Reply, Shown};
pub use scene::deliver;

use crate::group::{Group, Score};
use crate::met::{self, makes_step};
use crate::pages::{self, Role, Seen};
use crate::random::Random;
use call::Buffers;
use questions::Questions;
use reference::bench::book::{self, Place};
use reference::bench::{Order, Side};
use reference::line;
use scene::Scene;
use walks::Walks;

/// So many scenes meet lines in a round, and so many lines each.
const SCENES: usize = 250;
const LINES: usize = 40;
/// So many scenes meet restarts in a round, and so many each.
const RESTARTED: usize = 60;
const RESTARTS: usize = 40;
/// So many scenes meet the question alone in a round, each so often.
const ASKED: usize = 100;
const QUESTIONS: usize = 3;
/// So many walks are made in a round.
const WALKS: usize = 50;

/// What the calls of a bench met so far. The question is asked of every bench that is met.
struct Met {
    calls: met::Met,
    questions: Questions,
}

/// Nothing is met yet by the calls of a bench.
fn nothing_met() -> Met {
    let roles = [Role::Restarted, Role::Beside, Role::Asked];
    let lines = [
        roles.map(pages::Call::Line),
        roles.map(pages::Call::LineWithFullBook),
    ];
    let calls = [lines.as_flattened(), &[pages::Call::Question]].concat();
    Met {
        calls: met::Met::new(&calls),
        questions: Questions::new(),
    }
}

/// Compares the generated calls, so many rounds of more than 30,000, and reports them. Eight
/// rounds make every step.
pub fn compare<B: Bench>(rounds: usize) -> Score {
    let mut met = nothing_met();
    let calls = calls::<B>(rounds, &mut met);
    let sights = met.questions.report_sights();
    [calls, met.calls.report(), sights].into_iter().sum()
}

/// As `compare`, without a report of what the calls met, which is noted.
fn calls<B: Bench>(rounds: usize, met: &mut Met) -> Score {
    let lines = lines::<B>(rounds, met).report();
    let restarts = restarts::<B>(rounds, met).report();
    let walks = walks::<B>(rounds, met).report();
    questions::<B>(rounds, met);
    let questions = met.questions.report();
    [lines, restarts, walks, questions].into_iter().sum()
}

/// The end that a bench with these places in use calls with this line, and the message for it.
pub fn meeting(used: &[Place], line: &[u8]) -> Option<(Side, Vec<u8>)> {
    let bytes = line::read(line).ok()?;
    match Order::read(&bytes).ok()? {
        Order::Request(side, request) => Some((side, request.to_vec())),
        Order::Delivery(number) => {
            let (sender, frame) = book::find(used, number).ok()?;
            Some((sender.other(), frame.to_vec()))
        }
        Order::Restart(_) => None,
    }
}

/// The end that this line restarts, if it does.
pub fn restarted(line: &[u8]) -> Option<Side> {
    let bytes = line::read(line).ok()?;
    match Order::read(&bytes).ok()? {
        Order::Restart(side) => Some(side),
        _ => None,
    }
}

/// Lines of all sorts that benches of all sorts meet.
fn lines<B: Bench>(rounds: usize, met: &mut Met) -> Group {
    let expected = &[0, 1, 2, 3, 4, 5, 6, 7, 8, 9, 10, 11, 12, 13, 14, 15];
    let mut group = Group::new("bench lines", expected);
    let mut random = Random::new(40);
    for _ in 0..rounds * SCENES {
        let scene = Scene::any(&mut random);
        for _ in 0..LINES {
            let line = scene.line(&mut random);
            let scene = scene.damaged(&mut random, 12);
            meet::<B>(&mut random, &mut group, met, &scene, &line);
        }
    }
    group
}

/// Lines that restart an end, or nearly do, on benches whose records and pages are often damaged.
fn restarts<B: Bench>(rounds: usize, met: &mut Met) -> Group {
    let mut group = Group::new("bench restarts", &[0, 1, 2, 3, 4, 11, 12, 15]);
    let mut random = Random::new(42);
    for _ in 0..rounds * RESTARTED {
        let scene = Scene::any(&mut random);
        for _ in 0..RESTARTS {
            let line = scene::restart_line(&mut random);
            let scene = scene.damaged(&mut random, 2);
            meet::<B>(&mut random, &mut group, met, &scene, &line);
        }
    }
    group
}

/// This scene meets this line, and the question.
fn meet<B: Bench>(
    random: &mut Random,
    group: &mut Group,
    met: &mut Met,
    scene: &Scene,
    line: &[u8],
) {
    let buffers = Buffers::any(random, scene, line);
    let number = buffers.compare_line::<B>(group).reply.end.number;
    see_pages(&mut met.calls.pages, number, scene, line);
    if makes_step(number) {
        see_step(&mut met.calls, scene, line);
    }
    ask::<B>(met, scene, &buffers);
}

/// The question alone, often where there are few frames to name, or none.
fn questions<B: Bench>(rounds: usize, met: &mut Met) {
    let mut random = Random::new(41);
    for _ in 0..rounds * ASKED {
        let mut scene = Scene::any(&mut random);
        let left = random.pick(&[0, 1, 2, book::PLACES]);
        scene.thin(&mut random, left);
        for _ in 0..QUESTIONS {
            let scene = scene.damaged(&mut random, 6);
            let buffers = Buffers::any(&mut random, &scene, &[]);
            let named = ask::<B>(met, &scene, &buffers);
            met.questions.see(buffers.shown(), &named);
        }
    }
}

/// This scene meets the question, in these buffers. Gives the right answer.
fn ask<B: Bench>(met: &mut Met, scene: &Scene, buffers: &Buffers) -> Named {
    let named = met.questions.compare::<B>(buffers);
    for (record, page) in scene.records.iter().zip(&scene.pages) {
        let call = pages::Call::Question;
        met.calls.pages.see(call, named.number, record, page);
    }
    named
}

/// Walks from scenes of all sorts.
fn walks<B: Bench>(rounds: usize, met: &mut Met) -> Walks {
    let mut walks = Walks::new();
    let mut random = Random::new(43);
    for _ in 0..rounds * WALKS {
        let scene = Scene::any(&mut random);
        let from = Buffers::exact(&mut random, &scene, b"520000");
        walks.compare::<B>(&from, &mut met.questions);
    }
    walks
}

/// A line that answered this number met the pages of this scene.
fn see_pages(pages: &mut Seen, number: u8, scene: &Scene, line: &[u8]) {
    let restarted = restarted(line);
    for side in Side::BOTH {
        let role = match restarted {
            Some(end) if end == side => Role::Restarted,
            Some(_) => Role::Beside,
            None => Role::Asked,
        };
        let call = match scene.count {
            book::PLACES => pages::Call::LineWithFullBook(role),
            _ => pages::Call::Line(role),
        };
        let end = side.index();
        pages.see(call, number, &scene.records[end], &scene.pages[end]);
    }
}

/// Notes the step that this line makes, if it makes one.
fn see_step(met: &mut met::Met, scene: &Scene, line: &[u8]) {
    if let Some((side, message)) = meeting(scene.used(), line) {
        let record = &scene.records[side.index()];
        met.steps.see(record, &message);
        met.pages.see_request(record, &message);
    }
}
