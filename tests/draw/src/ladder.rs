//! Ladder diagrams: a run of the bench, the ends side by side and time running downwards.

use crate::label::{Beside, Label};
use crate::plane::{direction, meet, point, Point, Shape};
use crate::run::{Event, Flight, Run};
use crate::svg::{self, line, Look, Stroke, Svg, SIZE};
use reference::bench::Side;

const WIDTH: f64 = 860.0;
/// The boxes with the names of the ends.
const BOX: [f64; 2] = [140.0, 34.0];
const BOX_TOP: f64 = 20.0;
/// The first event, and from one event to the next.
const FIRST: f64 = 96.0;
const STEP: f64 = 62.0;
/// From the last event to the end of the lines, and on to the end of the picture.
const AFTER: f64 = 34.0;
const MARGIN: f64 = 14.0;
/// From an arrow to the base line of its label, and what else the label keeps free.
const LIFT: f64 = 6.0;
const SPACE: f64 = 3.0;
/// From the head of an arrow to the event, whose dot it would cover.
const SHORT: f64 = 4.0;
/// Half the size of the cross at the end of a lost frame.
const CROSS: f64 = 6.0;
/// Where on its arrow a label may stand, in parts of the way; the first that is free counts.
const PARTS: [f64; 9] = [0.5, 0.42, 0.58, 0.34, 0.66, 0.26, 0.74, 0.2, 0.8];

/// A ladder diagram: its file, its title and its bench lines.
pub struct Ladder {
    pub file: &'static str,
    title: &'static str,
    lines: &'static str,
}

pub const LADDERS: [Ladder; 4] = [
    Ladder {
        file: "opening.svg",
        title: "A call that opens",
        lines: "5141 5040 5045 520001 520002 520003 5044026f6b 520004 520005",
    },
    Ladder {
        file: "refused-call.svg",
        title: "A refused call",
        lines: include_str!("../../../examples/story.in"),
    },
    Ladder {
        file: "hung-up.svg",
        title: "A call that is hung up",
        lines: "5140 5040 520000 5043 520003 520004",
    },
    Ladder {
        file: "restarted.svg",
        title: "A partner that restarts",
        lines: "5141 5040 520000 520001 520002 5351 5044026f6b 520003 520004",
    },
];

/// A frame's arrow.
struct Arrow<'a> {
    flight: &'a Flight,
    from: Point,
    to: Point,
}

impl Ladder {
    /// The diagram as SVG.
    pub fn picture(&self) -> Result<String, String> {
        let run = Run::of(self.lines)?;
        let end = lines_end(&run);
        let mut picture = Svg::new(WIDTH, end + MARGIN, self.title, &description(&run));
        for side in Side::BOTH {
            draw_end(&mut picture, side, end);
        }
        let arrows: Vec<_> = run.flights.iter().map(Arrow::of).collect();
        for arrow in &arrows {
            arrow.draw(&mut picture);
        }
        for (place, event) in run.events.iter().enumerate() {
            picture.dot(spot(event.side, place));
        }
        draw_labels(&mut picture, &run, &arrows)?;
        Ok(picture.finish())
    }
}

/// The name of an end.
fn end_name(side: Side) -> &'static str {
    match side {
        Side::A => "dock",
        Side::B => "stock room",
    }
}

/// Where an end's line stands.
fn x(side: Side) -> f64 {
    match side {
        Side::A => 225.0,
        Side::B => WIDTH - 225.0,
    }
}

/// Where an event stands.
fn spot(side: Side, place: usize) -> Point {
    point(x(side), FIRST + STEP * place as f64)
}

/// Where the ends' lines end.
fn lines_end(run: &Run) -> f64 {
    FIRST + STEP * (run.events.len() - 1) as f64 + AFTER
}

/// An end's name in a box, and its line.
fn draw_end(picture: &mut Svg, side: Side, end: f64) {
    let [width, height] = BOX;
    let x = x(side);
    let bottom = BOX_TOP + height;
    picture.line(&[point(x, bottom), point(x, end)], Stroke::Faint);
    picture.round_box(point(x - width / 2.0, BOX_TOP), width, height);
    let text = format!("{} ({side:?})", end_name(side));
    picture.name(point(x, BOX_TOP + height / 2.0), &text);
}

/// What stands beside an event: the request, what it leaves, and the notice.
fn label(event: &Event, place: usize) -> Label {
    let request = event.request.iter().map(|text| line(text, Look::Request));
    let left = line(&event.left, Look::Plain);
    let notice = (!event.notice.is_empty()).then(|| notice_text(event));
    let notice = notice.map(|text| line(text, Look::Faint));
    Label {
        at: spot(event.side, place),
        side: match event.side {
            Side::A => Beside::Left,
            Side::B => Beside::Right,
        },
        lines: request.chain([left]).chain(notice).collect(),
    }
}

fn notice_text(event: &Event) -> String {
    format!("notice {}", event.notice)
}

impl<'a> Arrow<'a> {
    /// A frame that is lost comes half way to where it would arrive with the next event.
    fn of(flight: &'a Flight) -> Self {
        let from = spot(flight.sender, flight.from);
        let arrival = flight.to.unwrap_or(flight.from + 1);
        let whole = spot(flight.sender.other(), arrival);
        let to = match flight.to {
            Some(_) => whole.moved(direction(from, whole), -SHORT, 0.0),
            None => from.towards(whole, 0.5),
        };
        Self { flight, from, to }
    }

    fn draw(&self, picture: &mut Svg) {
        let stroke = match self.flight {
            Flight { to: None, .. } => Stroke::Plain,
            Flight { again: true, .. } => Stroke::DashedArrow,
            _ => Stroke::Arrow,
        };
        picture.line(&[self.from, self.to], stroke);
        if self.flight.to.is_none() {
            self.draw_cross(picture);
        }
    }

    /// The cross at the end of a lost frame.
    fn draw_cross(&self, picture: &mut Svg) {
        let Point { x, y } = self.to;
        for rise in [CROSS, -CROSS] {
            let ends = [point(x - CROSS, y + rise), point(x + CROSS, y - rise)];
            picture.line(&ends, Stroke::Plain);
        }
    }

    /// What it says.
    fn text(&self) -> String {
        let Flight { frame, again, .. } = self.flight;
        match again {
            true => format!("{frame} again"),
            false => frame.clone(),
        }
    }

    /// What stands beyond the cross of a lost frame.
    fn remark(&self) -> Option<Label> {
        let side = match self.flight.sender {
            Side::A => Beside::Right,
            Side::B => Beside::Left,
        };
        self.flight.to.is_none().then(|| Label {
            at: self.to,
            side,
            lines: vec![line("lost", Look::Faint)],
        })
    }

    /// The direction of its label, which runs from left to right.
    fn direction(&self) -> Point {
        match self.from.x < self.to.x {
            true => direction(self.from, self.to),
            false => direction(self.to, self.from),
        }
    }

    /// The room of its label, this part of the way along it.
    fn room(&self, part: f64) -> Shape {
        let middle = self.from.towards(self.to, part);
        let half = svg::width(&line(self.text(), Look::Plain)) / 2.0 + SPACE;
        let (bottom, top) = (-SPACE, -LIFT - SIZE);
        let corners = [(-half, bottom), (half, bottom), (half, top), (-half, top)];
        let corner = |(along, across)| middle.moved(self.direction(), along, across);
        corners.into_iter().map(corner).collect()
    }

    /// The first part of the way where its label meets nothing of what is there.
    fn free_part(&self, taken: &[Shape]) -> Result<f64, String> {
        let is_free = |part: &f64| !meets_any(&self.room(*part), taken);
        let part = PARTS.into_iter().find(is_free);
        part.ok_or_else(|| format!("no room for the label {}", self.text()))
    }

    /// Its label along it, this part of the way.
    fn draw_label(&self, picture: &mut Svg, part: f64) {
        let direction = self.direction();
        let middle = self.from.towards(self.to, part);
        let base = middle.moved(direction, 0.0, -LIFT);
        picture.turned_text(base, direction, &line(self.text(), Look::Plain));
    }
}

/// All labels, each where it meets no line, no arrow and no other label.
fn draw_labels(picture: &mut Svg, run: &Run, arrows: &[Arrow]) -> Result<(), String> {
    let mut taken = lines(lines_end(run));
    taken.extend(arrows.iter().map(|arrow| vec![arrow.from, arrow.to]));
    let events = run.events.iter().enumerate();
    let beside = events.map(|(place, event)| label(event, place));
    for label in beside.chain(arrows.iter().filter_map(Arrow::remark)) {
        let room = label.shape();
        if meets_any(&room, &taken) {
            return Err(format!("no room for the label {:?}", label.lines));
        }
        taken.push(room);
        label.draw(picture);
    }
    for arrow in arrows {
        let part = arrow.free_part(&taken)?;
        taken.push(arrow.room(part));
        arrow.draw_label(picture, part);
    }
    Ok(())
}

/// The ends' lines and the left and the right edge of the picture, down to there.
fn lines(end: f64) -> Vec<Shape> {
    let places = [0.0, x(Side::A), x(Side::B), WIDTH];
    let line = |x| vec![point(x, 0.0), point(x, end)];
    places.map(line).to_vec()
}

/// Does the room meet any of these shapes?
fn meets_any(room: &[Point], taken: &[Shape]) -> bool {
    taken.iter().any(|shape| meet(room, shape))
}

/// The whole run in words.
fn description(run: &Run) -> String {
    let sentences: Vec<_> = (0..run.events.len())
        .map(|place| sentence(run, place))
        .collect();
    sentences.join(" ")
}

/// An event in words: what happens, what it leaves and what it sends.
fn sentence(run: &Run, place: usize) -> String {
    let event = &run.events[place];
    let arriving = run.flights.iter().find(|flight| flight.to == Some(place));
    let sent = run.flights.iter().find(|flight| flight.from == place);
    let happens = event.request.iter().cloned();
    let arrives = arriving.map(|flight| format!("{} arrives", flight.frame));
    let notice = (!event.notice.is_empty()).then(|| notice_text(event));
    let sends = sent.map(|flight| match flight.to {
        Some(_) => format!("sends {}", flight.frame),
        None => format!("sends {}, which is lost", flight.frame),
    });
    let parts = happens
        .chain(arrives)
        .chain([event.left.clone()])
        .chain(notice)
        .chain(sends);
    let parts: Vec<_> = parts.collect();
    format!("{}: {}.", end_name(event.side), parts.join("; "))
}

#[cfg(test)]
mod tests {
    use super::*;

    /// How often the picture of this file has this text.
    fn count(file: &str, text: &str) -> usize {
        let ladder = LADDERS.iter().find(|ladder| ladder.file == file).unwrap();
        ladder.picture().unwrap().matches(text).count()
    }

    fn last_event(file: &str) -> Event {
        let ladder = LADDERS.iter().find(|ladder| ladder.file == file).unwrap();
        Run::of(ladder.lines).unwrap().events.pop().unwrap()
    }

    #[test]
    fn the_opening_loses_a_call_and_ends_open() {
        assert_eq!(count("opening.svg", ">lost<"), 1);
        assert_eq!(count("opening.svg", ">CRAO(1,0)<"), 2);
        assert_eq!(count("opening.svg", ">ACK(1,1,1)<"), 1);
        assert_eq!(count("opening.svg", "stroke-dasharray"), 0);
        assert_eq!(count("opening.svg", "marker-end"), 5);
        assert_eq!(last_event("opening.svg").left, "open, L = 1, D = 1");
    }

    #[test]
    fn the_refused_call_is_delivered_twice_and_ends_with_notice_2() {
        assert_eq!(count("refused-call.svg", ">lost<"), 1);
        assert_eq!(count("refused-call.svg", ">CRAO(1,0) again<"), 1);
        assert_eq!(count("refused-call.svg", "stroke-dasharray"), 1);
        assert_eq!(count("refused-call.svg", "marker-end"), 5);
        let last = last_event("refused-call.svg");
        assert_eq!((last.side, last.notice), (Side::A, "2 rejected"));
        assert_eq!(last.left, "closed, L = 1, D = 0");
    }

    #[test]
    fn the_hung_up_call_never_opens_and_ends_with_notice_4() {
        assert_eq!(count("hung-up.svg", ">lost<"), 2);
        assert_eq!(count("hung-up.svg", ">CRAO(1,1)<"), 1);
        assert_eq!(count("hung-up.svg", ">DR(1,1)<"), 1);
        assert_eq!(count("hung-up.svg", ">DRACK(1,1)<"), 1);
        assert_eq!(count("hung-up.svg", ">open,"), 0);
        assert_eq!(count("hung-up.svg", ">notice 2 rejected<"), 1);
        assert_eq!(count("hung-up.svg", "marker-end"), 3);
        let last = last_event("hung-up.svg");
        assert_eq!((last.side, last.notice), (Side::A, "4 close finished"));
        assert_eq!(last.left, "closed, L = 1, D = 0");
    }

    #[test]
    fn the_partner_that_restarts_rejects_a_block_and_the_other_end_closes_with_notice_3() {
        assert_eq!(count("restarted.svg", ">lost<"), 0);
        assert_eq!(count("restarted.svg", ">power lost, restart<"), 1);
        assert_eq!(count("restarted.svg", ">DATA(1,1,0)<"), 1);
        assert_eq!(count("restarted.svg", ">REJ(16,1)<"), 1);
        assert_eq!(count("restarted.svg", ">closed, L = 16, D = 0<"), 2);
        let last = last_event("restarted.svg");
        assert_eq!((last.side, last.notice), (Side::A, "3 closed by partner"));
        assert_eq!(last.left, "closed, L = 1, D = 0");
    }

    #[test]
    fn a_label_without_room_is_an_error() {
        let run = Run::of("5040 520000").unwrap();
        let arrow = Arrow::of(&run.flights[0]);
        let all = crate::plane::rectangle(point(0.0, 0.0), WIDTH, 1000.0);
        assert_eq!(arrow.free_part(&[]), Ok(0.5));
        assert!(arrow.free_part(&[all]).is_err());
    }
}
