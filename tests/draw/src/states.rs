//! The diagram of the states: a box for each state, an arrow for each change from one to another.
//!
//! Which arrows there are and what they say comes from the table. Where they stand is fixed here.
//! An arrow without a place, a place without an arrow and a label without room are errors: after
//! a change of the protocol the diagram has to be looked at.

use crate::label::Beside::{self, Above, Below, Left, Right};
use crate::label::Label;
use crate::name;
use crate::plane::{self, meet, point, Point, Shape};
use crate::svg::{line, Line, Look, Stroke, Svg};
use crate::table::Row;
use reference::State::{self, Answering, Calling, Closed, Closing, Listening, Open};

const TITLE: &str = "The states of an end";
const WIDTH: i32 = 960;
const HEIGHT: i32 = 684;
/// Where the legend stands.
const LEGEND: (i32, i32) = (640, 70);

/// Each state's box: left, top, width, height.
const BOXES: [(State, [i32; 4]); 6] = [
    (Closed, [20, 36, 120, 628]),
    (Listening, [500, 56, 120, 48]),
    (Calling, [500, 476, 120, 48]),
    (Answering, [500, 191, 120, 48]),
    (Open, [500, 326, 120, 48]),
    (Closing, [820, 326, 120, 48]),
];

/// Each change's arrow: its path, and the side of it on which its label stands.
const PLACES: &[Place] = &[
    place(Closed, Listening, &[(140, 69), (500, 69)], Above),
    place(Listening, Closed, &[(500, 91), (140, 91)], Below),
    place(Listening, Answering, &[(545, 104), (545, 191)], Left),
    place(Answering, Listening, &[(575, 191), (575, 104)], Right),
    place(Answering, Closed, &[(500, 215), (140, 215)], Above),
    place(Answering, Open, &[(560, 239), (560, 326)], Right),
    place(Open, Closed, &[(500, 350), (140, 350)], Above),
    place(Open, Closing, &[(620, 350), (820, 350)], Above),
    place(Calling, Open, &[(560, 476), (560, 374)], Right),
    place(Closed, Calling, &[(140, 489), (500, 489)], Above),
    place(Calling, Closed, &[(500, 511), (140, 511)], Below),
    place(
        Calling,
        Closing,
        &[(620, 500), (896, 500), (896, 374)],
        Above,
    ),
    place(
        Closing,
        Closed,
        &[(924, 374), (924, 649), (140, 649)],
        Above,
    ),
];

/// The points through which an arrow goes.
type Path = &'static [(i32, i32)];

/// Where an arrow stands. Its label stands beside the middle of the longest part of its path.
struct Place {
    from: State,
    to: State,
    path: Path,
    side: Beside,
}

const fn place(from: State, to: State, path: Path, side: Beside) -> Place {
    Place {
        from,
        to,
        path,
        side,
    }
}

/// An arrow with all that it says.
struct Arrow {
    from: State,
    to: State,
    path: Vec<Point>,
    label: Label,
}

/// The diagram of these rows, as SVG.
pub fn picture(rows: &[Row]) -> Result<String, String> {
    ask_places(rows)?;
    let arrows: Vec<_> = PLACES.iter().map(|place| Arrow::of(place, rows)).collect();
    let legend = legend(rows)?;
    ask_room(&arrows, &legend)?;
    let [width, height] = [WIDTH, HEIGHT].map(f64::from);
    let mut picture = Svg::new(width, height, TITLE, &description(&arrows));
    for (state, measures) in BOXES {
        draw_box(&mut picture, state, measures);
    }
    for arrow in &arrows {
        picture.line(&arrow.path, Stroke::Arrow);
        arrow.label.draw(&mut picture);
    }
    legend.draw(&mut picture);
    Ok(picture.finish())
}

/// Has each change of state a place, and each place a change?
fn ask_places(rows: &[Row]) -> Result<(), String> {
    for row in rows.iter().filter(|row| row.changes_state()) {
        if !PLACES.iter().any(|place| place.is_of(row)) {
            let words = change(row.state, row.outcome.next);
            return Err(format!("the diagram has no place for the arrow {words}"));
        }
    }
    for place in PLACES {
        if !rows.iter().any(|row| place.is_of(row)) {
            let words = change(place.from, place.to);
            return Err(format!(
                "the diagram has a place for the arrow {words}, but no row has it"
            ));
        }
    }
    Ok(())
}

/// Does each label lie in the picture, clear of all boxes, arrows and other labels?
fn ask_room(arrows: &[Arrow], legend: &Label) -> Result<(), String> {
    let mut labels = vec![("the legend".to_string(), legend.shape())];
    for arrow in arrows {
        let words = format!("the label of the arrow {}", change(arrow.from, arrow.to));
        labels.push((words, arrow.label.shape()));
    }
    let mut taken = lines_and_boxes(arrows);
    for (words, shape) in labels {
        if taken.iter().any(|other| meet(&shape, other)) {
            return Err(format!("{words} has no room in the diagram"));
        }
        taken.push(shape);
    }
    Ok(())
}

/// All that is drawn besides labels, and the edges of the picture.
fn lines_and_boxes(arrows: &[Arrow]) -> Vec<Shape> {
    let boxes = BOXES.iter().map(|(_, measures)| rectangle(*measures));
    let parts = arrows.iter().flat_map(|arrow| arrow.path.windows(2));
    let picture = rectangle([0, 0, WIDTH, HEIGHT]);
    let edges = plane::sides(&picture).map(|(from, to)| vec![from, to]);
    boxes
        .chain(parts.map(<[Point]>::to_vec))
        .chain(edges)
        .collect()
}

impl Place {
    /// Is it the place of the change that this row makes?
    fn is_of(&self, row: &Row) -> bool {
        (self.from, self.to) == (row.state, row.outcome.next)
    }

    /// The middle of the longest part of its path.
    fn middle(&self) -> Point {
        let length = |part: &&[(i32, i32)]| {
            let [width, height] = [part[1].0 - part[0].0, part[1].1 - part[0].1];
            width * width + height * height
        };
        let longest = self.path.windows(2).max_by_key(length);
        let longest = longest.expect("a path has two points");
        at(longest[0]).towards(at(longest[1]), 0.5)
    }
}

impl Arrow {
    /// The arrow in this place, with what these rows say of its change.
    fn of(place: &Place, rows: &[Row]) -> Self {
        let rows = rows.iter().filter(|row| place.is_of(row));
        Self {
            from: place.from,
            to: place.to,
            path: place.path.iter().copied().map(at).collect(),
            label: Label {
                at: place.middle(),
                side: place.side,
                lines: rows.map(words).collect(),
            },
        }
    }

    /// What it says, for those who cannot see it.
    fn description(&self) -> String {
        let text = |line: &Line| line.iter().map(|span| &span.text[..]).collect::<String>();
        let lines: Vec<_> = self.label.lines.iter().map(text).collect();
        format!("{}: {}.", change(self.from, self.to), lines.join("; "))
    }
}

/// What a row says at its arrow: requests or frames, the condition, the frame sent, the notice.
fn words(row: &Row) -> Line {
    let look = match row.is_request() {
        true => Look::Request,
        false => Look::Plain,
    };
    let mut words = line(alternatives(&row.triggers()), look);
    let when = row.when.to_string();
    let when = (!when.is_empty()).then(|| format!(", {when}"));
    let effect = effect(row).map(|effect| format!(" / {effect}"));
    let rest: String = when.into_iter().chain(effect).collect();
    if !rest.is_empty() {
        words.extend(line(rest, Look::Plain));
    }
    words
}

/// The frame sent and the notice, as far as there are any.
fn effect(row: &Row) -> Option<String> {
    let sends = row.outcome.sends();
    let notice = match row.outcome.notice {
        0 => String::new(),
        number => format!("notice {number}"),
    };
    let effect: Vec<_> = [sends, notice]
        .into_iter()
        .filter(|text| !text.is_empty())
        .collect();
    (!effect.is_empty()).then(|| effect.join(", "))
}

/// Names in a row, with "or" before the last.
fn alternatives(names: &[String]) -> String {
    match names {
        [first @ .., last] if !first.is_empty() => format!("{} or {last}", first.join(", ")),
        _ => names.concat(),
    }
}

/// The words for a change of state.
fn change(from: State, to: State) -> String {
    format!("from {} to {}", name::state(from), name::state(to))
}

/// The whole diagram in words.
fn description(arrows: &[Arrow]) -> String {
    let sentences: Vec<_> = arrows.iter().map(Arrow::description).collect();
    sentences.join(" ")
}

/// A state's box with its number and name.
fn draw_box(picture: &mut Svg, state: State, measures: [i32; 4]) {
    let [left, top, width, height] = measures.map(f64::from);
    picture.round_box(point(left, top), width, height);
    let text = format!("{} {}", state as u8, name::state(state));
    let middle = point(left + width / 2.0, top + height / 2.0);
    picture.name(middle, &text);
}

/// How to read the labels, with the notices that they tell.
fn legend(rows: &[Row]) -> Result<Label, String> {
    let faint = |text: &str| line(text, Look::Faint);
    let mut requests = line("bold", Look::Request);
    requests.extend(faint(": a request; else a frame received"));
    let mut lines = vec![requests, faint("after the slash: frame sent, notice")];
    for notice in notices(rows)? {
        lines.push(faint(&format!("notice {notice}")));
    }
    Ok(Label {
        at: at(LEGEND),
        side: Right,
        lines,
    })
}

/// The notices of all changes of state, in their order.
fn notices(rows: &[Row]) -> Result<Vec<&'static str>, String> {
    let mut numbers: Vec<_> = rows
        .iter()
        .filter(|row| row.changes_state() && row.outcome.notice > 0)
        .map(|row| row.outcome.notice)
        .collect();
    numbers.sort();
    numbers.dedup();
    numbers.into_iter().map(name::notice).collect()
}

fn at((x, y): (i32, i32)) -> Point {
    point(f64::from(x), f64::from(y))
}

fn rectangle(measures: [i32; 4]) -> Shape {
    let [left, top, width, height] = measures.map(f64::from);
    plane::rectangle(point(left, top), width, height)
}

#[cfg(test)]
mod tests {
    use super::*;
    use crate::table;

    fn rows() -> Vec<Row> {
        table::rows().unwrap()
    }

    /// A row that leads from listening to calling, which no row of the table does.
    fn strange_row() -> Row {
        let rows = rows();
        let leads_to_calling = |row: &&Row| row.changes_state() && row.outcome.next == Calling;
        let row = rows.iter().find(leads_to_calling).unwrap();
        Row {
            state: Listening,
            ..row.clone()
        }
    }

    #[test]
    fn every_state_has_a_box_and_is_reached_from_closed() {
        assert!(State::ALL
            .iter()
            .all(|state| BOXES.iter().any(|(other, _)| state == other)));
        ask_places(&rows()).unwrap();
        let mut reached = vec![Closed];
        while let Some(place) = PLACES
            .iter()
            .find(|place| reached.contains(&place.from) && !reached.contains(&place.to))
        {
            reached.push(place.to);
        }
        assert_eq!(reached.len(), State::ALL.len());
    }

    #[test]
    fn an_arrow_without_a_place_is_an_error() {
        let mut rows = rows();
        rows.push(strange_row());
        let error = picture(&rows).unwrap_err();
        assert!(error.contains("no place for the arrow from listening to calling"));
    }

    #[test]
    fn a_place_without_an_arrow_is_an_error() {
        let mut rows = rows();
        rows.retain(|row| row.outcome.next != Closing);
        let error = picture(&rows).unwrap_err();
        assert!(error.contains("from open to closing, but no row has it"));
    }

    #[test]
    fn a_label_without_room_is_an_error() {
        let mut rows = rows();
        let hanging_up = rows
            .iter()
            .find(|row| (row.state, row.outcome.next) == (Open, Closed));
        let hanging_up = hanging_up.unwrap().clone();
        rows.extend(vec![hanging_up; 10]);
        let error = picture(&rows).unwrap_err();
        assert!(error.contains("the arrow from open to closed has no room"));
    }

    #[test]
    fn a_label_names_triggers_condition_frame_and_notice() {
        let text = |from, to| {
            let place = PLACES
                .iter()
                .find(|place| (place.from, place.to) == (from, to));
            Arrow::of(place.unwrap(), &rows()).description()
        };
        assert_eq!(
            text(Calling, Open),
            "from calling to open: CRAO or CRPO, r = L / CRACK(L,s), notice 1; \
             CRACK, r = L / notice 1."
        );
        assert_eq!(
            text(Closed, Calling),
            "from closed to calling: connect / CRAO(L,0)."
        );
        assert_eq!(
            text(Calling, Closing),
            "from calling to closing: close, D ≥ 1 / DR(L,D)."
        );
        assert_eq!(
            text(Calling, Closed),
            "from calling to closed: close, D = 0 / notice 4; REJ, r = L / notice 2; \
             DR, r = L / DRACK(L,s), notice 2."
        );
    }

    #[test]
    fn requests_look_different_and_text_is_escaped() {
        let text = picture(&rows()).unwrap();
        assert!(text.contains(r#"font-weight="bold">connect</tspan>"#));
        assert!(text.contains(r#"font-weight="normal">CRAO or CRPO</tspan>"#));
        assert!(text.contains(", s &gt; D or r = L / DRACK(L,s), notice 4</tspan>"));
    }

    #[test]
    fn names_are_joined_by_or() {
        let joined = |names: &[&str]| {
            let names: Vec<_> = names.iter().map(ToString::to_string).collect();
            alternatives(&names)
        };
        assert_eq!(joined(&["DR"]), "DR");
        assert_eq!(joined(&["REJ", "RESET"]), "REJ or RESET");
        assert_eq!(joined(&["CRACK", "DATA", "ACK"]), "CRACK, DATA or ACK");
    }
}
