//! Pictures as SVG text.

use crate::plane::{point, Point};
use std::fmt::Write;

/// The size of the letters.
pub const SIZE: f64 = 13.0;
/// The colours.
const PAPER: &str = "#ffffff";
const INK: &str = "#1c2733";
const REQUEST: &str = "#1a56a0";
const FAINT: &str = "#66727f";
const FILL: &str = "#e9f0f8";
/// The part of the letters' size that one of them is wide, if not drawn bold and if it is. Rather
/// too much than too little: which font is used is up to whoever shows the picture.
const WIDTH: f64 = 0.58;
const BOLD_WIDTH: f64 = 0.65;

/// A picture that is being drawn.
pub struct Svg {
    text: String,
}

/// Where a text stands with respect to its point.
#[derive(Clone, Copy, Debug, PartialEq, Eq)]
pub enum Anchor {
    Start,
    Middle,
    End,
}

/// How a piece of text looks.
#[derive(Clone, Copy, Debug, PartialEq, Eq)]
pub enum Look {
    Plain,
    /// A name in a box.
    Name,
    /// The name of a request.
    Request,
    /// A remark.
    Faint,
}

/// A piece of a line of text.
#[derive(Clone, Debug, PartialEq, Eq)]
pub struct Span {
    pub text: String,
    pub look: Look,
}

/// A line of text.
pub type Line = Vec<Span>;

/// How a line is drawn.
#[derive(Clone, Copy, Debug, PartialEq, Eq)]
pub enum Stroke {
    /// With an arrow head at its end.
    Arrow,
    /// The same, dashed.
    DashedArrow,
    /// Without an arrow head.
    Plain,
    /// Thin and faint.
    Faint,
}

impl Svg {
    /// An empty picture of this size. Title and description are for those who cannot see it.
    pub fn new(width: f64, height: f64, title: &str, description: &str) -> Self {
        let text = format!(
            r##"<svg xmlns="http://www.w3.org/2000/svg" width="{width}" height="{height}"
  viewBox="0 0 {width} {height}" role="img" aria-labelledby="title description">
<title id="title">{}</title>
<desc id="description">{}</desc>
<defs>
<marker id="head" viewBox="0 0 10 10" refX="9.5" refY="5" orient="auto"
  markerUnits="userSpaceOnUse" markerWidth="9" markerHeight="9">
<path d="M 0 1 L 10 5 L 0 9 z" fill="{INK}"/>
</marker>
</defs>
<rect width="{width}" height="{height}" fill="{PAPER}"/>
"##,
            escape(title),
            escape(description),
        );
        Self { text }
    }

    /// The picture as text.
    pub fn finish(self) -> String {
        self.text + "</svg>\n"
    }

    /// A box with round corners, with this left upper corner.
    pub fn round_box(&mut self, corner: Point, width: f64, height: f64) {
        let [x, y, width, height] = [corner.x, corner.y, width, height].map(number);
        let place = format!(r#"x="{x}" y="{y}" width="{width}" height="{height}" rx="10""#);
        self.add(format_args!(
            r#"<rect {place} fill="{FILL}" stroke="{INK}" stroke-width="1.5"/>"#
        ));
    }

    /// A dot on a line.
    pub fn dot(&mut self, at: Point) {
        let [x, y] = [at.x, at.y].map(number);
        self.add(format_args!(
            r#"<circle cx="{x}" cy="{y}" r="3.5" fill="{INK}"/>"#
        ));
    }

    /// A line through these points.
    pub fn line(&mut self, points: &[Point], stroke: Stroke) {
        let (colour, width) = match stroke {
            Stroke::Faint => (FAINT, 1.0),
            _ => (INK, 1.5),
        };
        let more = match stroke {
            Stroke::Arrow => r#" marker-end="url(#head)""#,
            Stroke::DashedArrow => r#" stroke-dasharray="7 5" marker-end="url(#head)""#,
            Stroke::Plain | Stroke::Faint => "",
        };
        let pair = |at: &Point| format!("{},{}", number(at.x), number(at.y));
        let points: Vec<_> = points.iter().map(pair).collect();
        let points = points.join(" ");
        self.add(format_args!(
            r#"<polyline points="{points}" fill="none" stroke="{colour}" stroke-width="{width}"{more}/>"#
        ));
    }

    /// A line of text at this point, which lies on the letters' base line.
    pub fn text(&mut self, at: Point, anchor: Anchor, line: &[Span]) {
        let [x, y] = [at.x, at.y].map(number);
        self.put_text(&format!(r#"x="{x}" y="{y}""#), anchor, line);
    }

    /// A name about this point, which is the middle of a box.
    pub fn name(&mut self, middle: Point, text: &str) {
        let base = point(middle.x, middle.y + 0.35 * SIZE);
        self.text(base, Anchor::Middle, &line(text, Look::Name));
    }

    /// A line of text about this point, written in this direction.
    pub fn turned_text(&mut self, at: Point, direction: Point, line: &[Span]) {
        let turn = [direction.x, direction.y, -direction.y, direction.x];
        let [a, b, c, d] = turn.map(|part| format!("{part:.4}"));
        let [x, y] = [at.x, at.y].map(number);
        let place = format!(r#"transform="matrix({a} {b} {c} {d} {x} {y})""#);
        self.put_text(&place, Anchor::Middle, line);
    }

    /// A line of text whose place is said by these attributes.
    fn put_text(&mut self, place: &str, anchor: Anchor, line: &[Span]) {
        let anchor = match anchor {
            Anchor::Start => "start",
            Anchor::Middle => "middle",
            Anchor::End => "end",
        };
        let font = format!(r#"font-family="sans-serif" font-size="{SIZE}" xml:space="preserve""#);
        let spans: String = line.iter().map(Span::svg).collect();
        self.add(format_args!(
            r#"<text {place} text-anchor="{anchor}" {font}>{spans}</text>"#
        ));
    }

    /// Adds an element on a line of its own.
    fn add(&mut self, element: std::fmt::Arguments) {
        writeln!(self.text, "{element}").expect("a text takes more text");
    }
}

impl Span {
    fn svg(&self) -> String {
        let text = escape(&self.text);
        let (colour, weight) = match self.look {
            Look::Plain => (INK, "normal"),
            Look::Name => (INK, "bold"),
            Look::Request => (REQUEST, "bold"),
            Look::Faint => (FAINT, "normal"),
        };
        format!(r#"<tspan fill="{colour}" font-weight="{weight}">{text}</tspan>"#)
    }

    /// About how wide it is.
    fn width(&self) -> f64 {
        let of_letter = match self.look {
            Look::Plain | Look::Faint => WIDTH,
            Look::Name | Look::Request => BOLD_WIDTH,
        };
        self.text.chars().count() as f64 * of_letter * SIZE
    }
}

/// A line of one piece.
pub fn line(text: impl Into<String>, look: Look) -> Line {
    let text = text.into();
    vec![Span { text, look }]
}

/// About how wide a line of text is.
pub fn width(line: &[Span]) -> f64 {
    line.iter().map(Span::width).sum()
}

/// The text with what has a meaning in SVG replaced.
fn escape(text: &str) -> String {
    let mut escaped = String::new();
    for character in text.chars() {
        match character {
            '&' => escaped.push_str("&amp;"),
            '<' => escaped.push_str("&lt;"),
            '>' => escaped.push_str("&gt;"),
            '"' => escaped.push_str("&quot;"),
            _ => escaped.push(character),
        }
    }
    escaped
}

/// A number with at most two decimals.
fn number(value: f64) -> String {
    let rounded = (value * 100.0).round() / 100.0;
    rounded.to_string()
}

#[cfg(test)]
mod tests {
    use super::*;

    #[test]
    fn text_is_escaped() {
        assert_eq!(
            escape("s > D & \"r\" < L"),
            "s &gt; D &amp; &quot;r&quot; &lt; L"
        );
        let mut svg = Svg::new(10.0, 10.0, "a < b", "b & c");
        svg.text(point(1.0, 2.0), Anchor::Start, &line("c > d", Look::Plain));
        let text = svg.finish();
        assert!(text.contains(">a &lt; b</title>"));
        assert!(text.contains(">b &amp; c</desc>"));
        assert!(text.contains(">c &gt; d</tspan>"));
    }

    #[test]
    fn numbers_have_at_most_two_decimals() {
        assert_eq!(number(12.0), "12");
        assert_eq!(number(0.5), "0.5");
        assert_eq!(number(1.0 / 3.0), "0.33");
    }

    #[test]
    fn a_wider_text_is_thought_wider() {
        let width = |text, look| width(&line(text, look));
        assert!(width("ab", Look::Plain) > width("a", Look::Plain));
        assert!(width("ab", Look::Request) > width("ab", Look::Plain));
        assert_eq!(width("≠", Look::Plain), width("=", Look::Plain));
    }
}
