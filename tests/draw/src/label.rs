//! Labels: a few lines of text beside a point.

use crate::plane::{point, rectangle, Point, Shape};
use crate::svg::{self, Anchor, Line, Svg, SIZE};

/// From one line of text to the next.
const LINE: f64 = 17.0;
/// From the point to the label.
const GAP: f64 = 9.0;

/// On which side of its point a label stands.
#[derive(Clone, Copy, Debug, PartialEq, Eq)]
pub enum Beside {
    Above,
    Below,
    Left,
    Right,
}

/// Lines of text beside a point.
#[derive(Clone, Debug)]
pub struct Label {
    pub at: Point,
    pub side: Beside,
    pub lines: Vec<Line>,
}

impl Label {
    /// The room that it takes.
    pub fn shape(&self) -> Shape {
        rectangle(self.corner(), self.width(), self.height())
    }

    pub fn draw(&self, picture: &mut Svg) {
        let corner = self.corner();
        let (anchor, x) = match self.side {
            Beside::Above | Beside::Below => (Anchor::Middle, self.at.x),
            Beside::Left => (Anchor::End, corner.x + self.width()),
            Beside::Right => (Anchor::Start, corner.x),
        };
        let mut base = corner.y + SIZE;
        for line in &self.lines {
            picture.text(point(x, base), anchor, line);
            base += LINE;
        }
    }

    fn width(&self) -> f64 {
        let widths = self.lines.iter().map(|line| svg::width(line));
        widths.fold(0.0, f64::max)
    }

    fn height(&self) -> f64 {
        LINE * self.lines.len() as f64
    }

    /// Its left upper corner.
    fn corner(&self) -> Point {
        let Point { x, y } = self.at;
        let (width, height) = (self.width(), self.height());
        match self.side {
            Beside::Above => point(x - width / 2.0, y - GAP + 4.0 - height),
            Beside::Below => point(x - width / 2.0, y + GAP - 4.0),
            Beside::Left => point(x - GAP - width, y - height / 2.0),
            Beside::Right => point(x + GAP, y - height / 2.0),
        }
    }
}
