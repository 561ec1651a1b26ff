//! Points and shapes of a picture. Its left upper corner is (0, 0), and y grows downwards.

#[derive(Clone, Copy, Debug, PartialEq)]
pub struct Point {
    pub x: f64,
    pub y: f64,
}

/// The corners of a convex shape, in order; two for a straight line.
pub type Shape = Vec<Point>;

pub fn point(x: f64, y: f64) -> Point {
    Point { x, y }
}

impl Point {
    /// The point this far from here, in parts of the way to another one.
    pub fn towards(self, other: Self, part: f64) -> Self {
        point(
            self.x + (other.x - self.x) * part,
            self.y + (other.y - self.y) * part,
        )
    }

    /// The point moved by so much along this direction and, at a right angle to it, downwards where
    /// the direction leads to the right.
    pub fn moved(self, direction: Self, along: f64, across: f64) -> Self {
        point(
            self.x + direction.x * along - direction.y * across,
            self.y + direction.y * along + direction.x * across,
        )
    }
}

/// The direction from one point to another, of length 1.
pub fn direction(from: Point, to: Point) -> Point {
    let (x, y) = (to.x - from.x, to.y - from.y);
    let length = (x * x + y * y).sqrt();
    point(x / length, y / length)
}

/// The rectangle with this left upper corner.
pub fn rectangle(corner: Point, width: f64, height: f64) -> Shape {
    let (right, bottom) = (corner.x + width, corner.y + height);
    vec![
        corner,
        point(right, corner.y),
        point(right, bottom),
        point(corner.x, bottom),
    ]
}

/// Do two shapes overlap or touch? They do not if some side of one has the other beyond it.
pub fn meet(one: &[Point], other: &[Point]) -> bool {
    let mut sides = sides(one).chain(sides(other));
    !sides.any(|(from, to)| {
        let across = point(from.y - to.y, to.x - from.x);
        let [a, b] = [one, other].map(|shape| extent(shape, across));
        a.1 < b.0 || b.1 < a.0
    })
}

/// The sides of a shape, from corner to corner.
pub fn sides(shape: &[Point]) -> impl Iterator<Item = (Point, Point)> + '_ {
    let next = shape.iter().cycle().skip(1);
    shape.iter().copied().zip(next.copied())
}

/// How far a shape reaches in this direction: from where to where.
fn extent(shape: &[Point], direction: Point) -> (f64, f64) {
    let places = shape
        .iter()
        .map(|corner| corner.x * direction.x + corner.y * direction.y);
    places.fold((f64::INFINITY, f64::NEG_INFINITY), |(low, high), place| {
        (low.min(place), high.max(place))
    })
}

#[cfg(test)]
mod tests {
    use super::*;

    #[test]
    fn rectangles_meet_where_they_overlap() {
        let one = rectangle(point(0.0, 0.0), 10.0, 4.0);
        assert!(meet(&one, &rectangle(point(9.0, 3.0), 5.0, 5.0)));
        assert!(!meet(&one, &rectangle(point(11.0, 0.0), 5.0, 5.0)));
        assert!(!meet(&one, &rectangle(point(0.0, 5.0), 5.0, 5.0)));
        assert!(meet(&one, &rectangle(point(2.0, 1.0), 1.0, 1.0)));
    }

    #[test]
    fn a_line_meets_what_it_crosses() {
        let shape = rectangle(point(0.0, 0.0), 10.0, 10.0);
        assert!(meet(&shape, &[point(-5.0, 5.0), point(15.0, 6.0)]));
        assert!(meet(&shape, &[point(-1.0, 9.0), point(2.0, 12.0)]));
        assert!(!meet(&shape, &[point(-5.0, 8.0), point(2.0, 15.0)]));
        assert!(!meet(&shape, &[point(-5.0, 5.0), point(-1.0, 5.0)]));
    }

    #[test]
    fn a_point_is_moved_along_a_direction_and_across_it() {
        let down = direction(point(1.0, 1.0), point(1.0, 5.0));
        assert_eq!(down, point(0.0, 1.0));
        assert_eq!(point(2.0, 2.0).moved(down, 3.0, 1.0), point(1.0, 5.0));
        assert_eq!(
            point(0.0, 0.0).towards(point(8.0, 4.0), 0.5),
            point(4.0, 2.0)
        );
    }
}
