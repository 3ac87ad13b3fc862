//! The gap as document 01 measured it before request 5 of document 02: as a square. Layouts from that time have to pass
//! under the round gap too.

use super::geometry::{directions, point, room_along, Part, Point};

/// Two pieces, each the list of its placed parts.
pub fn in_conflict(one: &[Part], other: &[Part], gap: i64) -> bool {
    one.iter().any(|p| other.iter().any(|q| !separated(p, q, gap)))
}

/// By an outward normal of P, a negated one of Q, or one of the four axis directions.
fn separated(p: &[Point], q: &[Point], gap: i64) -> bool {
    directions(p, q).into_iter().chain(axes()).any(|direction| separates(direction, p, q, gap))
}

/// The largest over P, plus the gap times |a| + |b|, is at most the smallest over Q.
fn separates(direction: Point, p: &[Point], q: &[Point], gap: i64) -> bool {
    room_along(direction, p, q) >= gap * (direction.x.abs() + direction.y.abs())
}

pub fn axes() -> impl Iterator<Item = Point> {
    [(1, 0), (-1, 0), (0, 1), (0, -1)].into_iter().map(|(x, y)| point(x, y))
}
