//! Corners, quarter turns, sound parts, distances and the separation of two parts.

use std::cmp::Ordering;

#[derive(Clone, Copy, PartialEq, Eq, Debug)]
pub struct Point {
    pub x: i64,
    pub y: i64,
}

pub type Part = Vec<Point>;

pub fn point(x: i64, y: i64) -> Point {
    Point { x, y }
}

/// One quarter turn takes (x, y) to (-y, x).
pub fn turned(corner: Point, quarter_turns: usize) -> Point {
    (0..quarter_turns).fold(corner, |p, _| point(-p.y, p.x))
}

pub fn moved(corner: Point, by: Point) -> Point {
    point(corner.x + by.x, corner.y + by.y)
}

/// The edges from each corner to the next, the last one back to the first.
pub fn edges(part: &[Point]) -> impl Iterator<Item = (usize, usize)> + '_ {
    (0..part.len()).map(|i| (i, (i + 1) % part.len()))
}

/// Strictly left of the line from `a` to `b`.
fn strictly_left(a: Point, b: Point, corner: Point) -> bool {
    (b.x - a.x) * (corner.y - a.y) - (b.y - a.y) * (corner.x - a.x) > 0
}

/// For each edge, every other corner lies strictly left of it.
pub fn sound(part: &[Point]) -> bool {
    edges(part).all(|(from, to)| {
        (0..part.len())
            .filter(|&other| other != from && other != to)
            .all(|other| strictly_left(part[from], part[to], part[other]))
    })
}

/// The inside is on the left of an edge, so outward is a quarter turn to the right.
fn outward_normals(part: &[Point]) -> Vec<Point> {
    edges(part)
        .map(|(from, to)| point(part[to].y - part[from].y, part[from].x - part[to].x))
        .collect()
}

/// The directions that are tried: outward from P, and against those outward from Q.
pub fn directions(p: &[Point], q: &[Point]) -> Vec<Point> {
    let against = outward_normals(q).into_iter().map(|n| point(-n.x, -n.y));
    outward_normals(p).into_iter().chain(against).collect()
}

/// How far the smallest of Q along the direction is beyond the largest of P; below 0 if it is not.
pub fn room_along(direction: Point, p: &[Point], q: &[Point]) -> i64 {
    let along = |corner: &Point| direction.x * corner.x + direction.y * corner.y;
    let largest = p.iter().map(along).max().expect("a part has corners");
    let smallest = q.iter().map(along).min().expect("a part has corners");
    smallest - largest
}

/// Not in conflict at gap 0: the parts may touch.
pub fn free_of_overlap(p: &[Point], q: &[Point]) -> bool {
    directions(p, q).into_iter().any(|direction| room_along(direction, p, q) >= 0)
}

/// A squared distance as a fraction: `over` / `under`, the latter above 0.
#[derive(Clone, Copy, Debug)]
pub struct Squared {
    over: i128,
    under: i128,
}

impl Squared {
    /// That of the point (x / under, y / under) from (0, 0).
    pub fn of(x: i64, y: i64, under: i64) -> Squared {
        let [x, y, under] = [x, y, under].map(|number| i128::from(number).pow(2));
        Squared { over: x + y, under }
    }

    /// With a whole number, the square of which is meant.
    pub fn compared_with(self, number: i64) -> Ordering {
        self.compared(Squared::of(number, 0, 1))
    }

    pub fn compared(self, other: Squared) -> Ordering {
        (self.over * other.under).cmp(&(other.over * self.under))
    }
}

/// From a corner to the nearest point of the edge from `a` to `b`, which is a segment: that point lies `way` / `whole`
/// of the way along it, no less than none of it and no more than all of it.
pub fn to_edge(corner: Point, a: Point, b: Point) -> Squared {
    let (dx, dy) = (b.x - a.x, b.y - a.y);
    let whole = dx * dx + dy * dy;
    let way = ((corner.x - a.x) * dx + (corner.y - a.y) * dy).clamp(0, whole);
    let nearest = point(a.x * whole + dx * way, a.y * whole + dy * way);
    Squared::of(corner.x * whole - nearest.x, corner.y * whole - nearest.y, whole)
}

/// From every corner of one part to every edge of the other.
pub fn to_edges<'a>(corners: &'a [Point], part: &'a [Point]) -> impl Iterator<Item = Squared> + 'a {
    edges(part).flat_map(move |(from, to)| corners.iter().map(move |&c| to_edge(c, part[from], part[to])))
}

/// No corner of a part is nearer than the gap to an edge of the other part; at gap 0 this says nothing.
fn keep_the_gap(p: &[Point], q: &[Point], gap: i64) -> bool {
    gap == 0 || to_edges(p, q).chain(to_edges(q, p)).all(|distance| distance.compared_with(gap).is_ge())
}

/// Parts in conflict at gap 0 are in conflict at every gap.
pub fn separated(p: &[Point], q: &[Point], gap: i64) -> bool {
    free_of_overlap(p, q) && keep_the_gap(p, q, gap)
}

/// Two pieces, each the list of its placed parts.
pub fn in_conflict(one: &[Part], other: &[Part], gap: i64) -> bool {
    one.iter().any(|p| other.iter().any(|q| !separated(p, q, gap)))
}
