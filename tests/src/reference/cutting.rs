//! Request 7/13 of document 02: an outline cut into triangles, and what refuses it by 14.

use std::collections::BTreeMap;

use super::geometry::{edges, point, Point};

pub const LEAST_CORNERS: usize = 3;
pub const MOST_CORNERS: usize = 8;
/// Each corner that is cut off gives one, until two corners remain.
pub const MOST_TRIANGLES: usize = MOST_CORNERS - 2;

/// The corner cut off, its successor and its predecessor.
pub type Triangle = [Point; 3];
/// The triangles in the order they are cut off, or the number that refuses the outline.
pub type CutOff = Result<Vec<Triangle>, u8>;

pub fn cut(outline: &[u8]) -> CutOff {
    if causes(outline).next().is_some() {
        return Err(14);
    }
    let steps = steps(corners(outline).into_iter().enumerate().collect());
    Ok(steps.iter().filter_map(Step::triangle).collect())
}

/// The corners of an outline, x and y as signed bytes; an odd byte left over belongs to none.
pub fn corners(outline: &[u8]) -> Vec<Point> {
    outline.chunks_exact(2).map(|corner| point((corner[0] as i8).into(), (corner[1] as i8).into())).collect()
}

// What refuses an outline.

/// What gives cause for 14, with what is told of it.
pub type Cause = (&'static str, fn(&[u8]) -> bool);

pub const COUNT_OUT_OF_RANGE: &str = "a corner count out of range";
pub const ODD_BYTE: &str = "an odd byte left over";
pub const LEAST_COORDINATE: &str = "a coordinate of -128";
pub const AREA_NOT_POSITIVE: &str = "a doubled area that is not positive";
pub const EDGES_MEET: &str = "edges that meet";

pub const CAUSES: [Cause; 5] = [
    (COUNT_OUT_OF_RANGE, |outline| !(LEAST_CORNERS..=MOST_CORNERS).contains(&(outline.len() / 2))),
    (ODD_BYTE, |outline| outline.len() % 2 == 1),
    (LEAST_COORDINATE, |outline| corners(outline).iter().any(|corner| corner.x == -128 || corner.y == -128)),
    (AREA_NOT_POSITIVE, |outline| doubled_area(&corners(outline)) <= 0),
    (EDGES_MEET, |outline| meetings(&corners(outline)).next().is_some()),
];

/// What of it an outline gives.
pub fn causes(outline: &[u8]) -> impl Iterator<Item = &'static str> + '_ {
    CAUSES.iter().filter(|(_, gives)| gives(outline)).map(|&(what, _)| what)
}

/// The sum over the edges of what each has between itself and the origin; positive for an outline that goes
/// anticlockwise.
pub fn doubled_area(outline: &[Point]) -> i64 {
    edges(outline).map(|(from, to)| cross(outline[from], outline[to])).sum()
}

fn cross(a: Point, b: Point) -> i64 {
    a.x * b.y - a.y * b.x
}

fn minus(a: Point, b: Point) -> Point {
    point(a.x - b.x, a.y - b.y)
}

/// A place with fractional coordinates: (x / under, y / under), `under` above 0.
#[derive(Clone, Copy, Debug)]
pub struct Place {
    pub x: i64,
    pub y: i64,
    pub under: i64,
}

impl Place {
    pub fn of(corner: Point) -> Place {
        Place { x: corner.x, y: corner.y, under: 1 }
    }
}

impl PartialEq for Place {
    fn eq(&self, other: &Place) -> bool {
        self.x * other.under == other.x * self.under && self.y * other.under == other.y * self.under
    }
}

/// Two edges, each by the number of the corner that it begins at, and a place where they meet.
#[derive(Clone, Copy, Debug)]
pub struct Meeting {
    pub edges: (usize, usize),
    pub place: Place,
}

/// Where two edges meet, but for the corner shared by neighbours. Of a stretch that two share these are the ends.
pub fn meetings(outline: &[Point]) -> impl Iterator<Item = Meeting> + '_ {
    let count = outline.len();
    let pairs = (0..count).flat_map(move |other| (0..other).map(move |one| (one, other)));
    pairs.flat_map(move |(one, other)| {
        let edge = |from: usize| (outline[from], outline[(from + 1) % count]);
        let shared = shared_corner(count, one, other).map(|corner| Place::of(outline[corner]));
        let places = common_places(edge(one), edge(other));
        places
            .into_iter()
            .filter(move |&place| Some(place) != shared)
            .map(move |place| Meeting { edges: (one, other), place })
    })
}

/// The corner between two edges that are neighbours, the first of which begins at the lower number.
fn shared_corner(count: usize, one: usize, other: usize) -> Option<usize> {
    if other == one + 1 {
        Some(other)
    } else if one == 0 && other == count - 1 {
        Some(one)
    } else {
        None
    }
}

type Edge = (Point, Point);

/// The place that two edges have in common; if they share a stretch, its ends. The places of an edge are
/// a + s * (b - a) with s from 0 to 1, so that one s and one t are looked for at which two edges have the same place.
fn common_places(one: Edge, other: Edge) -> Vec<Place> {
    let (along, across, between) = (minus(one.1, one.0), minus(other.1, other.0), minus(other.0, one.0));
    let under = cross(along, across);
    if under == 0 {
        return common_ends(one, other);
    }
    // s * along = between + t * across: crossed with `across` this has s alone, crossed with `along` it has t alone.
    let [s, t, under] = [cross(between, across), cross(between, along), under].map(|number| number * under.signum());
    let on_both = (0..=under).contains(&s) && (0..=under).contains(&t);
    let place = Place { x: one.0.x * under + along.x * s, y: one.0.y * under + along.y * s, under };
    on_both.then_some(place).into_iter().collect()
}

/// Of edges in the same direction, one of which may have no length: the ends of each that lie on the other.
fn common_ends(one: Edge, other: Edge) -> Vec<Place> {
    let ends = [(one.0, other), (one.1, other), (other.0, one), (other.1, one)];
    ends.into_iter().filter(|&(end, edge)| lies_on(end, edge)).map(|(end, _)| Place::of(end)).collect()
}

/// Seen from there, the edge's two ends are in opposite directions, or one of them is there.
fn lies_on(corner: Point, edge: Edge) -> bool {
    let (back, forth) = (minus(edge.0, corner), minus(edge.1, corner));
    cross(back, forth) == 0 && back.x * forth.x + back.y * forth.y <= 0
}

// How it is cut.

/// The corners that remain, each under its number, which it keeps.
pub type Rest = BTreeMap<usize, Point>;

/// A corner that is taken from those that remain: cut off, or dropped because it is in line with its neighbours.
pub struct Step {
    pub rest: Rest,
    pub corner: usize,
    pub dropped: bool,
}

impl Step {
    fn triangle(&self) -> Option<Triangle> {
        (!self.dropped).then(|| triangle_of(&self.rest, self.corner))
    }
}

/// What is taken from the corners that remain, until two of them do.
pub fn steps(rest: Rest) -> Vec<Step> {
    if rest.len() <= 2 {
        return vec![];
    }
    let in_line = rest.keys().copied().find(|&corner| doubled_area(&triangle_of(&rest, corner)) == 0);
    let dropped = in_line.is_some();
    let corner = in_line.or_else(|| ears(&rest).next()).expect("every outline without cause for 14 is cut");
    let mut fewer = rest.clone();
    fewer.remove(&corner);
    let mut all = vec![Step { rest, corner, dropped }];
    all.extend(steps(fewer));
    all
}

/// The left turns that may be cut off, by rising number.
pub fn ears(rest: &Rest) -> impl Iterator<Item = usize> + '_ {
    left_turns(rest).filter(|&corner| held(rest, corner).next().is_none())
}

pub fn left_turns(rest: &Rest) -> impl Iterator<Item = usize> + '_ {
    rest.keys().copied().filter(|&corner| doubled_area(&triangle_of(rest, corner)) > 0)
}

pub fn triangle_of(rest: &Rest, corner: usize) -> Triangle {
    [corner, successor(rest, corner), predecessor(rest, corner)].map(|number| rest[&number])
}

/// Among the corners that remain; the first of all comes after the last.
fn successor(rest: &Rest, corner: usize) -> usize {
    let first = || rest.keys().next();
    *rest.range(corner + 1..).next().map(|(number, _)| number).or_else(first).expect("some corner remains")
}

fn predecessor(rest: &Rest, corner: usize) -> usize {
    let last = || rest.keys().next_back();
    *rest.range(..corner).next_back().map(|(number, _)| number).or_else(last).expect("some corner remains")
}

/// The other remaining corners that a corner's triangle holds, border included.
pub fn held(rest: &Rest, corner: usize) -> impl Iterator<Item = Point> + '_ {
    let triangle = triangle_of(rest, corner);
    let own = [corner, successor(rest, corner), predecessor(rest, corner)];
    let others = rest.iter().filter(move |(number, _)| !own.contains(number)).map(|(_, &other)| other);
    others.filter(move |&other| holds(&triangle, other))
}

/// A point in a triangle, or on its border, makes three of it that are together as large as the triangle; any other makes
/// three that are larger.
pub fn holds(triangle: &Triangle, at: Point) -> bool {
    let with_the_point_for = |corner: usize| {
        let mut other = *triangle;
        other[corner] = at;
        doubled_area(&other).abs()
    };
    (0..3).map(with_the_point_for).sum::<i64>() == doubled_area(triangle).abs()
}
