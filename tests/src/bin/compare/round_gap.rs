//! Counts the pairs of candidates that tell the round gap from what might be taken for it, and the jobs that do.

use std::cmp::Ordering;

use nest_tests::reference::board::Board;
use nest_tests::reference::geometry::{
    edges, free_of_overlap, in_conflict, room_along, to_edges, Part, Point, Squared,
};
use nest_tests::reference::square_gap::{self, axes};

use crate::case::Case;
use crate::report::Report;

const SQUARE_ALONE: &str = "pairs in conflict at the gap as a square, but not at the round one";
const OVERLAP_ALONE: &str = "pairs that overlap, with no corner nearer than the gap to an edge";
const LINE_ALONE: &str = "pairs without conflict, with a corner nearer than the gap to the line through an edge";
const TOUCHING: &str = "pairs with a gap that touch without overlap";
const NEAR_CORNERS: &str = "pairs nearer than the gap, corner to corner";
const NEAR_BY_FIRST: &str = "pairs nearer than the gap, a corner of the first to the middle of an edge";
const NEAR_BY_SECOND: &str = "pairs nearer than the gap, a corner of the second to the middle of an edge";
const EXACT_CORNERS: &str = "pairs exactly the gap apart, corner to corner";
const EXACT_BY_FIRST: &str = "pairs exactly the gap apart, a corner of the first to the middle of an edge";
const EXACT_BY_SECOND: &str = "pairs exactly the gap apart, a corner of the second to the middle of an edge";
const ONE_LESS: &str = "pairs nearer than the gap by less than 1";
const ONE_MORE: &str = "pairs farther apart than the gap by less than 1";
const NEST_OTHERWISE: &str = "jobs that nest otherwise with the gap as a square";

/// All that is counted.
pub const COUNTED: [&str; 13] = [
    SQUARE_ALONE,
    OVERLAP_ALONE,
    LINE_ALONE,
    TOUCHING,
    NEAR_CORNERS,
    NEAR_BY_FIRST,
    NEAR_BY_SECOND,
    EXACT_CORNERS,
    EXACT_BY_FIRST,
    EXACT_BY_SECOND,
    ONE_LESS,
    ONE_MORE,
    NEST_OTHERWISE,
];

pub fn count_job(case: &Case, report: &mut Report) {
    if case.walked_by_squares().is_some_and(|there| case.walks_otherwise(there)) {
        report.note(NEST_OTHERWISE);
    }
}

/// Counts the pairs of a row that is asked for, those that have a gap and are not that far apart along an axis. Gives
/// the number of the candidate that is nearest without conflict.
pub fn count_row(board: &Board, kind: u64, number: u64, other: u64, report: &mut Report) -> Option<u64> {
    let (kind, other) = (kind as usize, other as usize);
    let gap = board.job.pair_gap(kind, other);
    let one = &board.candidates[kind][board.find(kind, number as usize)?].parts;
    let close = board.candidates[other].iter().filter(|c| gap > 0 && !apart_along_axes(one, &c.parts, gap));
    let pairs = close.map(|candidate| (candidate.number as u64, Pair::new(one, &candidate.parts, gap)));
    let pairs: Vec<(u64, Pair)> = pairs.collect();
    pairs.iter().for_each(|(_, pair)| pair.count(report));
    let free = pairs.iter().filter(|(_, pair)| !pair.conflict);
    free.min_by(|a, b| a.1.nearest.compared(b.1.nearest)).map(|&(number, _)| number)
}

/// All parts are the gap apart along an axis: then there is no conflict by any measure, and nothing is counted.
fn apart_along_axes(one: &[Part], other: &[Part], gap: i64) -> bool {
    pairs(one, other).all(|(p, q)| axes().any(|axis| room_along(axis, p, q) >= gap))
}

fn pairs<'a>(one: &'a [Part], other: &'a [Part]) -> impl Iterator<Item = (&'a Part, &'a Part)> {
    one.iter().flat_map(move |p| other.iter().map(move |q| (p, q)))
}

/// Whether some corner is nearer than the gap to the line through an edge of the part.
fn near_a_line(corners: &[Point], part: &[Point], gap: i64) -> bool {
    edges(part).any(|(from, to)| {
        let (a, b) = (part[from], part[to]);
        let (dx, dy) = (b.x - a.x, b.y - a.y);
        let out = |c: &Point| dx * (c.y - a.y) - dy * (c.x - a.x);
        corners.iter().any(|c| out(c).pow(2) < gap.pow(2) * (dx.pow(2) + dy.pow(2)))
    })
}

/// Two pieces as they stand.
struct Pair<'a> {
    one: &'a [Part],
    other: &'a [Part],
    gap: i64,
    conflict: bool,
    /// From a corner of one to an edge of the other.
    nearest: Squared,
    place: Place,
}

/// Which corner it is that is nearest to an edge: one that is as near to a corner; else one of the first piece, one of
/// the second, or one of each.
enum Place {
    Corners,
    ByFirst,
    BySecond,
    ByBoth,
}

impl<'a> Pair<'a> {
    fn new(one: &'a [Part], other: &'a [Part], gap: i64) -> Pair<'a> {
        let by_first = least(pairs(one, other).flat_map(|(p, q)| to_edges(p, q)));
        let by_second = least(pairs(one, other).flat_map(|(p, q)| to_edges(q, p)));
        let corners = least(pairs(one, other).flat_map(|(p, q)| to_corners(p, q)));
        let nearest = least([by_first, by_second].into_iter());
        let place = match by_first.compared(by_second) {
            _ if corners.compared(nearest).is_eq() => Place::Corners,
            Ordering::Less => Place::ByFirst,
            Ordering::Greater => Place::BySecond,
            Ordering::Equal => Place::ByBoth,
        };
        Pair { one, other, gap, conflict: in_conflict(one, other, gap), nearest, place }
    }

    fn count(&self, report: &mut Report) {
        let parts = || pairs(self.one, self.other);
        let overlap = parts().any(|(p, q)| !free_of_overlap(p, q));
        let near_line = || parts().any(|(p, q)| near_a_line(p, q, self.gap) || near_a_line(q, p, self.gap));
        let than_gap = self.nearest.compared_with(self.gap);
        let seen = [
            (SQUARE_ALONE, !self.conflict && square_gap::in_conflict(self.one, self.other, self.gap)),
            (LINE_ALONE, !self.conflict && near_line()),
            (OVERLAP_ALONE, overlap && than_gap.is_ge()),
            (TOUCHING, !overlap && self.nearest.compared_with(0).is_eq()),
            (ONE_LESS, !overlap && than_gap.is_lt() && self.nearest.compared_with(self.gap - 1).is_gt()),
            (ONE_MORE, !overlap && than_gap.is_gt() && self.nearest.compared_with(self.gap + 1).is_lt()),
        ];
        let placed = self.named_by_place(than_gap).filter(|_| !overlap);
        let named = seen.into_iter().filter(|&(_, holds)| holds).map(|(what, _)| what);
        named.chain(placed).for_each(|what| report.note(what));
    }

    /// Of pieces that do not overlap and are no farther apart than the gap.
    fn named_by_place(&self, than_gap: Ordering) -> Option<&'static str> {
        match (than_gap, &self.place) {
            (Ordering::Less, Place::Corners) => Some(NEAR_CORNERS),
            (Ordering::Less, Place::ByFirst) => Some(NEAR_BY_FIRST),
            (Ordering::Less, Place::BySecond) => Some(NEAR_BY_SECOND),
            (Ordering::Equal, Place::Corners) => Some(EXACT_CORNERS),
            (Ordering::Equal, Place::ByFirst) => Some(EXACT_BY_FIRST),
            (Ordering::Equal, Place::BySecond) => Some(EXACT_BY_SECOND),
            _ => None,
        }
    }
}

fn to_corners<'a>(p: &'a Part, q: &'a Part) -> impl Iterator<Item = Squared> + 'a {
    p.iter().flat_map(move |a| q.iter().map(move |b| Squared::of(a.x - b.x, a.y - b.y, 1)))
}

fn least(distances: impl Iterator<Item = Squared>) -> Squared {
    distances.min_by(|a, b| a.compared(*b)).expect("a part has corners")
}
