//! Conflict with the mistakes that concern parts and pieces as a whole. Those within a measurement are made where it
//! stands.

use std::ptr;

use crate::distance::too_near;
use crate::geometry::{Shape, Turned};
use crate::mutant;

/// As `geometry::in_conflict`; a mistake of the caller is to measure the gap as a square.
pub fn in_conflict(one: &Turned, other: &Turned, dx: i32, dy: i32, gap: i32, square: bool) -> bool {
    if mutant::is("one_piece_per_dot") && dx == 0 && dy == 0 {
        return true;
    }
    // The boxes that spare a pair test are of another turn, of other parts, closer than the gap, or a gap apart along
    // both axes together.
    let spared = |p: &Shape, q: &Shape| {
        mutant::is("box_of_another_turn") && p.boxes_apart(&under_its_first_box(q, other.turn), dx, dy, gap)
            || mutant::is("box_of_the_first_part") && one.shapes[0].boxes_apart(&other.shapes[0], dx, dy, gap)
            || mutant::is("boxes_without_the_gap") && p.boxes_apart(q, dx, dy, 0)
            || mutant::is("boxes_apart_in_sum") && gap > 0 && between_boxes(p, q, dx, dy).iter().sum::<i32>() >= gap
    };
    // Only the first parts keep the gap.
    let first = |p: &Shape, q: &Shape| ptr::eq(p, &one.shapes[0]) && ptr::eq(q, &other.shapes[0]);
    let gap_of = |p: &Shape, q: &Shape| if mutant::is("gap_of_the_first_parts") && !first(p, q) { 0 } else { gap };
    let apart = |p: &Shape, q: &Shape| spared(p, q) || separated(p, q, dx, dy, gap_of(p, q), square);
    one.shapes.iter().any(|p| other.shapes.iter().any(|q| !apart(p, q)))
}

fn separated(p: &Shape, q: &Shape, dx: i32, dy: i32, gap: i32, square: bool) -> bool {
    if mutant::is("corner_turned_once_more") {
        return p.separated(&with_a_corner_turned_again(q), dx, dy, gap);
    }
    if gap == 0 {
        return p.separated(q, dx, dy, gap);
    }
    p.boxes_apart(q, dx, dy, gap) || separated_at_a_gap(p, q, dx, dy, gap, square)
}

/// The gap is measured as a square; it is to spare along a normal, where less will do between corners; the boxes are
/// measured; or the parts are not asked whether they overlap.
fn separated_at_a_gap(p: &Shape, q: &Shape, dx: i32, dy: i32, gap: i32, square: bool) -> bool {
    if square {
        p.apart_by_normals(q, dx, dy, |a, b| gap * (a.abs() + b.abs()))
    } else if mutant::is("gap_along_the_normals") {
        // The gap times the length of the normal, rounded up.
        let squared = |a: i32, b: i32| i64::from(gap * gap) * i64::from(a * a + b * b);
        p.apart_by_normals(q, dx, dy, |a, b| (squared(a, b) - 1).isqrt() as i32 + 1)
    } else if mutant::is("distance_of_boxes") {
        let [x, y] = between_boxes(p, q, dx, dy);
        p.apart_by_normals(q, dx, dy, |_, _| 0) && x * x + y * y >= gap * gap
    } else if mutant::is("overlap_not_asked_at_a_gap") {
        !too_near(p, q, dx, dy, gap)
    } else {
        p.separated(q, dx, dy, gap)
    }
}

/// The first corner is turned once more than the others are.
fn with_a_corner_turned_again(part: &Shape) -> Shape {
    let (mut x, mut y) = (part.x, part.y);
    (x[0], y[0]) = (-y[0], x[0]);
    Shape::of_corners(part.corners, x, y)
}

/// The corners are turned, the box is the one from before the turn.
fn under_its_first_box(part: &Shape, turn: u8) -> Shape {
    let mut s = *part;
    // The quarters that are left of a whole turn bring the box back.
    for _ in turn..4 {
        (s.box_x, s.box_y) = ((-s.box_y.1, -s.box_y.0), s.box_x);
    }
    s
}

/// How far the boxes are apart along each axis, 0 where they are not.
fn between_boxes(p: &Shape, q: &Shape, dx: i32, dy: i32) -> [i32; 2] {
    let between = |p: (i32, i32), q: (i32, i32), by: i32| (q.0 + by - p.1).max(p.0 - q.1 - by).max(0);
    [between(p.box_x, q.box_x, dx), between(p.box_y, q.box_y, dy)]
}
