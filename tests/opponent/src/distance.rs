//! The gap of a round cutter: how near the corners of one part are to the edges of the other.

use crate::geometry::Shape;
use crate::mutant;

/// Whether some corner of one part is nearer than the gap to an edge of the other; the second part is moved by
/// (dx, dy). A mistake: the corners of one part alone are measured.
pub fn too_near(p: &Shape, q: &Shape, dx: i32, dy: i32, gap: i32) -> bool {
    let (dx, dy) = (moved(dx, "distances_not_moved_along"), moved(dy, "distances_not_moved_across"));
    let gap = measured(gap);
    !mutant::is("corners_of_the_first_only") && some_corner_near(q, p, dx, dy, gap)
        || !mutant::is("corners_of_the_second_only") && some_corner_near(p, q, -dx, -dy, gap)
}

/// A mistake: what one part is moved by counts for nothing.
fn moved(by: i32, mistake: &str) -> i32 {
    if mutant::is(mistake) {
        0
    } else {
        by
    }
}

/// The gap as it is. The mistakes: twice as much, or one off.
fn measured(gap: i32) -> i32 {
    if mutant::is("gap_doubled") {
        2 * gap
    } else {
        gap + i32::from(mutant::is("gap_one_more")) - i32::from(mutant::is("gap_one_less"))
    }
}

/// Whether some corner of the first part, which is moved by (dx, dy), is near to an edge of the second. The mistakes:
/// the last corner, or the edge from the last corner to the first, is not asked.
#[inline]
fn some_corner_near(corners: &Shape, edges: &Shape, dx: i32, dy: i32, gap: i32) -> bool {
    for i in 0..edges.corners - usize::from(mutant::is("closing_edge_forgotten")) {
        let normal = [edges.nx[i], edges.ny[i]];
        let (from_x, from_y) = (dx - edges.x[i], dy - edges.y[i]);
        for k in 0..corners.corners - usize::from(mutant::is("last_corner_not_measured")) {
            if near(normal, [corners.x[k] + from_x, corners.y[k] + from_y], gap) {
                return true;
            }
        }
    }
    false
}

/// Where on an edge the point is that is nearest to a corner.
enum Foot {
    Beginning,
    Middle,
    End,
}

/// Whether a corner at (x, y) from the beginning of an edge is nearer than the gap to it. The edge is given by its
/// outward normal, which is as long as it is.
#[inline(always)]
fn near([nx, ny]: [i32; 2], [x, y]: [i32; 2], gap: i32) -> bool {
    let whole = nx * nx + ny * ny;
    match foot(nx * y - ny * x, whole) {
        Foot::Beginning => near_corner(x, y, gap, "near_at_the_gap_from_the_beginning"),
        Foot::End => near_corner(x + ny, y - nx, gap, "near_at_the_gap_from_the_end"),
        Foot::Middle => near_middle(nx * x + ny * y, [nx, ny], whole, gap),
    }
}

/// The mistakes: the edge goes on beyond an end, or beyond both; its ends are exchanged.
#[inline(always)]
fn foot(way: i32, whole: i32) -> Foot {
    let endless = mutant::is("line_in_place_of_the_edge");
    let mut ends = [Foot::Beginning, Foot::End];
    if mutant::is("ends_exchanged") {
        ends.reverse();
    }
    let [beginning, end] = ends;
    if way <= 0 && !endless && !mutant::is("edge_without_its_beginning") {
        beginning
    } else if way >= whole && !endless && !mutant::is("edge_without_its_end") {
        end
    } else {
        Foot::Middle
    }
}

/// A corner at (x, y) from the end of an edge. The mistakes: it does not count, is measured otherwise, or is near at
/// exactly the gap, here or at the other end.
#[inline(always)]
fn near_corner(x: i32, y: i32, gap: i32, mistake: &str) -> bool {
    if mutant::is("ends_not_counted") {
        return false;
    }
    if mutant::is("sum_of_coordinates_at_corners") {
        return x.abs() + y.abs() < gap;
    }
    if mutant::is("larger_coordinate_at_corners") {
        return x.abs().max(y.abs()) < gap;
    }
    let distance = x * x + y * y;
    if mutant::is("squares_of_16_bits") {
        return i32::from(distance as i16) < gap * gap;
    }
    let limit = squared(gap, "gap_not_squared_at_corners");
    distance < limit || distance == limit && mutant::is(mistake)
}

/// A corner that is so far out, times the length of the edge, before the middle of the edge. The mistakes: it does not
/// count, its distance is compared otherwise, or it is near at exactly the gap.
#[inline(always)]
fn near_middle(out: i32, [nx, ny]: [i32; 2], whole: i32, gap: i32) -> bool {
    if mutant::is("corners_against_corners_only") {
        return false;
    }
    if mutant::is("square_clearance_at_edges") {
        return out.abs() < gap * (nx.abs() + ny.abs());
    }
    if mutant::is("squares_of_32_bits") {
        return out.wrapping_mul(out) < (gap * gap).wrapping_mul(whole);
    }
    let [distance, whole, gap] = [out, whole, squared(gap, "gap_not_squared_at_edges")].map(i64::from);
    let distance = if mutant::is("distance_not_squared_at_edges") { distance.abs() } else { distance * distance };
    let limit = if mutant::is("edge_length_left_out") { gap } else { gap * whole };
    distance < limit || distance == limit && mutant::is("near_at_the_gap_from_the_middle")
}

/// The squared gap. The mistakes: it is not squared, at one of the two places or at both.
#[inline(always)]
fn squared(gap: i32, mistake: &str) -> i32 {
    if mutant::is("gap_not_squared") || mutant::is(mistake) {
        gap
    } else {
        gap * gap
    }
}
