//! Counts the outlines that tell request 7/13 from what might be taken for it.

use nest_tests::reference::cutting::*;
use nest_tests::reference::geometry::Point;

use crate::report::Report;

const TOO_FEW: &str = "outlines of fewer than three corners";
const TOO_MANY: &str = "outlines of more than eight corners, and nothing else amiss";
const ODD: &str = "outlines with an odd byte, and nothing else amiss";
const LEAST: &str = "outlines with a coordinate of -128, and nothing else amiss";
const NO_AREA: &str = "outlines without an area";
const NO_AREA_ALONE: &str = "outlines of three corners on one dot, and nothing else amiss";
const CLOCKWISE: &str = "clockwise outlines, and nothing else amiss";
const CROSSING: &str = "outlines whose edges cross, and nothing else amiss";
const ON_AN_EDGE: &str = "outlines with a corner on another edge, and nothing else amiss";
const ON_ONE_DOT: &str = "outlines with two corners on one dot, and nothing else amiss";
const DOUBLED_BACK: &str = "outlines with an edge that doubles back, and what that brings with it";
const TWO_CAUSES: &str = "outlines with two causes of 14";

const TRIANGLES: [&str; MOST_TRIANGLES] = [
    "outlines cut into 1 triangle",
    "outlines cut into 2 triangles",
    "outlines cut into 3 triangles",
    "outlines cut into 4 triangles",
    "outlines cut into 5 triangles",
    "outlines cut into 6 triangles",
];
const DROPPED: &str = "outlines with a corner in line at first";
const DROPPED_LATER: &str = "outlines with a corner that comes to be in line";
const BORDER: &str = "left turns passed over for a corner on the border alone";
const INSIDE: &str = "left turns passed over for a corner inside";
const SEVERAL: &str = "corners cut off where others with higher numbers could be";
const GONE: &str = "corners cut off with a dropped one on the border of their triangle";
const WIDE: &str = "outlines with a doubled area above 65,535";

/// All that is counted.
pub fn counted_things() -> impl Iterator<Item = &'static str> {
    let of_corners = [TOO_FEW, TOO_MANY, ODD, LEAST, NO_AREA, NO_AREA_ALONE, CLOCKWISE];
    let of_edges = [CROSSING, ON_AN_EDGE, ON_ONE_DOT, DOUBLED_BACK, TWO_CAUSES];
    let cut_off = [DROPPED, DROPPED_LATER, BORDER, INSIDE, SEVERAL, GONE, WIDE];
    of_corners.into_iter().chain(of_edges).chain(TRIANGLES).chain(cut_off)
}

pub fn count(outline: &[u8], cut_off: &CutOff, report: &mut Report) {
    match cut_off {
        Ok(triangles) => {
            report.note(TRIANGLES[triangles.len() - 1]);
            count_cut(&corners(outline), report);
        }
        Err(_) => count_refused(outline, report),
    }
}

fn count_refused(outline: &[u8], report: &mut Report) {
    let given: Vec<&str> = causes(outline).collect();
    let corners = corners(outline);
    let area = doubled_area(&corners);
    if corners.len() < LEAST_CORNERS {
        report.note(TOO_FEW);
    } else if area == 0 {
        report.note(NO_AREA);
    }
    match given[..] {
        [COUNT_OUT_OF_RANGE] => report.note(TOO_MANY),
        [ODD_BYTE] => report.note(ODD),
        [LEAST_COORDINATE] => report.note(LEAST),
        [AREA_NOT_POSITIVE] => report.note(if area < 0 { CLOCKWISE } else { NO_AREA_ALONE }),
        [EDGES_MEET] => count_meetings(&corners, report),
        [_, _, ..] => report.note(TWO_CAUSES),
        _ => {}
    }
}

/// What kinds of meetings an outline has whose edges meet: one kind alone, or edges that double back.
fn count_meetings(outline: &[Point], report: &mut Report) {
    let mut kinds: Vec<&str> = meetings(outline).map(|meeting| kind(outline, meeting)).collect();
    kinds.sort_unstable();
    kinds.dedup();
    match kinds[..] {
        [kind] => report.note(kind),
        _ if kinds.contains(&DOUBLED_BACK) => report.note(DOUBLED_BACK),
        _ => {}
    }
}

fn kind(outline: &[Point], Meeting { edges: (one, other), place }: Meeting) -> &'static str {
    let count = outline.len();
    let is_end = |edge: usize| [edge, (edge + 1) % count].iter().any(|&end| Place::of(outline[end]) == place);
    if other == one + 1 || (one, other) == (0, count - 1) {
        return DOUBLED_BACK;
    }
    match (is_end(one), is_end(other)) {
        (true, true) => ON_ONE_DOT,
        (false, false) => CROSSING,
        _ => ON_AN_EDGE,
    }
}

fn count_cut(outline: &[Point], report: &mut Report) {
    let steps = steps(outline.iter().copied().enumerate().collect());
    let first_cut = steps.iter().position(|step| !step.dropped).unwrap_or(steps.len());
    let seen = [
        (DROPPED, first_cut > 0),
        (DROPPED_LATER, steps[first_cut..].iter().any(|step| step.dropped)),
        (WIDE, doubled_area(outline) > 65_535),
    ];
    seen.into_iter().filter(|&(_, holds)| holds).for_each(|(what, _)| report.note(what));
    steps.iter().filter(|step| !step.dropped).for_each(|step| count_step(outline, step, report));
}

/// What is true of a corner that is cut off, and of the left turns before it.
fn count_step(outline: &[Point], Step { rest, corner, .. }: &Step, report: &mut Report) {
    for passed in left_turns(rest).take_while(|passed| passed < corner) {
        let triangle = triangle_of(rest, passed);
        let inside = held(rest, passed).any(|other| !on_border(&triangle, other));
        report.note(if inside { INSIDE } else { BORDER });
    }
    if rest.len() > LEAST_CORNERS && ears(rest).any(|other| other > *corner) {
        report.note(SEVERAL);
    }
    let triangle = triangle_of(rest, *corner);
    let gone = (0..outline.len()).filter(|number| !rest.contains_key(number));
    if gone.map(|number| outline[number]).any(|gone| holds(&triangle, gone)) {
        report.note(GONE);
    }
}

/// Of a point that the triangle holds: it makes a triangle without an area with two of the corners.
fn on_border(&[a, b, c]: &Triangle, at: Point) -> bool {
    [[a, b, at], [b, c, at], [c, a, at]].iter().any(|triangle| doubled_area(triangle) == 0)
}
