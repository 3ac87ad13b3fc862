//! Small outlines, cut by hand.

use crate::outlines::bytes_of;
use crate::reference::cutting::{corners, CutOff};
use crate::shapes::Corner;

pub struct SmallOutline {
    pub name: &'static str,
    pub bytes: Vec<u8>,
    pub cut_off: CutOff,
}

/// With its triangles, by the numbers of their corners.
fn cut(name: &'static str, outline: &[Corner], triangles: &[[usize; 3]]) -> SmallOutline {
    let bytes = bytes_of(outline);
    let at = corners(&bytes);
    let cut_off = Ok(triangles.iter().map(|triangle| triangle.map(|corner| at[corner])).collect());
    SmallOutline { name, bytes, cut_off }
}

fn refused(name: &'static str, outline: &[Corner]) -> SmallOutline {
    refused_bytes(name, bytes_of(outline))
}

fn refused_bytes(name: &'static str, bytes: Vec<u8>) -> SmallOutline {
    SmallOutline { name, bytes, cut_off: Err(14) }
}

pub fn small_outlines() -> Vec<SmallOutline> {
    let mut outlines = outlines_cut();
    outlines.extend(outlines_with_a_corner_in_the_way());
    outlines.extend(outlines_of_bad_length());
    outlines.extend(outlines_whose_edges_meet());
    outlines
}

const SQUARE: [Corner; 4] = [(0, 0), (2, 0), (2, 2), (0, 2)];

fn outlines_cut() -> Vec<SmallOutline> {
    let in_two: &[[usize; 3]] = &[[0, 1, 3], [1, 2, 3]];
    vec![
        cut("a triangle", &[(0, 0), (2, 0), (0, 2)], &[[0, 1, 2]]),
        cut("a square", &SQUARE, in_two),
        cut("as large as can be", &[(-127, -127), (127, -127), (127, 127), (-127, 127)], in_two),
        // Corners 1, 2 and 5 are in line and go.
        cut("corners in line", &[(0, 0), (1, 0), (2, 0), (3, 0), (3, 3), (2, 3), (0, 3)], &[[0, 3, 6], [3, 4, 6]]),
        // Corner 0 itself is in line.
        cut("the first corner in line", &[(1, 0), (2, 0), (2, 2), (0, 2), (0, 0)], &[[1, 2, 4], [2, 3, 4]]),
    ]
}

fn outlines_with_a_corner_in_the_way() -> Vec<SmallOutline> {
    vec![
        // Corner 3 is on the line from 1 to 4, the border of 0's triangle. Then it is inside 0's triangle, which has 2
        // for 1.
        cut("a corner on the border", &[(0, 0), (4, 0), (6, 5), (2, 2), (0, 4)], &[[1, 2, 0], [2, 3, 0], [0, 3, 4]]),
        // Corner 3 is on the border of the triangles of 0 and of 1. Without 2 it is in line with 1 and 4, and goes.
        cut("a corner that comes to be in line", &[(0, 0), (4, 0), (5, 5), (2, 2), (0, 4)], &[[2, 3, 1], [0, 1, 4]]),
        // Corner 3 is inside the triangles of 0 and of 1, and of 0 once more.
        cut("a notch", &[(0, 0), (6, 0), (6, 4), (2, 1), (0, 4)], &[[2, 3, 1], [1, 3, 0], [0, 3, 4]]),
        // Corner 5 is inside 0's triangle until 0, 5 and 7 are neighbours, and 4 inside 1's until 3 is gone.
        cut(
            "a slot",
            &[(-3, -2), (3, -2), (3, 2), (1, 2), (1, 0), (-1, 0), (-1, 2), (-3, 2)],
            &[[2, 3, 1], [3, 4, 1], [1, 4, 0], [4, 5, 0], [0, 5, 7], [5, 6, 7]],
        ),
    ]
}

fn outlines_of_bad_length() -> Vec<SmallOutline> {
    let nine = [(0, 0), (4, -1), (8, 0), (9, 4), (8, 8), (6, 9), (4, 9), (0, 8), (-1, 4)];
    let with_a_byte = [bytes_of(&SQUARE), vec![2]].concat();
    vec![
        refused_bytes("no bytes", vec![]),
        refused_bytes("one byte", vec![1]),
        refused("one corner", &SQUARE[..1]),
        refused("two corners", &SQUARE[..2]),
        refused("nine corners", &nine),
        cut("eight of them", &nine[..8], &[[0, 1, 7], [1, 2, 7], [2, 3, 7], [3, 4, 7], [4, 5, 7], [5, 6, 7]]),
        refused_bytes("a square and a byte", with_a_byte),
        refused("-128 as x", &[(-128, 0), (0, 0), (0, 2)]),
        refused("-128 as y", &[(0, -128), (2, 0), (0, 0)]),
        cut("-127 as x", &[(-127, 0), (0, 0), (0, 2)], &[[0, 1, 2]]),
        cut("-127 as y", &[(0, -127), (2, 0), (0, 0)], &[[0, 1, 2]]),
    ]
}

/// But for the first three, their doubled areas are positive.
fn outlines_whose_edges_meet() -> Vec<SmallOutline> {
    vec![
        refused("clockwise", &[(0, 0), (0, 2), (2, 2), (2, 0)]),
        refused("all in line", &[(0, 0), (1, 0), (2, 0)]),
        // Edges of no length: they meet at corners that they share, and nothing but the area is amiss.
        refused("three corners on one dot", &[(1, 2), (1, 2), (1, 2)]),
        refused("a bow tie", &[(0, 0), (4, 0), (0, 1), (3, 6)]),
        refused("a five-pointed star", &[(0, 10), (-6, -8), (10, 3), (-10, 3), (6, -8)]),
        refused("a corner on an edge", &[(0, 0), (4, 0), (4, 4), (2, 0), (0, 4)]),
        refused("two corners on one dot", &[(0, 0), (2, 0), (1, 1), (2, 2), (0, 2), (1, 1)]),
        refused("the same corner twice", &[(0, 0), (2, 0), (2, 0), (2, 2), (0, 2)]),
        refused("an edge that doubles back", &[(0, 0), (4, 0), (2, 0), (2, 2)]),
        refused("an edge there and back", &[(0, 0), (2, 0), (4, 0), (2, 0), (2, 2)]),
        refused("edges along each other", &[(0, 0), (6, 0), (6, 2), (4, 0), (2, 0), (0, 2)]),
    ]
}
