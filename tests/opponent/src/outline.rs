//! An outline as plain integers, and whether it may be cut.

use crate::mutant;

/// For eight corners, and for the ninth that a mistake lets in.
pub const ROOM: usize = 9;

pub type Corner = (i32, i32);

pub struct Outline {
    pub at: [Corner; ROOM],
    pub corners: usize,
}

impl Outline {
    /// The outline of these bytes, if nothing refuses it.
    pub fn accepted(bytes: &[u8]) -> Option<Outline> {
        if !good_length(bytes.len()) {
            return None;
        }
        let mut outline = Outline::read(bytes);
        if outline.corners == 2 {
            // A mistake let them in. Their area would not.
            return Some(outline);
        }
        let corners = &mut outline.at[..outline.corners];
        if mutant::is("cut_clockwise_reversed") && area(corners) < 0 {
            corners.reverse();
        }
        let in_range = corners.iter().all(|&(x, y)| good_coordinate(x) && good_second_coordinate(y));
        (in_range && good_area(area(corners)) && !outline.edges_meet()).then_some(outline)
    }

    fn read(bytes: &[u8]) -> Outline {
        let mut at = [(0, 0); ROOM];
        for (corner, pair) in at.iter_mut().zip(bytes.chunks_exact(2)) {
            *corner = (coordinate(pair[0]), coordinate(pair[1]));
        }
        Outline { at, corners: bytes.len() / 2 }
    }

    /// Two edges meet anywhere but at the corner shared by neighbours. The mistakes: not asked at all, or not of the edge
    /// from the last corner back to the first.
    fn edges_meet(&self) -> bool {
        if mutant::is("cut_edges_not_asked") {
            return false;
        }
        let edges = self.corners - usize::from(mutant::is("cut_closing_edge_not_asked"));
        (0..edges).any(|j| (0..j).any(|i| self.meet(i, j)))
    }

    fn edge(&self, from: usize) -> (Corner, Corner) {
        (self.at[from % self.corners], self.at[(from + 1) % self.corners])
    }

    /// The edges from the corners i and j, the first of which is the lower.
    fn meet(&self, i: usize, j: usize) -> bool {
        if j == i + 1 {
            return self.doubles_back(i);
        }
        if j + 1 == self.corners && i == 0 {
            return self.doubles_back(j);
        }
        let (one, other) = (self.edge(i), self.edge(j));
        !mutant::is("cut_crossing_accepted") && cross(one, other) || !self.may_touch(i, j) && touch(one, other)
    }

    /// The edge from this corner and the next one have more in common than the corner between them.
    fn doubles_back(&self, from: usize) -> bool {
        !mutant::is("cut_doubling_back_accepted") && self.turns_round(from)
    }

    fn turns_round(&self, from: usize) -> bool {
        let ((a, b), (_, c)) = (self.edge(from), self.edge(from + 1));
        turn(a, b, c) == 0 && (b.0 - a.0) * (c.0 - b.0) + (b.1 - a.1) * (c.1 - b.1) < 0
    }

    /// The mistakes: any edges may touch; or those next but one to each other may, if they do because one of them or the
    /// edge between them doubles back.
    fn may_touch(&self, i: usize, j: usize) -> bool {
        let next_but_one =
            |i: usize, j: usize| (i + 2) % self.corners == j && (self.turns_round(i) || self.turns_round(i + 1));
        mutant::is("cut_touching_accepted")
            || mutant::is("cut_doubling_back_accepted") && (next_but_one(i, j) || next_but_one(j, i))
    }
}

/// Three to eight corners and nothing left over. The mistakes: one more or fewer, or a byte.
fn good_length(bytes: usize) -> bool {
    let least =
        3 + usize::from(mutant::is("cut_three_corners_refused")) - usize::from(mutant::is("cut_two_corners_accepted"));
    let most =
        8 + usize::from(mutant::is("cut_nine_corners_accepted")) - usize::from(mutant::is("cut_eight_corners_refused"));
    (bytes % 2 == 0 || mutant::is("cut_odd_byte_accepted")) && (least..=most).contains(&(bytes / 2))
}

/// A mistake: bytes without a sign.
fn coordinate(byte: u8) -> i32 {
    if mutant::is("cut_unsigned_coordinates") {
        return byte.into();
    }
    (byte as i8).into()
}

/// The mistakes: -128 is one, or -127 is none.
fn good_coordinate(n: i32) -> bool {
    n > -128 + i32::from(mutant::is("cut_minus_127_refused")) || mutant::is("cut_minus_128_accepted")
}

/// A mistake: y is not looked at.
fn good_second_coordinate(n: i32) -> bool {
    mutant::is("cut_minus_128_of_y_accepted") || good_coordinate(n)
}

/// Twice the area, above 0 for corners that go anticlockwise. A mistake: in 16 bits.
fn area(corners: &[Corner]) -> i32 {
    let first = corners[0];
    let sum = corners.windows(2).map(|pair| doubled(first, pair[0], pair[1])).sum();
    narrow(sum, "cut_area_of_16_bits")
}

/// The mistakes: an area of 0 will do, or one below it.
fn good_area(area: i32) -> bool {
    area > 0 || area == 0 && mutant::is("cut_area_0_accepted") || area < 0 && mutant::is("cut_clockwise_accepted")
}

/// In 16 bits, if that mistake is made.
pub fn narrow(n: i32, mistake: &str) -> i32 {
    if mutant::is(mistake) {
        return (n as i16).into();
    }
    n
}

/// Twice the area of a triangle, above 0 if its corners go anticlockwise. A mistake: differences as bytes.
pub fn doubled(a: Corner, b: Corner, c: Corner) -> i32 {
    let bytes = mutant::is("cut_differences_as_bytes");
    let minus = |n: i32, m: i32| if bytes { i32::from((n - m) as i8) } else { n - m };
    minus(b.0, a.0) * minus(c.1, a.1) - minus(b.1, a.1) * minus(c.0, a.0)
}

/// Above 0 for a left turn at b, 0 for none. A mistake: in 16 bits.
pub fn turn(a: Corner, b: Corner, c: Corner) -> i32 {
    narrow(doubled(a, b, c), "cut_turn_of_16_bits")
}

type Edge = (Corner, Corner);

/// The side of an edge that a corner is on: 1 on the left, 0 on its line. A mistake: in 16 bits.
fn side((a, b): Edge, at: Corner) -> i32 {
    narrow(doubled(a, b, at), "cut_sides_of_16_bits").signum()
}

/// Each has its ends on both sides of the other.
fn cross(one: Edge, other: Edge) -> bool {
    let parts = |edge: Edge, (a, b): Edge| side(edge, a) * side(edge, b) < 0;
    parts(one, other) && parts(other, one)
}

/// An end of one lies on the other.
fn touch(one: Edge, other: Edge) -> bool {
    lies_on(one.0, other) || lies_on(one.1, other) || lies_on(other.0, one) || lies_on(other.1, one)
}

/// A mistake: not if it is an end.
fn lies_on(at: Corner, edge: Edge) -> bool {
    let (a, b) = edge;
    if mutant::is("cut_corners_on_one_dot_accepted") && (at == a || at == b) {
        return false;
    }
    let within = |n: i32, one: i32, other: i32| one.min(other) <= n && n <= one.max(other);
    side(edge, at) == 0 && within(at.0, a.0, b.0) && within(at.1, a.1, b.1)
}
