//! Boards of the gap of a round cutter, worked out by hand. Corners that are to be 5 apart stand 3 and 4 off; slanting
//! edges are 10 long, so that distances from them are tenths.

use super::*;

/// Its long edge, from (8,0) to (0,6), is 10 long and lies on 6x + 8y = 48. What 6x + 8y is above 48, divided by 10, is
/// the distance of a point before the middle of that edge.
const HALF: &[(i8, i8)] = &[(0, 0), (8, 0), (0, 6)];
/// What is left of a sheet of 8 by 6.
const OTHER_HALF: &[(i8, i8)] = &[(8, 0), (8, 6), (0, 6)];
const PLATE: &[(i8, i8)] = &[(0, 0), (2, 0), (2, 1), (0, 1)];

pub fn boards_of_the_round_gap() -> Vec<SmallBoard> {
    let mut boards = boards_of_plates();
    boards.extend(boards_of_corners());
    boards.extend(boards_of_slanting_edges());
    boards.extend(boards_of_halves());
    boards.extend(boards_of_hollows());
    boards.extend(boards_that_overlap());
    boards
}

/// One piece of each of two types, all in one class of this gap.
fn two_pieces(sheet: Draft, gap: u8, one: &[&[(i8, i8)]], other: &[&[(i8, i8)]]) -> Draft {
    sheet.classes(&[[0, 0, gap]]).with(1, 1, 1, one).with(1, 1, 1, other)
}

/// Conflicts of the first type on a dot with the second on another, asked both ways.
fn conflicts(claims: &[(Dot, Dot, bool)]) -> Vec<Claim> {
    let both_ways = |&(one, other, holds): &(Dot, Dot, bool)| {
        [conflict_of((0, 1), one, other, holds), conflict_of((1, 0), other, one, holds)]
    };
    claims.iter().flat_map(both_ways).collect()
}

/// Two plates of 2 by 1 on a board of four dots, 5 apart: in one column the plates are 4 apart, in one row 3, and
/// otherwise 5. As a square, a gap of 5 would leave no place for the second.
fn boards_of_plates() -> Vec<SmallBoard> {
    let plates = |length, gap_byte| Draft::new(6, length, 5).classes(&[[0, 0, gap_byte]]).with(2, 1, 1, &[PLATE]);
    let across = |length| check(&[0, 0, 0, 0, 0, 1, 1, 0], length);
    vec![
        // Then the first plate is tried on the dot above, from where no second one makes it shorter.
        board("plates at gap 5", plates(7, 5), vec![run(u32::MAX, "shortest 7 3\n0 0 0 0\n0 1 1 0\n"), across(Ok(7))]),
        // The first plate is tried on each of the four dots.
        board("plates at gap 6", plates(7, 6), vec![run(u32::MAX, "none 4\n"), across(Err(11))]),
        // One column is left, of two dots.
        board("plates at gap 5, 1 too short", plates(6, 5), vec![run(u32::MAX, "none 2\n")]),
        board("plates in a cut of gap 5", plates(7, 133), vec![run(u32::MAX, "shortest 2 2\n0 0 0 0\n0 0 1 0\n")]),
    ]
}

fn boards_of_corners() -> Vec<SmallBoard> {
    // Tips at (5,1) and, of the second on (8,4), at (8,5). On (7,4) it is 2 and 4 off, on (8,3) 3 and 3.
    let (right, left) = (&[(0, 0), (5, 1), (0, 2)], &[(0, 1), (5, 0), (5, 2)]);
    let tips = |gap| two_pieces(Draft::new(6, 13, 1), gap, &[right], &[left]);
    vec![
        // On W 8 squares are at most 4 apart across the sheet, so 3 along it; as a square, the gap takes 5 along it and
        // gives length 9. Then the first square is tried on the 34 other dots of seven rows and five columns.
        board(
            "squares at gap 5, W 8",
            squares_with_gap(8, 9, 5),
            vec![run(u32::MAX, "shortest 7 36\n0 0 0 0\n0 5 6 0\n"), check(&[0, 0, 0, 0, 0, 5, 6, 0], Ok(7))],
        ),
        board(
            "tips at gap 5",
            tips(5),
            conflicts(&[((0, 0), (8, 4), false), ((0, 0), (7, 4), true), ((0, 0), (8, 3), true)]),
        ),
        board("tips at gap 6", tips(6), conflicts(&[((0, 0), (8, 4), true)])),
    ]
}

/// The half of a sheet and a square, of which a corner is the nearest.
fn boards_of_slanting_edges() -> Vec<SmallBoard> {
    let on = |width, length, gap| two_pieces(Draft::new(width, length, 1), gap, &[HALF], &[SQUARE]);
    vec![
        // (7,7) is 3 and 4 off (4,3), the middle of the long edge: 50 / 10. (7,6) and (6,7): 42 / 10 and 44 / 10.
        board(
            "a corner before the middle of an edge, gap 5",
            on(10, 10, 5),
            conflicts(&[((0, 0), (7, 7), false), ((0, 0), (7, 6), true), ((0, 0), (6, 7), true)]),
        ),
        // (8,8): 64 / 10.
        board(
            "a corner before the middle of an edge, gap 6",
            on(10, 10, 6),
            conflicts(&[((0, 0), (7, 7), true), ((0, 0), (8, 8), false)]),
        ),
        // (5,4) and (4,4) lie within the half's box, so that no axis is between the two: 14 / 10 and 8 / 10.
        board(
            "a corner within the box, gap 1",
            on(10, 10, 1),
            conflicts(&[((0, 0), (5, 4), false), ((0, 0), (4, 4), true)]),
        ),
        board("a corner within the box, gap 2", on(10, 10, 2), conflicts(&[((0, 0), (5, 4), true)])),
        // (7,7) is the only place for the square, and there is none with the half on the three rows above.
        board("a half and a square, gap 5", on(9, 9, 5), vec![run(u32::MAX, "shortest 9 5\n0 0 0 0\n1 7 7 0\n")]),
        // The half is tried on four rows of two columns.
        board("a half and a square, gap 6", on(9, 9, 6), vec![run(u32::MAX, "none 8\n")]),
        // The half on (6,0) has its long edge on 6x + 8y = 84, up to (6,6). The corner (2,9) of the square is in line
        // with it, but 4 and 3 off its end. (2,8) is 4 and 2 off that end, (3,9) 3 and 3.
        board(
            "a corner in line with an edge, gap 5",
            on(11, 14, 5),
            conflicts(&[((6, 0), (0, 9), false), ((6, 0), (0, 8), true), ((6, 0), (1, 9), true)]),
        ),
        board("a corner in line with an edge, gap 6", on(11, 14, 6), conflicts(&[((6, 0), (0, 9), true)])),
    ]
}

/// Two halves, long edge to long edge: moved by (x,y) they are 6x + 8y tenths apart.
fn boards_of_halves() -> Vec<SmallBoard> {
    let halves = |gap| two_pieces(Draft::new(10, 16, 1), gap, &[HALF], &[OTHER_HALF]);
    // The sheet has room for 4 across, which takes 3 along it; as a square, the gap takes 14 times 5 in the place of 10
    // times 5, so 7 along it, and gives length 15. Then the first half is tried on the other four dots of its column
    // and on five of each of the next two.
    let mut claims = conflicts(&[((0, 0), (3, 4), false), ((0, 0), (2, 4), true)]);
    claims.push(run(u32::MAX, "shortest 11 16\n0 0 0 0\n1 3 4 0\n"));
    // 30 times as large, with 12 times the gap, on dots 12 apart: a step moves 12 times as far as on the sheet above,
    // so the walk is the same. Squared, some distances have more than 16 bits, and times an edge's squared length they do
    // not fit 32 signed bits.
    let (large, other) = (&[(-120, -84), (120, -84), (-120, 96)], &[(120, -84), (120, 96), (-120, 96)]);
    let mut large_claims = conflicts(&[((10, 7), (13, 11), false), ((10, 7), (12, 11), true)]);
    large_claims.push(run(u32::MAX, "shortest 276 16\n0 10 7 0\n1 13 11 0\n"));
    vec![
        board("two halves, gap 5", halves(5), claims),
        board("two halves, gap 6", halves(6), conflicts(&[((0, 0), (4, 4), true), ((0, 0), (5, 4), false)])),
        board("large halves, gap 60", two_pieces(Draft::new(228, 276, 12), 60, &[large], &[other]), large_claims),
    ]
}

/// Pieces of several parts, with room for another piece between these.
fn boards_of_hollows() -> Vec<SmallBoard> {
    // Two halves that meet in (8,0). A tip at (8,y) is 8y tenths from both long edges: 40 at y = 5, 32 at y = 4. At
    // (7,5) it is 34 tenths from the nearer one.
    let valley: [&[(i8, i8)]; 2] = [HALF, &[(8, 0), (16, 0), (16, 6)]];
    let in_valley = |gap| two_pieces(Draft::new(8, 16, 1), gap, &valley, &[&[(0, 0), (1, 3), (-1, 3)]]);
    let mut claims = conflicts(&[((0, 0), (8, 5), false), ((0, 0), (8, 4), true), ((0, 0), (7, 5), true)]);
    claims.push(run(u32::MAX, "shortest 16 2\n0 0 0 0\n1 8 5 0\n"));
    // Walls at x = 1 and x = 8, a floor at y = 1, and dots 4 apart: of those in the hollow, (4,4) alone leaves 3 on all
    // three sides of a square of 1 by 1.
    let hollow: [&[(i8, i8)]; 3] =
        [&[(0, 0), (9, 0), (9, 1), (0, 1)], &[(0, 0), (1, 0), (1, 7), (0, 7)], &[(8, 0), (9, 0), (9, 7), (8, 7)]];
    let in_hollow = |gap| two_pieces(Draft::new(8, 9, 4), gap, &hollow, &[&[(0, 0), (1, 0), (1, 1), (0, 1)]]);
    vec![
        board("a tip in a valley, gap 4", in_valley(4), claims),
        // The valley is tried on three rows.
        board("a tip in a valley, gap 5", in_valley(5), vec![run(u32::MAX, "none 3\n")]),
        board("a square in a hollow, gap 3", in_hollow(3), vec![run(u32::MAX, "shortest 9 2\n0 0 0 0\n1 1 1 0\n")]),
        board("a square in a hollow, gap 4", in_hollow(4), vec![run(u32::MAX, "none 1\n")]),
    ]
}

/// No corner is nearer than 9 to an edge of the other piece, but the pieces overlap.
fn boards_that_overlap() -> Vec<SmallBoard> {
    let sheet = || Draft::new(20, 20, 1);
    let large: &[(i8, i8)] = &[(0, 0), (20, 0), (20, 20), (0, 20)];
    let mut claims = conflicts(&[((0, 0), (9, 9), true)]);
    // The large square covers the sheet.
    claims.push(run(u32::MAX, "none 1\n"));
    let (along, across) = (&[(0, 0), (20, 0), (20, 2), (0, 2)], &[(0, 0), (2, 0), (2, 20), (0, 20)]);
    vec![
        board("a square inside a square, gap 5", two_pieces(sheet(), 5, &[large], &[SQUARE]), claims),
        board(
            "bars that cross, gap 5",
            two_pieces(sheet(), 5, &[along], &[across]),
            conflicts(&[((0, 9), (9, 0), true)]),
        ),
    ]
}
