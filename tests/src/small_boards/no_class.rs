//! Boards of types in no class, worked out by hand. On W 2, as `pairs` says, two squares that are to be a gap apart are
//! 2 + gap + 2 long: 4, 5 or 7 at a gap of 0, 1 or 3, found in 3 + gap steps. On a sheet that is 1 shorter the first
//! square is tried on all of the 2 + gap columns, and from none is there room for the second.

use super::pairs::{at_gap_0, at_gap_1, at_gap_3, copies, copies_at_gap_3, two_types};
use super::*;

/// The best-ranked class has the smaller gap.
const GAPS_3_AND_1: [[u8; 3]; 2] = [[1, 7, 3], [4, 2, 1]];
/// A class of gap 0 to put fillers into, behind one of gap 3.
const WITH_FILLERS: [[u8; 3]; 2] = [[0, 5, 3], [1, 7, 0]];

pub fn boards_of_no_class() -> Vec<SmallBoard> {
    let mut boards = boards_of_copies();
    boards.extend(boards_of_the_largest_possible_gap());
    boards.extend(boards_of_two_types());
    boards.extend(boards_of_fillers());
    boards
}

/// Two squares of one type in no class. Without a class list they touch, as on the printed board.
fn boards_of_copies() -> Vec<SmallBoard> {
    let touching = |name, classes: &[[u8; 3]]| board(name, copies(4, classes, 0), as_printed());
    let apart = |name, classes: &[[u8; 3]]| board(name, copies(7, classes, 0), copies_at_gap_3());
    let in_the_middle =
        [[6, 60, 2], [1, 200, 1], [7, 7, 1], [4, 90, 3], [0, 30, 0], [3, 0, 130], [5, 255, 129], [2, 128, 128]];
    let framed = Draft::new(4, 9, 1).classes(&GAPS_3_AND_1).with(2, 1, 0, &[SQUARE]);
    vec![
        touching("in no class, gap 0", &[[0, 0, 0]]),
        touching("in no class, a cut of gap 0", &[[0, 0, 128]]),
        board(
            "in no class, gap 1",
            copies(5, &[[0, 0, 1]], 0),
            vec![run(u32::MAX, "shortest 5 4\n0 0 0 0\n0 3 0 0\n"), check(TOUCHING, Err(11))],
        ),
        apart("in no class, gap 3", &[[7, 255, 3]]),
        apart("in no class, gaps 3 and 1", &GAPS_3_AND_1),
        apart("in no class, gaps 1 and 3", &[GAPS_3_AND_1[1], GAPS_3_AND_1[0]]),
        apart("in no class, gap 3 of the best rank", &[[1, 2, 3], [4, 7, 1]]),
        apart("in no class, eight classes", &in_the_middle),
        board("in no class, gap 3, L 6", copies(6, &GAPS_3_AND_1, 0), vec![run(u32::MAX, "none 5\n")]),
        // What is left between the clamps is as large as W 2, L 7.
        board("in no class, margin 1", framed, vec![run_under(1, "shortest 9 6\n0 1 1 0\n0 6 1 0\n")]),
        // The gap counts without the mark, and the squares are in no cut.
        apart("in no class, a cut of gap 3", &[[0, 0, 131]]),
        apart("in no class, a cut of gap 3 and gap 1", &[[2, 9, 131], [3, 1, 1]]),
        apart("in no class, a cut of gap 1 and gap 3", &[[2, 9, 129], [3, 1, 3]]),
    ]
}

/// 2 + 63 + 2 = 67.
fn boards_of_the_largest_possible_gap() -> Vec<SmallBoard> {
    let nested = || vec![run(u32::MAX, "shortest 67 66\n0 0 0 0\n0 65 0 0\n")];
    vec![
        board("in no class, gap 63", copies(67, &[[0, 0, 63], [1, 1, 62]], 0), nested()),
        board("in no class, a cut of gap 63", copies(67, &[[0, 0, 62], [1, 1, 191]], 0), nested()),
        board("in no class, gap 63, L 66", copies(66, &[[0, 0, 63]], 0), vec![run(u32::MAX, "none 65\n")]),
    ]
}

/// A square each of two types, of which one is in no class, or both are.
fn boards_of_two_types() -> Vec<SmallBoard> {
    let apart = |name, classes: &[[u8; 3]], masks| board(name, two_types(7, classes, masks), at_gap_3());
    vec![
        apart("both in no class", &GAPS_3_AND_1, [0, 0]),
        apart("both in no class, beside a cut", &[[0, 0, 131]], [0, 0]),
        apart("gap 1, and no class", &GAPS_3_AND_1, [1 << 4, 0]),
        apart("no class, and gap 1", &GAPS_3_AND_1, [0, 1 << 4]),
        apart("gap 3, and no class", &GAPS_3_AND_1, [1 << 1, 0]),
        apart("a cut of gap 3, and no class", &[[0, 0, 131]], [1, 0]),
        apart("no class, and a cut of gap 3", &[[0, 0, 131]], [0, 1]),
        apart("a cut of gap 3 behind gap 2, and no class", &[[0, 9, 131], [1, 5, 2]], [0b11, 0]),
        // Types in classes have the gaps that they had, whatever the largest is.
        board("gap 1 both, beside gap 3", two_types(5, &GAPS_3_AND_1, [1 << 4, 1 << 4]), at_gap_1()),
    ]
}

/// In a class of gap 0 squares touch, but not those in no class.
fn boards_of_fillers() -> Vec<SmallBoard> {
    // The fillers touch, and the third square is 3 apart from the nearer: 2 + 2 + 3 + 2 = 9, in three steps. The second
    // filler is then tried on the columns 3 to 6, and leaves no room for the third: 4 steps. With the first on column 1
    // the third has column 6, and the second filler, tried on 3 to 6, takes that room: 5 steps. With the first on one of
    // the columns 2 to 4 the third has none below 9, on 5 or 6 the second has none: 5 steps.
    let and_another = copies(9, &WITH_FILLERS, 0b10).with(1, 1, 0, &[SQUARE]);
    vec![
        board("fillers", copies(5, &WITH_FILLERS, 0b10), as_printed()),
        board("fillers of two types", two_types(4, &WITH_FILLERS, [0b10, 0b10]), at_gap_0()),
        board("a filler, and no class", two_types(7, &WITH_FILLERS, [0b10, 0]), at_gap_3()),
        board("no class, and a filler", two_types(7, &WITH_FILLERS, [0, 0b10]), at_gap_3()),
        board(
            "two fillers, and one in no class",
            and_another,
            vec![run(u32::MAX, "shortest 9 17\n0 0 0 0\n0 2 0 0\n1 7 0 0\n")],
        ),
    ]
}
