//! Boards of common cut, worked out by hand, mostly of two squares in one row as in `pairs`.

use super::pairs::{at_gap_0, at_gap_2, at_gap_3, copies, copies_at_gap_3, two_types};
use super::*;

pub fn boards_of_common_cut() -> Vec<SmallBoard> {
    let mut boards = boards_of_copies();
    boards.extend(boards_of_outranked_copies());
    boards.extend(boards_with_a_common_cut());
    boards.extend(boards_of_outranked_cuts());
    boards.extend(boards_without_a_shared_cut());
    boards.push(board_of_three_squares());
    boards
}

/// The first example of request 8: a class of rank 1 and gap 3, and a common cut of rank 9.
const OUTRANKED: [[u8; 3]; 2] = [[0, 1, 3], [2, 9, 129]];

/// Two squares of one type: its best-ranked class is that of both.
fn boards_of_copies() -> Vec<SmallBoard> {
    let in_both = |classes: &[[u8; 3]]| copies(4, classes, 0b101);
    vec![
        board("common cut, L 4", squares_with_gap(2, 4, 129), as_printed()),
        board("common cut, L 3", squares_with_gap(2, 3, 129), vec![run(u32::MAX, "none 2\n")]),
        // A column more, from which a square reaches past the first layout's length.
        board("common cut, L 5", squares_with_gap(2, 5, 129), as_printed()),
        board("common cut before another class", in_both(&[[0, 9, 3], [2, 1, 129]]), as_printed()),
        board("common cut before another", in_both(&[[0, 9, 131], [2, 1, 129]]), as_printed()),
        board(
            "common cut on a larger board",
            squares_with_gap(4, 6, 129),
            vec![
                conflict((0, 0), (2, 0), false),
                conflict((0, 0), (0, 2), false),
                conflict((0, 0), (1, 0), true),
                // What is left between the clamps is as large as W 2, L 4.
                run_under(1, "shortest 6 3\n0 1 1 0\n0 3 1 0\n"),
            ],
        ),
    ]
}

/// Two squares of one type in a common cut and in a better-ranked class of gap 3, which counts.
fn boards_of_outranked_copies() -> Vec<SmallBoard> {
    let on = |width, length| Draft::new(width, length, 1).classes(&OUTRANKED).with(2, 1, 0b101, &[SQUARE]);
    vec![
        board("common cut behind a better-ranked class, L 7", on(2, 7), copies_at_gap_3()),
        // The first square is tried on each of the five columns.
        board("the same, L 6", on(2, 6), vec![run(u32::MAX, "none 5\n")]),
        // What is left between the clamps is as large as W 2, L 7.
        board("the same, margin 1", on(4, 9), vec![run_under(1, "shortest 9 6\n0 1 1 0\n0 6 1 0\n")]),
    ]
}

/// Where the best-ranked class of both is one and marked, whatever is behind it, the squares touch.
fn boards_with_a_common_cut() -> Vec<SmallBoard> {
    let touching = |name, classes: &[[u8; 3]], masks| board(name, two_types(4, classes, masks), at_gap_0());
    vec![
        touching("two types in a cut", &[[0, 0, 129]], [1, 1]),
        touching("a cut before a class of each", &[[0, 1, 129], [1, 5, 3], [2, 9, 3]], [0b011, 0b101]),
        touching("a cut before a class of one", &[[0, 9, 3], [2, 1, 131]], [0b100, 0b101]),
        touching("a cut before another of one", &[[3, 1, 131], [6, 2, 130]], [1 << 3 | 1 << 6, 1 << 3]),
        touching("a cut of the last id", &[[7, 0, 129]], [1 << 7, 1 << 7]),
        touching("a cut of rank 127 before rank 128", &[[0, 127, 129], [1, 128, 3]], [0b11, 0b11]),
        // Not for the cut: the larger of 0 and 0.
        touching("a cut behind a class of gap 0 of both", &[[0, 1, 0], [1, 2, 130]], [0b11, 0b11]),
    ]
}

/// Where a marked class is shared that is not the best-ranked of both, the squares are to be as far apart as the larger
/// gap of their best-ranked classes says: 3.
fn boards_of_outranked_cuts() -> Vec<SmallBoard> {
    let apart = |name, classes: &[[u8; 3]], masks| board(name, two_types(7, classes, masks), at_gap_3());
    let too_short = two_types(6, &OUTRANKED, [0b101, 0b101]);
    vec![
        // The two examples of request 8.
        apart("a class of rank 1 and a cut of rank 9, both", &OUTRANKED, [0b101, 0b101]),
        apart("both, and the cut alone", &OUTRANKED, [0b101, 0b100]),
        apart("the cut alone, and both", &OUTRANKED, [0b100, 0b101]),
        apart("the classes in another order", &[OUTRANKED[1], OUTRANKED[0]], [0b101, 0b100]),
        // The first square is tried on each of the five columns.
        board("both and both, 1 too short", too_short, vec![run(u32::MAX, "none 5\n")]),
        apart("a cut behind a class of each", &[[0, 9, 129], [1, 1, 3], [2, 2, 3]], [0b011, 0b101]),
        apart("a class behind a class of each", &[[0, 9, 1], [1, 1, 3], [2, 2, 3]], [0b011, 0b101]),
        apart("a cut behind another of one", &[[3, 1, 131], [6, 2, 130]], [1 << 3 | 1 << 6, 1 << 6]),
        apart("a cut behind another of each", &[[0, 1, 131], [1, 2, 129], [2, 9, 130]], [0b101, 0b110]),
        // A gap of 63 is not asked for, and the larger of two may be that of the cut.
        apart("a cut of gap 63 behind a class", &[[0, 1, 3], [2, 9, 191]], [0b101, 0b101]),
        apart("a cut of gap 3 behind gap 1 of one", &[[0, 1, 1], [2, 9, 131]], [0b101, 0b100]),
        apart("a cut of gap 3 behind gap 0 of one", &[[0, 1, 0], [2, 9, 131]], [0b101, 0b100]),
        apart("a cut of rank 128 behind rank 127", &[[0, 128, 129], [1, 127, 3]], [0b11, 0b11]),
    ]
}

/// Where no marked class is shared, the squares below are to be 2 apart.
fn boards_without_a_shared_cut() -> Vec<SmallBoard> {
    let apart = |name, classes: &[[u8; 3]], masks| board(name, two_types(6, classes, masks), at_gap_2());
    let smaller_cut = [[0, 5, 129], [1, 7, 2]];
    let too_short = two_types(5, &smaller_cut, [0b01, 0b10]);
    vec![
        apart("a cut of gap 1, a class of gap 2", &smaller_cut, [0b01, 0b10]),
        board("the same, 1 too short", too_short, vec![run(u32::MAX, "none 4\n")]),
        apart("a cut of gap 2, a class of gap 1", &[[0, 5, 130], [1, 7, 1]], [0b01, 0b10]),
        apart("a cut of gap 2, no class", &[[0, 5, 130]], [1, 0]),
        apart("a cut of the last rank, no class", &[[0, 255, 130]], [1, 0]),
        apart("a cut each", &[[0, 5, 129], [1, 7, 130]], [0b01, 0b10]),
        apart("a cut each, of one gap", &[[0, 5, 130], [1, 7, 130]], [0b01, 0b10]),
        apart("a cut of one, a class of both", &[[0, 5, 130], [1, 9, 0]], [0b11, 0b10]),
        apart("a cut behind the class that counts", &[[0, 9, 131], [1, 5, 2], [2, 7, 0]], [0b011, 0b100]),
        apart("a cut of each behind a class of both", &[[0, 5, 2], [1, 7, 131], [2, 9, 129]], [0b011, 0b101]),
    ]
}

/// Two of the first type touch, and the second is 2 apart from the nearer.
fn board_of_three_squares() -> SmallBoard {
    board(
        "two in a cut, one in no class",
        Draft::new(2, 8, 1).classes(&[[0, 5, 130]]).with(2, 1, 1, &[SQUARE]).with(1, 1, 0, &[SQUARE]),
        vec![run(u32::MAX, "shortest 8 14\n0 0 0 0\n0 2 0 0\n1 6 0 0\n")],
    )
}
