//! Boards of runs that begin from a given layout, worked out by hand. A square is 2 by 2, so that from column c it reaches
//! to c + 2; a given layout is a bound from the beginning, below which every candidate has to stay.

use super::pairs::copies;
use super::*;
use crate::reference::services::bytes_of;

/// Two squares in one row, one column between them.
const APART: &[u16] = &[0, 0, 0, 0, 0, 3, 0, 0];

pub fn boards_with_a_given_layout() -> Vec<SmallBoard> {
    let mut boards = boards_in_one_row();
    boards.push(board_in_one_row_with_a_gap());
    boards.extend(boards_with_equal_lengths());
    boards.push(board_under_a_margin());
    boards.extend(boards_made_by_squares());
    boards.extend(boards_made_with_less_room());
    boards.extend(boards_of_unfit_layouts());
    boards
}

fn begun(layout: &[u16], budget: u32, printed: &'static str) -> Claim {
    begun_under(0, layout, budget, printed)
}

fn begun_under(margin: u64, layout: &[u16], budget: u32, printed: &'static str) -> Claim {
    Claim::Run { margin, budget, given: bytes_of(layout), printed }
}

/// On W 2 squares stand in one row, and what counts is their columns.
fn boards_in_one_row() -> Vec<SmallBoard> {
    let at_the_end = &[0, 1, 0, 0, 0, 3, 0, 0];
    let touching = "shortest 4 2\n0 0 0 0\n0 2 0 0\n";
    // Below 4 there are columns 0 and 1: as many as copies. From neither is there room for a second square below 4.
    let kept = |budget| begun(TOUCHING, budget, touching);
    // Below 5 there are columns 0 to 2. From column 0 the second square has column 2, which completes length 4. Then the
    // first is tried on column 1 as well, and on no other, since it has to stay below 4.
    let shortened = |layout| begun(layout, u32::MAX, NESTED);
    vec![
        // The columns are 0 to 2, and 0 and 2 are the one layout that passes.
        board(
            "given, L 4",
            squares(2, 4),
            vec![
                kept(u32::MAX),
                kept(2),
                begun(TOUCHING, 1, "stopped 4 1\n0 0 0 0\n0 2 0 0\n"),
                begun(TOUCHING, 0, "stopped 4 0\n0 0 0 0\n0 2 0 0\n"),
                begun(APART, u32::MAX, "refused 11\n"),
            ],
        ),
        // The columns are 0 to 3, and three layouts pass: 0 and 2 of length 4, 0 and 3, 1 and 3 of length 5.
        board(
            "given, L 5",
            squares(2, 5),
            vec![
                kept(u32::MAX),
                shortened(APART),
                shortened(at_the_end),
                begun(at_the_end, 3, NESTED),
                begun(at_the_end, 2, "stopped 4 2\n0 0 0 0\n0 2 0 0\n"),
                begun(at_the_end, 1, "stopped 5 1\n0 1 0 0\n0 3 0 0\n"),
                begun(APART, 0, "stopped 5 0\n0 0 0 0\n0 3 0 0\n"),
            ],
        ),
    ]
}

/// The same row with a gap of 1.
fn board_in_one_row_with_a_gap() -> SmallBoard {
    let at_the_end = &[0, 1, 0, 0, 0, 4, 0, 0];
    // The columns are 0 to 4, and three layouts pass: 0 and 3 of length 5, 0 and 4, 1 and 4 of length 6. Below 5 the
    // first square is tried on columns 0 to 2. Below 6 it is tried on column 0, completed by column 3, and then on
    // columns 1 and 2 as well.
    board(
        "given, gap 1, L 6",
        squares_with_gap(2, 6, 1),
        vec![
            begun(APART, u32::MAX, "shortest 5 3\n0 0 0 0\n0 3 0 0\n"),
            begun(at_the_end, u32::MAX, "shortest 5 4\n0 0 0 0\n0 3 0 0\n"),
            begun(at_the_end, 1, "stopped 6 1\n0 1 0 0\n0 4 0 0\n"),
            begun(TOUCHING, u32::MAX, "refused 11\n"),
        ],
    )
}

/// Where several layouts are as short as can be, a given one stands, though it is not the first of them.
fn boards_with_equal_lengths() -> Vec<SmallBoard> {
    let upper = &[0, 0, 1, 0, 0, 0, 3, 0];
    let upper_row = &[0, 0, 1, 0, 0, 2, 1, 0];
    vec![
        // One column of the rows 0 to 3: all layouts are 2 long, and nothing is below 2, so that no step is taken.
        board(
            "given, one column",
            squares(5, 2),
            vec![
                run(u32::MAX, "shortest 2 2\n0 0 0 0\n0 0 2 0\n"),
                begun(upper, u32::MAX, "shortest 2 0\n0 0 1 0\n0 0 3 0\n"),
                begun(upper, 0, "shortest 2 0\n0 0 1 0\n0 0 3 0\n"),
            ],
        ),
        // Columns 0 to 2 of two rows. Four layouts pass, with a square in each of the columns 0 and 2. Without a given
        // one the first is completed in two steps, and the first square is then tried on the three other dots below 4;
        // with one it is tried on all four.
        board(
            "given, two rows",
            squares(3, 4),
            vec![
                run(u32::MAX, "shortest 4 5\n0 0 0 0\n0 2 0 0\n"),
                begun(upper_row, u32::MAX, "shortest 4 4\n0 0 1 0\n0 2 1 0\n"),
                begun(upper_row, 4, "shortest 4 4\n0 0 1 0\n0 2 1 0\n"),
                begun(upper_row, 3, "stopped 4 3\n0 0 1 0\n0 2 1 0\n"),
            ],
        ),
    ]
}

/// Corners in 1 to 5 by 1 to 3 leave the columns 1 to 3 of row 1, as on W 2, L 4; lengths have the margin in them.
fn board_under_a_margin() -> SmallBoard {
    let inside = &[0, 1, 1, 0, 0, 3, 1, 0];
    board(
        "given, margin 1, L 6",
        squares(4, 6),
        vec![
            begun_under(1, inside, u32::MAX, "shortest 6 2\n0 1 1 0\n0 3 1 0\n"),
            begun_under(1, inside, 1, "stopped 6 1\n0 1 1 0\n0 3 1 0\n"),
            // In the clamps, so that it passes without a margin alone. There the second square has room in the column of
            // the first, in row 2, and nothing is below 2.
            begun_under(1, TOUCHING, u32::MAX, "refused 11\n"),
            begun(TOUCHING, u32::MAX, "shortest 2 2\n0 0 0 0\n0 0 2 0\n"),
            begun(TOUCHING, 1, "stopped 4 1\n0 0 0 0\n0 2 0 0\n"),
            // Without the margin its length is 5.
            begun(inside, 0, "stopped 5 0\n0 1 1 0\n0 3 1 0\n"),
            begun_under(2, inside, u32::MAX, "refused 11\n"),
            begun_under(64, inside, u32::MAX, "refused 13\n"),
            begun_under(64, &[0], u32::MAX, "refused 13\n"),
        ],
    )
}

/// What runs held that were stopped while the gap was a square.
fn boards_made_by_squares() -> Vec<SmallBoard> {
    // 5 apart along the sheet. The second square is then found 3 along it and 4 across, as without a given layout.
    let five_along = &[0, 0, 0, 0, 0, 7, 0, 0];
    // On W 2 there is no room across, and the gap along the sheet is the same by both measures.
    let three_along = &[0, 0, 0, 0, 0, 5, 0, 0];
    vec![
        board(
            "given by squares, W 8",
            squares_with_gap(8, 9, 5),
            vec![
                check(five_along, Ok(9)),
                begun(five_along, u32::MAX, "shortest 7 36\n0 0 0 0\n0 5 6 0\n"),
                begun(five_along, 2, "stopped 7 2\n0 0 0 0\n0 5 6 0\n"),
                begun(five_along, 1, "stopped 9 1\n0 0 0 0\n0 7 0 0\n"),
            ],
        ),
        // Below 7 the first square is tried on the columns 0 to 4.
        board(
            "given by squares, W 2",
            squares_with_gap(2, 7, 3),
            vec![check(three_along, Ok(7)), begun(three_along, u32::MAX, "shortest 7 5\n0 0 0 0\n0 5 0 0\n")],
        ),
    ]
}

/// Two squares that touch, as runs held them by rules of before, and whether they still may.
fn boards_made_with_less_room() -> Vec<SmallBoard> {
    let three_along = &[0, 0, 0, 0, 0, 5, 0, 0];
    // Below 7 the first square is tried on the columns 0 to 4.
    let now_apart = |name, classes: &[[u8; 3]], mask| {
        let kept = begun(three_along, u32::MAX, "shortest 7 5\n0 0 0 0\n0 5 0 0\n");
        board(name, copies(7, classes, mask), vec![begun(TOUCHING, u32::MAX, "refused 11\n"), kept])
    };
    // As on W 2, L 5 without a gap.
    let still_touching = |name, classes: &[[u8; 3]], mask| {
        let kept = begun(TOUCHING, u32::MAX, "shortest 4 2\n0 0 0 0\n0 2 0 0\n");
        board(name, copies(5, classes, mask), vec![kept, begun(APART, u32::MAX, NESTED)])
    };
    vec![
        // While any shared common cut was enough: in a class of gap 3 and a cut, of which one is ranked first.
        now_apart("given, a cut behind a class", &[[0, 1, 3], [2, 9, 129]], 0b101),
        still_touching("given, a cut before a class", &[[0, 9, 3], [2, 1, 129]], 0b101),
        // While types in no class had no gap: still in none, or fillers now.
        now_apart("given, in no class", &[[0, 1, 0], [2, 9, 3]], 0),
        still_touching("given, fillers", &[[0, 1, 0], [2, 9, 3]], 0b001),
    ]
}

/// Bytes that are no passing layout of two squares on W 2, L 5, or have some more behind one.
fn boards_of_unfit_layouts() -> Vec<SmallBoard> {
    let begun_from = |given: &[u8], printed| Claim::Run { margin: 0, budget: u32::MAX, given: given.to_vec(), printed };
    let refused = |given: &[u8]| begun_from(given, "refused 11\n");
    let fit = bytes_of(TOUCHING);
    let with = |more: &[u8]| [&fit, more].concat();
    vec![
        board(
            "given layouts that are unfit",
            squares(2, 5),
            vec![
                begun_from(&[], NESTED),
                refused(&[0]),
                refused(&[0, 0]),
                refused(&fit[..14]),
                refused(&fit[..15]),
                begun_from(&with(&[0xFF]), "shortest 4 2\n0 0 0 0\n0 2 0 0\n"),
                refused(&with(&[0, 0])),
                refused(&with(&fit)),
                // In conflict; the same dot twice; out of order; a type, a column, a row and a turn that are not there.
                refused(&bytes_of(&[0, 0, 0, 0, 0, 1, 0, 0])),
                refused(&bytes_of(&[0, 0, 0, 0, 0, 0, 0, 0])),
                refused(&bytes_of(&[0, 2, 0, 0, 0, 0, 0, 0])),
                refused(&bytes_of(&[0, 0, 0, 0, 1, 2, 0, 0])),
                refused(&bytes_of(&[0, 0, 0, 0, 0, 4, 0, 0])),
                refused(&bytes_of(&[0, 0, 0, 0, 0, 2, 1, 0])),
                refused(&bytes_of(&[0, 0, 0, 0, 0, 2, 0, 1])),
            ],
        ),
        // No layout passes, so none can be given.
        board("given, L 3", squares(2, 3), vec![refused(&fit), begun_from(&[], "none 2\n")]),
        board("given with a job that is refused", cornered(-128), vec![begun_from(&fit, "refused 7\n")]),
    ]
}
