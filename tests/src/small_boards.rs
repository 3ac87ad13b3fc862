//! The section "Small boards" of document 01, marked and unmarked, with what it says of each, or document 02 after it;
//! and small boards that are refused, under a margin, of common cut, of types in no class, of the round gap, saved and
//! begun from a given layout, with what documents 01 and 02 make of them, worked out by hand (but for the bytes of the
//! largest content, which the encoder of the drafts puts together).

mod common_cut;
mod given;
mod no_class;
mod pairs;
mod round_gap;

use crate::draft::{encode, Arrangement, Draft};

pub enum Claim {
    /// What a program that passes this margin and budget, and gives a layout of these bytes, would print.
    Run { margin: u64, budget: u32, given: Vec<u8>, printed: &'static str },
    /// Conflict of the first type on one dot with the second on another, unturned; or what refuses the row.
    Conflict { margin: u64, types: (usize, usize), one: Dot, other: Dot, holds: Result<bool, u8> },
    /// The length of a layout; or what refuses it.
    Check { margin: u64, layout: &'static [u16], length: Result<u16, u8> },
    /// The refusal number that read gives, 0 if it accepts the job.
    Reads(u8),
    /// The numbers that read writes.
    Gives(Vec<u16>),
    /// The bytes that the job is saved to; or what refuses it.
    Saves(Result<Vec<u8>, u8>),
}

/// Column and row.
pub type Dot = (usize, usize);

pub struct SmallBoard {
    pub name: &'static str,
    pub bytes: Vec<u8>,
    pub claims: Vec<Claim>,
}

const SQUARE: &[(i8, i8)] = &[(0, 0), (2, 0), (2, 2), (0, 2)];
const LOWER: &[(i8, i8)] = &[(0, 0), (2, 0), (2, 2)];
const UPPER: &[(i8, i8)] = &[(0, 0), (2, 2), (0, 2)];
const STRIP: &[(i8, i8)] = &[(0, 0), (10, 10), (10, 11), (0, 1)];
const BAR: &[(i8, i8)] = &[(0, 0), (3, 0), (3, 1), (0, 1)];
const OCTAGON: &[(i8, i8)] = &[(1, 0), (3, 0), (4, 1), (4, 2), (3, 3), (1, 3), (0, 2), (0, 1)];
/// Off its dot by more than a small board is long.
const FAR: &[(i8, i8)] = &[(4, 4), (5, 4), (5, 5), (4, 5)];

/// The job as the document prints it.
pub const PRINTED: [u8; 33] = [
    0x02, 0x00, 0x04, 0x00, 0x01, 0x00, 0x02, 0x01, 0x00, 0x01, 0x04, 0x00, 0x00, 0x02, 0x00, 0x02, 0x02, 0x00,
    0x02, 0x00, 0x00, 0x00, 0x00, 0x06, 0x00, 0x0D, 0x00, 0x00, 0x01, 0x21, 0x00, 0x44, 0x42,
];

fn board(name: &'static str, draft: Draft, claims: Vec<Claim>) -> SmallBoard {
    SmallBoard { name, bytes: encode(&draft, &Arrangement::plain()).bytes, claims }
}

fn squares(width: u16, length: u16) -> Draft {
    Draft::new(width, length, 1).with(2, 1, 0, &[SQUARE])
}

fn squares_with_gap(width: u16, length: u16, gap_byte: u8) -> Draft {
    Draft::new(width, length, 1).classes(&[[0, 0, gap_byte]]).with(2, 1, 1, &[SQUARE])
}

fn run(budget: u32, printed: &'static str) -> Claim {
    Claim::Run { margin: 0, budget, given: vec![], printed }
}

fn run_under(margin: u64, printed: &'static str) -> Claim {
    Claim::Run { margin, budget: u32::MAX, given: vec![], printed }
}

fn conflict(one: Dot, other: Dot, holds: bool) -> Claim {
    conflict_of((0, 0), one, other, holds)
}

fn conflict_of(types: (usize, usize), one: Dot, other: Dot, holds: bool) -> Claim {
    Claim::Conflict { margin: 0, types, one, other, holds: Ok(holds) }
}

fn check(layout: &'static [u16], length: Result<u16, u8>) -> Claim {
    Claim::Check { margin: 0, layout, length }
}

impl Claim {
    pub fn margin(&self) -> u64 {
        match self {
            Claim::Run { margin, .. } | Claim::Conflict { margin, .. } | Claim::Check { margin, .. } => *margin,
            Claim::Reads(_) | Claim::Gives(_) | Claim::Saves(_) => 0,
        }
    }
}

pub fn small_boards() -> Vec<SmallBoard> {
    let mut boards = boards_of_the_paper();
    boards.extend(boards_refused());
    boards.extend(boards_under_a_margin());
    boards.extend(common_cut::boards_of_common_cut());
    boards.extend(no_class::boards_of_no_class());
    boards.extend(boards_of_gap_bytes());
    boards.extend(round_gap::boards_of_the_round_gap());
    boards.extend(boards_saved());
    boards.extend(given::boards_with_a_given_layout());
    boards
}

/// Two squares that touch.
const TOUCHING: &[u16] = &[0, 0, 0, 0, 0, 2, 0, 0];
const NESTED: &str = "shortest 4 3\n0 0 0 0\n0 2 0 0\n";

/// What holds of two squares that may touch, on W 2 and L 4 or 5.
fn as_printed() -> Vec<Claim> {
    let held = "stopped 4 2\n0 0 0 0\n0 2 0 0\n";
    let budgets = [run(u32::MAX, NESTED), run(3, NESTED), run(2, held), run(1, "stopped - 1\n")];
    budgets.into_iter().chain([check(TOUCHING, Ok(4))]).collect()
}

fn boards_of_the_paper() -> Vec<SmallBoard> {
    let most = u32::MAX;
    let two_ranks = |classes: &[[u8; 3]]| Draft::new(2, 5, 1).classes(classes).with(2, 1, 3, &[SQUARE]);
    let gap_1 = || vec![run(most, "shortest 5 4\n0 0 0 0\n0 3 0 0\n")];
    vec![
        SmallBoard { name: "the printed job", bytes: PRINTED.to_vec(), claims: as_printed() },
        board("W 2, L 4", squares(2, 4), as_printed()),
        board("L 3", squares(2, 3), vec![run(most, "none 2\n")]),
        board("L 1", squares(2, 1), vec![run(most, "none 0\n"), run(0, "none 0\n")]),
        board("gap 1, L 5", squares_with_gap(2, 5, 1), gap_1()),
        board("gap 1, L 4", squares_with_gap(2, 4, 1), vec![run(most, "none 3\n"), check(TOUCHING, Err(11))]),
        board(
            "squares that meet, squares that overlap",
            squares(4, 6),
            vec![conflict((0, 0), (2, 0), false), conflict((0, 0), (1, 0), true)],
        ),
        board("squares at gap 5", squares_with_gap(10, 10, 5), vec![conflict((0, 0), (5, 6), false)]),
        board("squares at gap 6", squares_with_gap(10, 10, 6), vec![conflict((0, 0), (5, 6), true)]),
        board(
            "two triangles",
            Draft::new(2, 2, 1).with(1, 1, 0, &[LOWER]).with(1, 1, 0, &[UPPER]),
            vec![run(most, "shortest 2 2\n0 0 0 0\n1 0 0 0\n")],
        ),
        board(
            "strips",
            Draft::new(12, 20, 1).with(2, 1, 0, &[STRIP]),
            vec![run(most, "shortest 10 2\n0 0 0 0\n0 0 1 0\n")],
        ),
        board(
            "bar, one turn",
            Draft::new(3, 1, 1).with(1, 2, 0, &[BAR]),
            vec![run(most, "shortest 1 1\n0 1 0 1\n")],
        ),
        board("bar, no turn", Draft::new(3, 1, 1).with(1, 1, 0, &[BAR]), vec![run(most, "none 0\n")]),
        board("ranks 5 and 9", two_ranks(&[[0, 5, 1], [1, 9, 3]]), gap_1()),
        board("ranks 9 and 5", two_ranks(&[[1, 9, 3], [0, 5, 1]]), gap_1()),
        board("1024 dots", squares(1, 511), vec![Claim::Reads(0), run(most, "none 0\n")]),
        board("1026 dots", squares(1, 512), vec![Claim::Reads(4)]),
        board("a corner at -127", cornered(-127), vec![Claim::Reads(0)]),
        board("a corner at -128", cornered(-128), vec![Claim::Reads(7)]),
    ]
}

/// What random jobs seldom have.
fn boards_refused() -> Vec<SmallBoard> {
    let absent_class_last = cornered(-128).with(1, 1, 1, &[SQUARE]);
    vec![
        board("1025 dots", squares(40, 24), vec![Claim::Reads(4)]),
        board("cause for 7 before cause for 6", absent_class_last, vec![Claim::Reads(6)]),
    ]
}

fn boards_under_a_margin() -> Vec<SmallBoard> {
    let row = |margin, one, other, holds| Claim::Conflict { margin, types: (0, 0), one, other, holds };
    let check = |margin, length| Claim::Check { margin, layout: &[0, 1, 1, 0, 0, 3, 1, 0], length };
    vec![
        // Corners in 1 to 5 by 1 to 3: three columns and one row are left, as on W 2, L 4.
        board(
            "margin 1, L 6",
            squares(4, 6),
            vec![
                run_under(1, "shortest 6 3\n0 1 1 0\n0 3 1 0\n"),
                Claim::Run { margin: 1, budget: 2, given: vec![], printed: "stopped 6 2\n0 1 1 0\n0 3 1 0\n" },
                Claim::Run { margin: 1, budget: 1, given: vec![], printed: "stopped - 1\n" },
                run_under(2, "none 0\n"),
                run_under(63, "none 0\n"),
                run_under(64, "refused 13\n"),
                run_under(u64::MAX, "refused 13\n"),
                check(0, Ok(5)),
                check(1, Ok(6)),
                check(2, Err(11)),
                check(64, Err(13)),
                row(1, (0, 0), (1, 1), Err(12)),
                row(64, (0, 0), (1, 1), Err(13)),
                row(1, (1, 1), (2, 1), Ok(true)),
                row(1, (1, 1), (3, 1), Ok(false)),
                // The two overlap, but the second is in the clamps.
                row(0, (1, 1), (1, 0), Ok(true)),
                row(1, (1, 1), (1, 0), Ok(false)),
            ],
        ),
        board("margin 1, L 5", squares(4, 5), vec![run_under(1, "none 2\n")]),
        // Corners in 1 to 7 by 1 to 5, dots at even numbers: two columns and one row are left.
        board(
            "margin 1, step 2",
            Draft::new(6, 8, 2).with(2, 1, 0, &[SQUARE]),
            vec![run_under(1, "shortest 7 2\n0 1 1 0\n0 2 1 0\n")],
        ),
        // The first dots past the clamps are at 100, and the shortest layout reaches 102.
        board(
            "the largest margin",
            Draft::new(1000, 1000, 100).with(2, 1, 0, &[SQUARE]),
            vec![run_under(63, "shortest 165 2\n0 1 1 0\n0 1 2 0\n"), run_under(64, "refused 13\n")],
        ),
        // On the first dot the piece is past the margin, but past the board too.
        board("a margin above the sides", Draft::new(2, 2, 1).with(1, 1, 0, &[FAR]), vec![run_under(3, "none 0\n")]),
        board("a margin above the length", Draft::new(20, 2, 1).with(1, 1, 0, &[FAR]), vec![run_under(3, "none 0\n")]),
        board("a margin above the width", Draft::new(2, 20, 1).with(1, 1, 0, &[FAR]), vec![run_under(3, "none 0\n")]),
        board("a margin and a job, both refused", cornered(-128), vec![run_under(64, "refused 7\n")]),
    ]
}

/// The limits of the gap byte: what read says of each, and how two squares of the class nest on W 2, L 4.
fn boards_of_gap_bytes() -> Vec<SmallBoard> {
    let accepted = [
        ("gap byte 0", 0, [0, 0], NESTED),
        ("gap byte 63", 63, [63, 0], "none 3\n"),
        ("gap byte 128", 128, [0, 1], NESTED),
        ("gap byte 129", 129, [1, 1], NESTED),
        ("gap byte 190", 190, [62, 1], NESTED),
        ("gap byte 191", 191, [63, 1], NESTED),
    ];
    let refused = [("gap byte 64", 64), ("gap byte 127", 127), ("gap byte 192", 192), ("gap byte 255", 255)];
    let content = |[gap, mark]: [u16; 2]| {
        let class = [0, 0, gap, mark];
        [&[2, 4, 1, 1], &class[..], &[1, 2, 1, 1, 1, 4, 0, 0, 2, 0, 2, 2, 0, 2, 2]].concat()
    };
    // Class 2 is the best-ranked, with no mark and a gap of 63.
    let mut boards = vec![board(
        "three classes",
        Draft::new(2, 4, 1).classes(&[[5, 200, 191], [2, 7, 63], [0, 9, 128]]).with(2, 1, 0b100101, &[SQUARE]),
        vec![
            Claim::Gives(vec![
                2, 4, 1, 3, 0, 9, 0, 1, 2, 7, 63, 0, 5, 200, 63, 1, 1, 2, 1, 37, 1, 4, 0, 0, 2, 0, 2, 2, 0, 2, 2,
            ]),
            run(u32::MAX, "none 3\n"),
        ],
    )];
    boards.extend(accepted.map(|(name, byte, told, printed)| {
        board(name, squares_with_gap(2, 4, byte), vec![Claim::Gives(content(told)), run(u32::MAX, printed)])
    }));
    boards.extend(refused.map(|(name, byte)| {
        board(name, squares_with_gap(2, 4, byte), vec![Claim::Reads(5), run(u32::MAX, "refused 5\n")])
    }));
    boards
}

fn saves(bytes: &[u8]) -> Claim {
    Claim::Saves(Ok(bytes.to_vec()))
}

/// Jobs and what they are saved to, a section a line.
fn boards_saved() -> Vec<SmallBoard> {
    let mut boards = boards_saved_in_order();
    boards.extend(boards_with_types_as_given());
    boards.extend(boards_saved_at_the_limits());
    // Class list at 0, for 0 classes; nothing else changes.
    let printed = [
        [0x02, 0x00, 0x04, 0x00, 0x01, 0x00].as_slice(),
        &[0x02, 0x01, 0x00, 0x01, 0x04, 0x00, 0x00, 0x02, 0x00, 0x02, 0x02, 0x00, 0x02],
        &[0x00, 0x00, 0x06, 0x00, 0x06, 0x00, 0x0D, 0x00, 0x00, 0x01, 0x21, 0x00, 0x44, 0x42],
    ];
    let printed = printed.concat();
    boards.push(SmallBoard { name: "the printed job, saved", bytes: PRINTED.to_vec(), claims: vec![saves(&printed)] });
    boards.push(SmallBoard { name: "the printed job as it is saved", claims: vec![saves(&printed)], bytes: printed });
    boards
}

/// Type list, a skipped byte, board, then class 3 (rank 2, gap 1, marked) before class 1 (rank 9, gap 3); and classes
/// by falling id that no type names, at the limits of the gap byte.
fn boards_saved_in_order() -> Vec<SmallBoard> {
    let given = [
        [0x02, 0x01, 0x0A, 0x01, 0x04, 0x00, 0x00, 0x02, 0x00, 0x02, 0x02, 0x00, 0x02].as_slice(),
        &[0xFF],
        &[0x02, 0x00, 0x05, 0x00, 0x01, 0x00],
        &[0x03, 0x02, 0x81, 0x01, 0x09, 0x03],
        &[0x0E, 0x00, 0x14, 0x00, 0x00, 0x00, 0x0D, 0x00, 0x02, 0x01, 0x28, 0x00, 0x44, 0x42],
    ];
    let saved = [
        [0x02, 0x00, 0x05, 0x00, 0x01, 0x00].as_slice(),
        &[0x01, 0x09, 0x03, 0x03, 0x02, 0x81],
        &[0x02, 0x01, 0x0A, 0x01, 0x04, 0x00, 0x00, 0x02, 0x00, 0x02, 0x02, 0x00, 0x02],
        &[0x00, 0x00, 0x06, 0x00, 0x0C, 0x00, 0x0D, 0x00, 0x02, 0x01, 0x27, 0x00, 0x44, 0x42],
    ];
    let saved = saved.concat();
    let claims = || as_printed().into_iter().chain([saves(&saved)]).collect();
    let three_classes = [
        [0x02, 0x00, 0x04, 0x00, 0x01, 0x00].as_slice(),
        &[0x00, 0x09, 0x80, 0x02, 0x07, 0x3F, 0x05, 0xC8, 0xBF],
        &[0x02, 0x01, 0x00, 0x01, 0x04, 0x00, 0x00, 0x02, 0x00, 0x02, 0x02, 0x00, 0x02],
        &[0x00, 0x00, 0x06, 0x00, 0x0F, 0x00, 0x0D, 0x00, 0x03, 0x01, 0x2A, 0x00, 0x44, 0x42],
    ];
    vec![
        SmallBoard { name: "types, a skipped byte, classes by falling id", bytes: given.concat(), claims: claims() },
        SmallBoard { name: "the same as it is saved", bytes: saved.clone(), claims: claims() },
        board(
            "three classes that no type names",
            Draft::new(2, 4, 1).classes(&[[5, 200, 191], [2, 7, 63], [0, 9, 128]]).with(2, 1, 0, &[SQUARE]),
            // The squares are to be 63 apart, and the first is tried on each of the three columns.
            vec![saves(&three_classes.concat()), run(u32::MAX, "none 3\n")],
        ),
    ]
}

/// One lower and two upper triangles: neither the demands nor the corners order the types.
fn boards_with_types_as_given() -> Vec<SmallBoard> {
    let lower = [0x01, 0x01, 0x00, 0x01, 0x03, 0x00, 0x00, 0x02, 0x00, 0x02, 0x02].as_slice();
    let upper = [0x02, 0x01, 0x00, 0x01, 0x03, 0x00, 0x00, 0x02, 0x02, 0x00, 0x02].as_slice();
    let saved = |types: [&[u8]; 2]| {
        let trailer = [0x00, 0x00, 0x06, 0x00, 0x06, 0x00, 0x16, 0x00, 0x00, 0x02, 0x2A, 0x00, 0x44, 0x42];
        saves(&[[0x02, 0x00, 0x06, 0x00, 0x01, 0x00].as_slice(), types[0], types[1], &trailer].concat())
    };
    let sheet = || Draft::new(2, 6, 1);
    vec![
        board(
            "the smaller demand first",
            sheet().with(1, 1, 0, &[LOWER]).with(2, 1, 0, &[UPPER]),
            vec![saved([lower, upper])],
        ),
        board(
            "the larger demand first",
            sheet().with(2, 1, 0, &[UPPER]).with(1, 1, 0, &[LOWER]),
            vec![saved([upper, lower])],
        ),
    ]
}

/// The least coordinate; and the most that a job may hold, on a sheet too small for it: 8 classes, and 8 types of 6
/// parts of 8 corners, which with board and trailer are 6 + 24 + 848 + 14 = 892 bytes.
fn boards_saved_at_the_limits() -> Vec<SmallBoard> {
    let least = [
        [0x02, 0x00, 0xC8, 0x00, 0x01, 0x00].as_slice(),
        &[0x01, 0x01, 0x00, 0x01, 0x03, 0x81, 0x00, 0x00, 0x00, 0x00, 0x01],
        &[0x00, 0x00, 0x06, 0x00, 0x06, 0x00, 0x0B, 0x00, 0x00, 0x01, 0x1F, 0x00, 0x44, 0x42],
    ];
    let mut most = Draft::new(2, 2, 1);
    most.classes = (0..8).map(|id| [id, 255 - id, 128 + id]).collect();
    for demand in [2, 2, 2, 2, 1, 1, 1, 1] {
        most = most.with(demand, 15, 255, &[OCTAGON; 6]);
    }
    let written = encode(&most, &Arrangement::plain()).bytes;
    assert_eq!(written.len(), 892);
    let mut filled = Arrangement::plain();
    filled.skipped[2] = vec![0x44; 1024 - written.len()];
    let claims = || vec![saves(&written), run(u32::MAX, "none 0\n")];
    vec![
        board("the least coordinate", cornered(-127), vec![saves(&least.concat())]),
        board("below the least coordinate", cornered(-128), vec![Claim::Saves(Err(7))]),
        SmallBoard { name: "1024 bytes", bytes: encode(&most, &filled).bytes, claims: claims() },
        board("the most that a job may hold", most, claims()),
    ]
}

fn cornered(x: i8) -> Draft {
    Draft::new(2, 200, 1).with(1, 1, 0, &[&[(x, 0), (0, 0), (0, 1)]])
}
