//! Candidates as bit sets, conflict rows one by one, and conflict rows from a table by offset.

use crate::geometry::{in_conflict, turned, Turned};
use crate::job::Job;
use crate::mistaken;
use crate::mistaken_cut;
use crate::mutant;

/// A job under a margin.
pub struct Board<'a> {
    pub job: &'a Job,
    pub margin: i32,
    /// By type and turn.
    pub turned: Vec<[Turned; 4]>,
    /// By type, the set of candidates.
    pub candidates: Vec<Vec<u64>>,
    /// The mistake by which gaps are measured as squares on this board.
    pub square_gap: &'static str,
}

pub struct Place {
    pub column: usize,
    pub row: usize,
    pub turn: usize,
}

pub fn place(job: &Job, number: usize) -> Place {
    Place { column: number / 4 / job.rows, row: number / 4 % job.rows, turn: number % 4 }
}

impl<'a> Board<'a> {
    pub fn new(job: &'a Job, margin: i32) -> Board<'a> {
        let turned: Vec<[Turned; 4]> =
            (0..job.kind_count).map(|k| [0, 1, 2, 3].map(|turn| turned(job, k, turn))).collect();
        let candidates = vec![vec![0; job.words()]; job.kind_count];
        let mut board = Board { job, margin, turned, candidates, square_gap: "square_gap" };
        for kind in 0..job.kind_count {
            for turn in 0..4 {
                board.fill_candidates(kind, turn);
            }
        }
        board
    }

    fn fill_candidates(&mut self, kind: usize, turn: usize) {
        let shape = &self.turned[kind][turn];
        if !shape.allowed {
            return;
        }
        let (job, step) = (self.job, self.job.step);
        let along = self.clamps(job.length, ["left_edge_unclamped", "right_edge_unclamped", "right_edge_wraps"]);
        let across = self.clamps(job.width, ["lower_edge_unclamped", "upper_edge_unclamped", "upper_edge_wraps"]);
        let slack = i32::from(mutant::is("edges_of_board_excluded"));
        for column in 0..job.columns {
            if !between((along.0, along.1 - slack), column as i32 * step, shape.box_x) {
                continue;
            }
            for row in 0..job.rows {
                if between(across, row as i32 * step, shape.box_y) {
                    let n = (column * job.rows + row) * 4 + turn;
                    self.candidates[kind][n / 64] |= 1 << (n % 64);
                }
            }
        }
    }

    /// Where corners may lie along a side of the board. The mistakes: no clamp at its beginning; none at its end; a
    /// clamp at its end that would be below 0 taken for one that is far away.
    fn clamps(&self, side: i32, mistakes: [&str; 3]) -> (i32, i32) {
        let [no_low, no_high, wraps] = mistakes.map(mutant::is);
        let part_of_step = if mutant::is("margin_of_whole_steps") { self.margin % self.job.step } else { 0 };
        let margin = self.margin - part_of_step;
        let low = if no_low { 0 } else { margin };
        let high = if no_high { side } else { side - margin };
        (low, if wraps && high < 0 { i32::MAX } else { high })
    }

    pub fn is_candidate(&self, kind: usize, number: usize) -> bool {
        number < self.job.rows * self.job.columns * 4 && self.candidates[kind][number / 64] >> (number % 64) & 1 == 1
    }

    /// The length of a layout of this candidate alone: its largest x, and the margin behind it.
    pub fn length(&self, kind: usize, number: usize) -> i32 {
        let at = place(self.job, number);
        at.column as i32 * self.job.step + self.turned[kind][at.turn].box_x.1 + self.margin
    }

    /// 0 where both types have the same best-ranked class and it is marked, as two copies of one may; else the larger.
    fn pair_gap(&self, kind: usize, other: usize) -> i32 {
        if !mutant::none() {
            return mistaken_cut::pair_gap(self.job, kind, other, self.margin);
        }
        let (a, b) = (&self.job.kinds[kind], &self.job.kinds[other]);
        if a.cut & b.cut != 0 {
            0
        } else {
            a.gap.max(b.gap)
        }
    }

    /// The second piece of a pair. The mistakes: its corners are those of the turn after its own, or of the turn of
    /// the first piece. Candidates and lengths are right.
    fn second(&self, kind: usize, turn: usize, turn_of_first: usize) -> &Turned {
        let turn = if mutant::is("corners_of_the_next_turn") {
            (turn + 1) % 4
        } else if mutant::is("one_turn_for_both") {
            turn_of_first
        } else {
            turn
        };
        &self.turned[kind][turn]
    }

    pub fn conflict(&self, kind: usize, number: usize, other: usize, at: usize) -> bool {
        self.conflict_at(self.pair_gap(kind, other), kind, number, other, at)
    }

    /// Conflict at the gap of the pair's types.
    fn conflict_at(&self, gap: i32, kind: usize, number: usize, other: usize, at: usize) -> bool {
        let (a, b) = (place(self.job, number), place(self.job, at));
        let dx = (b.column as i32 - a.column as i32) * self.job.step;
        let dy = (b.row as i32 - a.row as i32) * self.job.step;
        let (one, two) = (&self.turned[kind][a.turn], self.second(other, b.turn, a.turn));
        self.in_conflict(one, two, dx, dy, gap)
    }

    fn in_conflict(&self, one: &Turned, two: &Turned, dx: i32, dy: i32, gap: i32) -> bool {
        if mutant::none() {
            return in_conflict(one, two, dx, dy, gap);
        }
        mistaken::in_conflict(one, two, dx, dy, gap, mutant::is(self.square_gap))
    }

    /// A pair test for each candidate of the other type. Gives the number of tests.
    pub fn row(&self, kind: usize, number: usize, other: usize, row: &mut [u64]) -> usize {
        let gap = self.pair_gap(kind, other);
        let mut tests = 0;
        for (i, word) in row.iter_mut().enumerate().take(self.job.words()) {
            let mut left = self.candidates[other][i];
            if mutant::is("row_of_absent_candidates") {
                left |= 1;
            }
            if !mutant::is("row_not_cleared") {
                *word = 0;
            }
            while left != 0 {
                let bit = left.trailing_zeros() as usize;
                left &= left - 1;
                tests += 1;
                if self.conflict_at(gap, kind, number, other, i * 64 + bit) {
                    *word |= 1 << bit;
                }
            }
        }
        tests
    }
}

/// Whether a piece on a dot lies between the clamps along a side: it reaches so far down and up from the dot.
fn between(clamps: (i32, i32), dot: i32, reach: (i32, i32)) -> bool {
    clamps.0 <= dot + reach.0 && dot + reach.1 <= clamps.1
}

/// Conflict by the offset between two dots, for each pair of types and turns; rows are built from it when
/// a candidate is first taken, and kept.
pub struct Rows<'a> {
    board: &'a Board<'a>,
    /// By type, turn, other type, other turn: a bit for each column and row offset.
    tables: Vec<Vec<bool>>,
    rows: Vec<Option<Box<[u64]>>>,
}

impl<'a> Rows<'a> {
    pub fn new(board: &'a Board<'a>) -> Rows<'a> {
        let job = board.job;
        let mut tables = vec![Vec::new(); job.kind_count * 4 * job.kind_count * 4];
        for kind in 0..job.kind_count {
            for turn in 0..4 {
                for other in 0..job.kind_count {
                    for other_turn in 0..4 {
                        let at = table_at(job, kind, turn, other, other_turn);
                        tables[at] = offset_table(board, kind, turn, other, other_turn);
                    }
                }
            }
        }
        let all = job.kind_count * job.rows * job.columns * 4;
        Rows { board, tables, rows: (0..all).map(|_| None).collect() }
    }

    /// The rows of a candidate against every type, one after the other.
    pub fn of(&mut self, kind: usize, number: usize) -> &[u64] {
        let at = kind * self.board.job.rows * self.board.job.columns * 4 + number;
        if self.rows[at].is_none() {
            self.rows[at] = Some(self.build(kind, number));
        }
        self.rows[at].as_deref().unwrap_or(&[])
    }

    fn build(&self, kind: usize, number: usize) -> Box<[u64]> {
        let (job, words) = (self.board.job, self.board.job.words());
        let from = place(job, number);
        let mut out = vec![0u64; words * job.kind_count].into_boxed_slice();
        for other in 0..job.kind_count {
            for i in 0..words {
                let mut left = self.board.candidates[other][i];
                while left != 0 {
                    let bit = left.trailing_zeros() as usize;
                    left &= left - 1;
                    let to = place(job, i * 64 + bit);
                    let table = &self.tables[table_at(job, kind, from.turn, other, to.turn)];
                    let offset = offset_at(job, to.column + job.columns - from.column, to.row + job.rows - from.row);
                    out[other * words + i] |= u64::from(table[offset]) << bit;
                }
            }
        }
        out
    }
}

fn table_at(job: &Job, kind: usize, turn: usize, other: usize, other_turn: usize) -> usize {
    ((kind * 4 + turn) * job.kind_count + other) * 4 + other_turn
}

/// Offsets are shifted by the number of columns and rows, so that none is negative.
fn offset_at(job: &Job, columns: usize, rows: usize) -> usize {
    columns * 2 * job.rows + rows
}

fn offset_table(board: &Board, kind: usize, turn: usize, other: usize, other_turn: usize) -> Vec<bool> {
    let job = board.job;
    let (one, two) = (&board.turned[kind][turn], &board.turned[other][other_turn]);
    if !one.allowed || !two.allowed {
        return Vec::new();
    }
    let two = board.second(other, other_turn, turn);
    let gap = board.pair_gap(kind, other);
    let mut table = vec![false; 4 * job.columns * job.rows];
    for columns in 1..2 * job.columns {
        for rows in 1..2 * job.rows {
            let dx = (columns as i32 - job.columns as i32) * job.step;
            let dy = (rows as i32 - job.rows as i32) * job.step;
            table[offset_at(job, columns, rows)] = board.in_conflict(one, two, dx, dy, gap);
        }
    }
    table
}
