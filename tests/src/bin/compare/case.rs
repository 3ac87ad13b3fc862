//! A job under a margin, with what the reference makes of the two.

use std::cell::OnceCell;

use nest_tests::changes::with_fillers;
use nest_tests::reference::board::{Board, PairGap, Piece};
use nest_tests::reference::exhaustive::{how_many, passing_layouts};
use nest_tests::reference::no_default;
use nest_tests::reference::reader::read_job;
use nest_tests::reference::services::{Clamped, Reading};
use nest_tests::reference::square_gap;
use nest_tests::reference::unranked_cut;
use nest_tests::reference::walk::{walk, Walked};
use nest_tests::reference::writer::saved;

/// Walks are followed to their end up to this many steps.
const STEPS_AT_MOST: u64 = 2000;
/// Boards with at most this many layouts are also searched exhaustively.
const LAYOUTS_AT_MOST: u64 = 4000;
/// Boards with more candidates than these are large: there a step of the plain walk is slow, and so is every run.
const CANDIDATES_AT_MOST: usize = 1500;

pub struct Case {
    pub bytes: Vec<u8>,
    pub margin: u64,
    pub reading: Reading,
    pub clamped: Clamped,
    /// Jobs of the same content in other bytes.
    pub twins: Vec<Twin>,
    worked_out: WorkedOut,
}

/// What is worked out once, when it is first asked for.
#[derive(Default)]
struct WorkedOut {
    walked: OnceCell<Walked>,
    by_squares: OnceCell<Option<Walked>>,
    without_ranks: OnceCell<Option<Walked>>,
    without_default: OnceCell<Option<Walked>>,
    passing: OnceCell<Option<Vec<Vec<Piece>>>>,
}

/// A job that every service has to answer as it answers another.
#[derive(Clone)]
pub struct Twin {
    pub what: &'static str,
    pub counted_as: &'static str,
    pub bytes: Vec<u8>,
}

impl Twin {
    fn reordered(bytes: Vec<u8>) -> Twin {
        Twin { what: "with its classes in another order", counted_as: "calls with the classes reordered", bytes }
    }

    /// By the reference, to which the library's save is held.
    fn saved(bytes: Vec<u8>) -> Twin {
        Twin { what: "as it is saved", counted_as: "calls with the job as it is saved", bytes }
    }
}

impl Case {
    pub fn new(bytes: Vec<u8>, margin: u64, reordered: Option<Vec<u8>>) -> Case {
        let reading = read_job(&bytes);
        let saved = reading.as_ref().ok().map(saved).filter(|saved| *saved != bytes);
        let twins = reordered.map(Twin::reordered).into_iter().chain(saved.map(Twin::saved)).collect();
        Case::of(bytes, margin, reading, twins)
    }

    /// The same job under another margin.
    pub fn under(&self, margin: u64) -> Case {
        Case::of(self.bytes.clone(), margin, self.reading.clone(), self.twins.clone())
    }

    /// The job with its types in no class as fillers, if it has such types and may have a class more. What is expected of
    /// it is what the job itself got before such types took a gap.
    pub fn filled(&self) -> Option<Case> {
        let job = &self.clamped.as_ref().ok()?.job;
        let filled = with_fillers(job)?;
        let before = Board::gapped(job.clone(), self.margin, no_default::pair_gap);
        Some(Case::expecting(before, saved(&filled), self.margin, Ok(filled), vec![]))
    }

    fn of(bytes: Vec<u8>, margin: u64, reading: Reading, twins: Vec<Twin>) -> Case {
        let clamped = reading.clone().and_then(|job| Board::new(job, margin));
        Case::expecting(clamped, bytes, margin, reading, twins)
    }

    fn expecting(clamped: Clamped, bytes: Vec<u8>, margin: u64, reading: Reading, twins: Vec<Twin>) -> Case {
        Case { bytes, margin, reading, clamped, twins, worked_out: WorkedOut::default() }
    }

    /// The walk, where nothing is refused; to its end, where it is short enough.
    pub fn walked(&self) -> Option<&Walked> {
        let board = self.clamped.as_ref().ok()?;
        Some(self.worked_out.walked.get_or_init(|| walked_far(board)))
    }

    /// The walk with the gap as a square, where some pair has a gap and the board is not large. Candidates are the same by
    /// either measure, so that its layouts may be put to this board.
    pub fn walked_by_squares(&self) -> Option<&Walked> {
        let board = self.clamped.as_ref().ok()?;
        let walked = || {
            let kinds = 0..board.job.types.len();
            let some_gap = kinds.clone().any(|one| kinds.clone().any(|other| board.job.pair_gap(one, other) > 0));
            if !some_gap || is_large(board) {
                return None;
            }
            let other = Board::measured(board.job.clone(), self.margin, square_gap::in_conflict);
            other.ok().map(|other| walked_far(&other))
        };
        self.worked_out.by_squares.get_or_init(walked).as_ref()
    }

    /// The walk with common cut as it was before the rank came first, where that gives some pair another gap.
    pub fn walked_without_ranks(&self) -> Option<&Walked> {
        self.worked_out.without_ranks.get_or_init(|| self.walked_with(unranked_cut::pair_gap)).as_ref()
    }

    /// The walk as it was while types in no class had no gap, where that gives some pair another gap.
    pub fn walked_without_default(&self) -> Option<&Walked> {
        self.worked_out.without_default.get_or_init(|| self.walked_with(no_default::pair_gap)).as_ref()
    }

    /// The walk with these gaps, where some pair has another one than it should. Candidates are the same.
    pub fn walked_with(&self, pair_gap: PairGap) -> Option<Walked> {
        let job = &self.clamped.as_ref().ok()?.job;
        let kinds = 0..job.types.len();
        let another = |one, other| pair_gap(job, one, other) != job.pair_gap(one, other);
        let some_other = kinds.clone().any(|one| kinds.clone().any(|other| another(one, other)));
        let board = some_other.then(|| Board::gapped(job.clone(), self.margin, pair_gap))?;
        board.ok().map(|board| walked_far(&board))
    }

    /// Whether another walk takes other steps, or finds another layout.
    pub fn walks_otherwise(&self, there: &Walked) -> bool {
        self.walked().is_some_and(|here| (there.steps, &there.best) != (here.steps, &here.best))
    }

    /// The best layout of the walk.
    pub fn best(&self) -> Option<&[Piece]> {
        self.walked()?.best.as_deref()
    }

    /// Every passing layout in order, on a board whose walk ends and that has few enough layouts to look at.
    pub fn passing(&self) -> Option<&[Vec<Piece>]> {
        let board = self.clamped.as_ref().ok()?;
        if self.walked()?.stopped {
            return None;
        }
        let searched = || how_many(board, LAYOUTS_AT_MOST).map(|_| passing_layouts(board));
        self.worked_out.passing.get_or_init(searched).as_deref()
    }
}

/// The walk to its end, where it is short enough.
fn walked_far(board: &Board) -> Walked {
    walk(board, None, step_limit(board))
}

fn step_limit(board: &Board) -> u64 {
    if is_large(board) {
        30
    } else {
        STEPS_AT_MOST
    }
}

pub fn is_large(board: &Board) -> bool {
    board.candidate_count() > CANDIDATES_AT_MOST
}
