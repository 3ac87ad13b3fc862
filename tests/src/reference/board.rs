//! Dots, gaps and conflicts of an accepted job; its candidates and lengths under a margin.

use std::cell::RefCell;

use super::geometry::{in_conflict, moved, point, turned, Part};
use super::reader::{read_job, Class, Job, Type};

/// The largest margin that a host may pass.
pub const MOST_MARGIN: u64 = 63;

/// A candidate of some type: a dot and an allowed turn with every corner between the clamps.
pub struct Candidate {
    pub number: usize,
    pub column: usize,
    pub row: usize,
    pub turn: usize,
    /// The largest x.
    pub end: i64,
    pub parts: Vec<Part>,
    /// Its place in the table of remembered conflicts.
    place: usize,
}

/// The gap of two pieces of these types.
pub type PairGap = fn(&Job, usize, usize) -> i64;

/// Whether two pieces, each the list of its placed parts, are in conflict at a gap.
pub type Measure = fn(&[Part], &[Part], i64) -> bool;

/// A job under a margin.
pub struct Board {
    pub job: Job,
    margin: i64,
    pair_gap: PairGap,
    measure: Measure,
    /// For each type, its candidates by rising number.
    pub candidates: Vec<Vec<Candidate>>,
    remembered: Remembered,
}

/// One piece of a layout: a type and the place of its candidate in that type's list.
#[derive(Clone, Copy, PartialEq, Eq, Debug)]
pub struct Piece {
    pub kind: usize,
    pub index: usize,
}

impl Board {
    /// The job's own refusals come before the margin's.
    pub fn read(bytes: &[u8], margin: u64) -> Result<Board, u8> {
        read_job(bytes).and_then(|job| Board::new(job, margin))
    }

    /// Refused by 13 under a margin that is too large.
    pub fn new(job: Job, margin: u64) -> Result<Board, u8> {
        Board::by(Job::pair_gap, in_conflict, job, margin)
    }

    /// A board on which pairs have other gaps, to compare with.
    pub fn gapped(job: Job, margin: u64, pair_gap: PairGap) -> Result<Board, u8> {
        Board::by(pair_gap, in_conflict, job, margin)
    }

    /// A board on which gaps are measured in another way, to compare with.
    pub fn measured(job: Job, margin: u64, measure: Measure) -> Result<Board, u8> {
        Board::by(Job::pair_gap, measure, job, margin)
    }

    fn by(pair_gap: PairGap, measure: Measure, job: Job, margin: u64) -> Result<Board, u8> {
        if margin > MOST_MARGIN {
            return Err(13);
        }
        let margin = margin as i64;
        let mut candidates: Vec<_> = job.types.iter().map(|t| all_candidates(&job, margin, t)).collect();
        let mut places = 0;
        for candidate in candidates.iter_mut().flatten() {
            candidate.place = places;
            places += 1;
        }
        Ok(Board { job, margin, pair_gap, measure, candidates, remembered: Remembered::new(places) })
    }

    pub fn at(&self, piece: Piece) -> &Candidate {
        &self.candidates[piece.kind][piece.index]
    }

    /// Of all types together.
    pub fn candidate_count(&self) -> usize {
        self.candidates.iter().map(Vec::len).sum()
    }

    /// The place in the type's list of its candidate of that number, if there is such a candidate.
    pub fn find(&self, kind: usize, number: usize) -> Option<usize> {
        self.candidates[kind].binary_search_by_key(&number, |c| c.number).ok()
    }

    pub fn conflict(&self, one: Piece, other: Piece) -> bool {
        let (a, b) = (self.at(one), self.at(other));
        let gap = || (self.pair_gap)(&self.job, one.kind, other.kind);
        self.remembered.get(a.place, b.place, || (self.measure)(&a.parts, &b.parts, gap()))
    }

    /// The largest end plus the margin.
    pub fn length(&self, layout: &[Piece]) -> i64 {
        layout.iter().map(|&p| self.at(p).end).max().unwrap_or(0) + self.margin
    }
}

/// What no margin changes.
impl Job {
    pub fn columns(&self) -> usize {
        (self.length / self.step + 1).into()
    }

    pub fn rows(&self) -> usize {
        (self.width / self.step + 1).into()
    }

    pub fn dots(&self) -> usize {
        self.columns() * self.rows()
    }

    /// Words of a set of candidates: ceil(D / 16).
    pub fn words(&self) -> usize {
        self.dots().div_ceil(16)
    }

    pub fn demands(&self) -> Vec<usize> {
        self.types.iter().map(|t| t.demand.into()).collect()
    }

    /// N, the number of pieces.
    pub fn pieces(&self) -> usize {
        self.demands().iter().sum()
    }

    /// The classes that a type's mask names.
    pub fn classes_of(&self, kind: usize) -> impl Iterator<Item = &Class> {
        let mask = self.types[kind].class_mask;
        self.classes.iter().filter(move |c| mask >> c.id & 1 == 1)
    }

    /// The one with the smallest rank number.
    pub fn best_ranked(&self, kind: usize) -> Option<&Class> {
        self.classes_of(kind).min_by_key(|c| c.rank)
    }

    /// The gap of the best-ranked class; a type with no class takes the largest gap in the job's class list.
    fn gap(&self, kind: usize) -> i64 {
        self.best_ranked(kind).map_or(self.largest_gap(), |c| c.gap.into())
    }

    /// Of all classes, whether or not a type names them; 0 if there are none.
    pub fn largest_gap(&self) -> i64 {
        self.classes.iter().map(|c| c.gap.into()).max().unwrap_or(0)
    }

    pub fn larger_gap(&self, one: usize, other: usize) -> i64 {
        self.gap(one).max(self.gap(other))
    }

    /// The rank is applied first: both have the same best-ranked class and it is marked, as two copies of one type may.
    /// A type with no class has none that is best-ranked, whichever gap it takes.
    pub fn cut_together(&self, one: usize, other: usize) -> bool {
        match (self.best_ranked(one), self.best_ranked(other)) {
            (Some(first), Some(second)) => first.id == second.id && first.marked,
            _ => false,
        }
    }

    /// 0 for a common cut, otherwise the larger of the two gaps.
    pub fn pair_gap(&self, one: usize, other: usize) -> i64 {
        if self.cut_together(one, other) {
            return 0;
        }
        self.larger_gap(one, other)
    }
}

fn all_candidates(job: &Job, margin: i64, kind: &Type) -> Vec<Candidate> {
    let mut found = Vec::new();
    for column in 0..job.columns() {
        for row in 0..job.rows() {
            for turn in 0..4 {
                if kind.turn_mask >> turn & 1 == 1 {
                    found.extend(candidate(job, margin, kind, column, row, turn));
                }
            }
        }
    }
    found
}

fn candidate(job: &Job, margin: i64, kind: &Type, column: usize, row: usize, turn: usize) -> Option<Candidate> {
    let step = i64::from(job.step);
    let dot = point(column as i64 * step, row as i64 * step);
    let parts: Vec<Part> = kind
        .parts
        .iter()
        .map(|part| part.iter().map(|&corner| moved(turned(corner, turn), dot)).collect())
        .collect();
    let between_clamps = |at: i64, side: u16| (margin..=i64::from(side) - margin).contains(&at);
    let on_board =
        parts.iter().flatten().all(|c| between_clamps(c.x, job.length) && between_clamps(c.y, job.width));
    let end = parts.iter().flatten().map(|c| c.x).max()?;
    let number = (column * job.rows() + row) * 4 + turn;
    on_board.then_some(Candidate { number, column, row, turn, end, parts, place: 0 })
}

/// Conflicts worked out once, for boards with few candidates; a larger board works each out anew.
struct Remembered {
    side: usize,
    known: RefCell<Vec<Option<bool>>>,
}

impl Remembered {
    const MOST: usize = 1500;

    fn new(candidates: usize) -> Remembered {
        let side = if candidates <= Self::MOST { candidates } else { 0 };
        Remembered { side, known: RefCell::new(vec![None; side * side]) }
    }

    fn get(&self, one: usize, other: usize, work_out: impl Fn() -> bool) -> bool {
        if self.side == 0 {
            return work_out();
        }
        *self.known.borrow_mut()[one * self.side + other].get_or_insert_with(work_out)
    }
}
