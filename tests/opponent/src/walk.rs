//! The walk on bit sets: one set for each piece and type, narrowed by a conflict row at each step.

use crate::mutant;
use crate::rows::{Board, Rows};

pub struct Outcome {
    pub stopped: bool,
    pub steps: u64,
    /// The length of the best layout and its candidate numbers.
    pub best: Option<(i32, [u16; 12])>,
}

pub struct Walk<'a, 'r> {
    board: &'a Board<'a>,
    rows: &'r mut Rows<'a>,
    words: usize,
    kinds: usize,
    pieces: usize,
    /// The type of each piece.
    kind_of: [usize; 12],
    /// Clear candidates by piece, type and word: all but the bound.
    clear: Vec<u64>,
    /// Candidates that alone leave the length below the best, by type and word.
    short: Vec<u64>,
    budget: u64,
    out: Outcome,
    placed: [u16; 12],
}

impl<'a, 'r> Walk<'a, 'r> {
    pub fn new(board: &'a Board<'a>, rows: &'r mut Rows<'a>) -> Walk<'a, 'r> {
        let job = board.job;
        let (words, kinds, pieces) = (job.words(), job.kind_count, job.pieces);
        let mut kind_of = [0; 12];
        let mut piece = 0;
        for kind in 0..kinds {
            for _ in 0..job.kinds[kind].demand {
                kind_of[piece] = kind;
                piece += 1;
            }
        }
        Walk {
            board,
            rows,
            words,
            kinds,
            pieces,
            kind_of,
            clear: vec![0; pieces * kinds * words],
            short: vec![0; kinds * words],
            budget: 0,
            out: Outcome { stopped: false, steps: 0, best: None },
            placed: [0; 12],
        }
    }

    /// The walk with a best to begin with: a passing layout's length and its candidate numbers.
    pub fn begun_from(mut self, given: Option<(i32, [u16; 12])>) -> Walk<'a, 'r> {
        self.out.best = given;
        if given.is_some() && mutant::is("given_steps_from_one") {
            self.out.steps = 1;
        }
        self
    }

    pub fn run(mut self, budget: u64) -> Outcome {
        self.budget = budget;
        self.first_bound();
        for kind in 0..self.kinds {
            let from = kind * self.words;
            self.clear[from..from + self.words].copy_from_slice(&self.board.candidates[kind]);
        }
        self.skip_first_candidate();
        if mutant::is("no_ahead_before_first") || self.look_ahead_first() {
            self.try_piece(0, 0);
        }
        self.out
    }

    /// No bound while there is no best. The mistakes: only lengths below the board's; only lengths, which have the
    /// margin in them, up to the far clamp.
    fn first_bound(&mut self) {
        let length = self.board.job.length;
        if let Some((best, _)) = self.out.best {
            self.keep_below(best);
        } else if mutant::is("first_bound_at_the_length") {
            self.keep_below(length);
        } else if mutant::is("first_bound_between_clamps") {
            self.keep_below(length - self.board.margin + 1);
        } else {
            self.short.fill(u64::MAX);
        }
    }

    /// Before the first step. The mistake: there the given layout is no bound yet.
    fn look_ahead_first(&mut self) -> bool {
        if !mutant::is("given_no_bound_for_first_ahead") {
            return self.look_ahead(0, 0);
        }
        let given = self.out.best.take();
        self.first_bound();
        let goes_on = self.look_ahead(0, 0);
        self.out.best = given;
        self.first_bound();
        goes_on
    }

    /// A mistake: with a given layout the walk begins behind its first candidate.
    fn skip_first_candidate(&mut self) {
        if self.out.best.is_none() || !mutant::is("given_first_candidate_skipped") {
            return;
        }
        let first = self.clear[..self.words].iter_mut().find(|word| **word != 0);
        first.into_iter().for_each(|word| *word &= *word - 1);
    }

    /// `length` is that of the pieces placed so far.
    fn try_piece(&mut self, piece: usize, length: i32) {
        let kind = self.kind_of[piece];
        let from = (piece * self.kinds + kind) * self.words;
        let bound_of_entry = self.short.clone_if(mutant::is("bound_of_entry"));
        for i in 0..self.words {
            let mut above = u64::MAX;
            loop {
                if self.beaten(length) {
                    return;
                }
                let short = bound_of_entry.as_ref().unwrap_or(&self.short);
                let live = self.clear[from + i] & short[kind * self.words + i] & above;
                if live == 0 {
                    break;
                }
                let bit = live.trailing_zeros() as usize;
                above = (u64::MAX << bit) << 1;
                if self.spent() {
                    self.out.stopped = true;
                    return;
                }
                self.take(piece, kind, i * 64 + bit, length);
                if self.out.stopped {
                    return;
                }
                if mutant::is("ahead_on_the_way_back") && !self.look_ahead(piece, length) {
                    return;
                }
            }
        }
    }

    fn spent(&self) -> bool {
        if mutant::is("one_step_too_many") {
            self.out.steps > self.budget
        } else {
            self.out.steps >= self.budget
        }
    }

    /// No candidate can leave the length below the best.
    fn beaten(&self, length: i32) -> bool {
        match self.out.best {
            None => false,
            Some((best, _)) if mutant::is("bound_not_longer") => length > best,
            Some((best, _)) if mutant::is("bound_of_placed_ends") => length - self.board.margin >= best,
            Some((best, _)) => length >= best,
        }
    }

    fn take(&mut self, piece: usize, kind: usize, number: usize, length: i32) {
        self.out.steps += 1;
        self.placed[piece] = number as u16;
        let length = length.max(self.board.length(kind, number));
        if piece + 1 == self.pieces {
            self.complete(length);
            return;
        }
        self.narrow(piece, kind, number);
        if mutant::is("no_ahead") || self.look_ahead(piece + 1, length) {
            self.try_piece(piece + 1, length);
        }
    }

    /// The sets of the next piece: those of this one without what the candidate blocks.
    fn narrow(&mut self, piece: usize, kind: usize, number: usize) {
        let words = self.words;
        let set = self.kinds * words;
        let (before, after) = self.clear.split_at_mut((piece + 1) * set);
        let (before, after) = (&before[piece * set..], &mut after[..set]);
        let row = self.rows.of(kind, number);
        let next = self.kind_of[piece + 1];
        for k in next * words..set {
            after[k] = before[k] & !row[k];
        }
        if next == kind {
            // Only numbers above this copy's.
            let (word, bit) = (number / 64, number % 64);
            after[kind * words..kind * words + word].fill(0);
            after[kind * words + word] &= (u64::MAX << bit) << 1;
        }
    }

    fn look_ahead(&self, piece: usize, length: i32) -> bool {
        if self.beaten(length) {
            return false;
        }
        let mut at = piece;
        while at < self.pieces {
            let kind = self.kind_of[at];
            let copies = self.kind_of[at..self.pieces].iter().take_while(|&&k| k == kind).count();
            let set = &self.clear[(piece * self.kinds + kind) * self.words..][..self.words];
            let short = &self.short[kind * self.words..][..self.words];
            let mut count = 0;
            for (c, s) in set.iter().zip(short) {
                count += (c & s).count_ones() as usize;
                if count >= copies {
                    break;
                }
            }
            if count < copies {
                return false;
            }
            at += copies;
        }
        true
    }

    fn complete(&mut self, length: i32) {
        let told = if mutant::is("length_of_last_piece") {
            self.board.length(self.kind_of[self.pieces - 1], self.placed[self.pieces - 1].into())
        } else {
            length
        };
        let held = self.out.best.filter(|_| mutant::is("first_completed_held"));
        self.out.best = Some((told, held.map_or(self.placed, |(_, numbers)| numbers)));
        self.keep_below(length + i32::from(mutant::is("bound_not_longer")));
    }

    /// Only candidates that alone leave the length below the bound count as short.
    fn keep_below(&mut self, bound: i32) {
        let margins = if mutant::is("bound_of_ends") {
            -self.board.margin
        } else if mutant::is("bound_with_margin_twice") {
            self.board.margin
        } else {
            0
        };
        for kind in 0..self.kinds {
            for i in 0..self.words {
                let mut left = self.board.candidates[kind][i];
                let mut short = 0;
                while left != 0 {
                    let bit = left.trailing_zeros();
                    left &= left - 1;
                    if self.board.length(kind, i * 64 + bit as usize) + margins < bound {
                        short |= 1 << bit;
                    }
                }
                self.short[kind * self.words + i] = short;
            }
        }
    }
}

/// A copy, only for the mutant that needs one.
trait CloneIf {
    fn clone_if(&self, wanted: bool) -> Option<Vec<u64>>;
}

impl CloneIf for Vec<u64> {
    #[inline(always)]
    fn clone_if(&self, wanted: bool) -> Option<Vec<u64>> {
        wanted.then(|| self.clone())
    }
}
