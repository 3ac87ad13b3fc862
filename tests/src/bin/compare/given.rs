//! Runs that begin from a given layout: fit ones at every budget, unfit ones with room and without, and layouts made with
//! the gap as a square, before common cut asked for ranks, or while types in no class had no gap; and what of them is
//! counted.

use nest_tests::answer::{Answer, ENDED};
use nest_tests::changes::other_contents;
use nest_tests::reference::board::{Board, Piece};
use nest_tests::reference::layout::{passing, to_numbers};
use nest_tests::reference::services::{self, bytes_of, work_words};
use nest_tests::reference::walk::{walk, Walked};

use crate::carried;
use crate::case::{is_large, Case};
use crate::harness::Harness;
use crate::lent::awkward_lengths;
use crate::nest;
use crate::report::Report;

/// Walks from a given layout are followed to their end up to this many steps.
const STEPS_AT_MOST: u64 = 300;
/// Another job's layout is looked for where there are at most so many candidates, by a walk of at most so many steps.
const CANDIDATES_AT_MOST: usize = 300;
const STEPS_ELSEWHERE: u64 = 50;

const KEPT: &str = "ended runs that keep the given layout";
const FIRST_ELSEWHERE: &str = "given layouts that stand, though another of their length comes first";
const REPLACED: &str = "ended runs that found a shorter layout than the given one";
const HELD: &str = "stopped runs that hold the given layout";
const REPLACED_ON_THE_WAY: &str = "stopped runs that hold a shorter layout than the given one";
const NOT_BEGUN: &str = "runs that a given layout leaves nothing to try";
const INCOMPLETE: &str = "runs from a given layout with an incomplete number behind it";
const SHORT_WORK_TOO: &str = "runs from an unfit layout, with too few work words as well";
const SHORT_ANSWER_TOO: &str = "runs from an unfit layout, with too few answer numbers as well";
const BY_SQUARES: &str = "layouts that were made with the gap as a square, taken over";
const LONGER_BY_SQUARES: &str = "layouts that were made with the gap as a square, longer than the shortest now";
const WITHOUT_RANKS: &str = "layouts that were made before common cut asked for ranks, and do not pass";
const WITHOUT_DEFAULT: &str = "layouts that were made while types in no class had no gap, and do not pass";
const FIT_ELSEWHERE: &str = "runs from a layout that was found under another margin, and passes";
const UNFIT_ELSEWHERE: &str = "runs from a layout that was found under another margin, and does not pass";
pub const SEARCHED: &str = "runs from a given layout compared with all layouts";

/// All that is counted.
pub const COUNTED: [&str; 17] = [
    KEPT,
    FIRST_ELSEWHERE,
    REPLACED,
    HELD,
    REPLACED_ON_THE_WAY,
    NOT_BEGUN,
    INCOMPLETE,
    SHORT_WORK_TOO,
    SHORT_ANSWER_TOO,
    BY_SQUARES,
    LONGER_BY_SQUARES,
    WITHOUT_RANKS,
    WITHOUT_DEFAULT,
    FIT_ELSEWHERE,
    UNFIT_ELSEWHERE,
    SEARCHED,
    carried::CARRIED,
];

/// Counts a run by the answer that is expected of it, and the buffers as they should be after it.
pub fn count(case: &Case, layout: &[u8], expected: Answer, work: &[u8], answer: &[u8], report: &mut Report) {
    let Ok(board) = &case.clamped else { return };
    let needed = 8 * board.job.pieces();
    let seen = match expected.number {
        _ if layout.is_empty() => return,
        0 => {
            let kept = answer[..needed] == layout[..needed];
            let ended = expected.verdict == ENDED;
            vec![
                (KEPT, ended && kept),
                (REPLACED, ended && !kept),
                (HELD, !ended && kept),
                (REPLACED_ON_THE_WAY, !ended && !kept),
                (NOT_BEGUN, ended && expected.steps == 0),
                (INCOMPLETE, layout.len() > needed),
            ]
        }
        11 => {
            let short_work = work.len() / 8 < work_words(&board.job);
            vec![(SHORT_WORK_TOO, short_work), (SHORT_ANSWER_TOO, answer.len() / 2 < needed / 2)]
        }
        _ => vec![],
    };
    seen.into_iter().filter(|&(_, holds)| holds).for_each(|(what, _)| report.note(what));
}

impl Harness<'_> {
    pub fn given_layouts(&mut self, case: &Case) {
        let Ok(board) = &case.clamped else { return };
        for layout in self.fit_layouts(case, board) {
            self.runs_from(case, board, &layout);
        }
        self.layouts_by_squares(case, board);
        self.layout_with_less_room(case, board, case.walked_without_ranks(), WITHOUT_RANKS);
        self.layout_with_less_room(case, board, case.walked_without_default(), WITHOUT_DEFAULT);
        for layout in self.unfit_layouts(case, board) {
            self.short_run(case, &layout);
        }
    }

    /// Passing layouts: the best of the walk and, if the board is not large, one that it completed on its way, any, and
    /// one as short as the first of the shortest.
    fn fit_layouts(&mut self, case: &Case, board: &Board) -> Vec<Vec<Piece>> {
        let (Some(walked), Some(best)) = (case.walked(), case.best()) else { return vec![] };
        let mut layouts = vec![best.to_vec()];
        if is_large(board) {
            return layouts;
        }
        layouts.extend(self.one_of(&walked.completed));
        match case.passing() {
            Some(passing) => {
                layouts.extend(self.one_of(passing));
                let as_short = |layout: &&Vec<Piece>| board.length(layout) == board.length(best) && *layout != best;
                let as_short: Vec<_> = passing.iter().filter(as_short).cloned().collect();
                layouts.extend(self.one_of(&as_short));
            }
            None => layouts.extend(self.with_a_piece_moved(board, best)),
        }
        layouts.sort_by_key(|layout| layout.iter().map(|piece| piece.index).collect::<Vec<_>>());
        layouts.dedup();
        layouts
    }

    fn one_of(&mut self, layouts: &[Vec<Piece>]) -> Option<Vec<Piece>> {
        layouts.get(self.noise.below(layouts.len().max(1))).cloned()
    }

    /// The layout with a piece on another candidate, if one is found that passes.
    fn with_a_piece_moved(&mut self, board: &Board, layout: &[Piece]) -> Option<Vec<Piece>> {
        let mut moved = || {
            let mut other = layout.to_vec();
            let hit = &mut other[self.noise.below(layout.len())];
            hit.index = self.noise.below(board.candidates[hit.kind].len());
            other.sort_by_key(|piece| (piece.kind, piece.index));
            other
        };
        let passes = |other: &Vec<Piece>| other != layout && passing(board, &to_numbers(board, other)).is_some();
        (0..20).map(|_| moved()).find(passes)
    }

    /// Runs from a layout that passes, at budgets around what the walk from it needs, and one with about enough room.
    fn runs_from(&mut self, case: &Case, board: &Board, layout: &[Piece]) {
        let walked = walk(board, Some(layout), STEPS_AT_MOST);
        let bytes = bytes_of(&to_numbers(board, layout));
        let mut budgets = self.budgets(&walked);
        budgets.sort_unstable();
        budgets.dedup();
        for budget in budgets {
            let room = self.long_enough(&board.job);
            self.run(case, budget, &bytes, room);
        }
        let room = self.any_room(&board.job);
        self.run(case, 1, &bytes, room);
        self.exhaustive_search(case, Some(layout));
        // Where nothing is shorter, what the walk without it ends with is as short, and the first.
        let stands = !walked.stopped && walked.completed.is_empty();
        if stands && case.walked().is_some_and(|first| !first.stopped && first.best.as_deref() != Some(layout)) {
            self.report.note(FIRST_ELSEWHERE);
        }
    }

    /// Bytes that are mostly no passing layout: spoilt ones, one at random, one of another job, noise, and one byte.
    fn unfit_layouts(&mut self, case: &Case, board: &Board) -> Vec<Vec<u8>> {
        let layouts = self.layouts(case, board);
        let spoilt = layouts.first().map(|numbers| self.spoilt_layouts(board, numbers));
        let at_random = layouts.last().map(|numbers| bytes_of(numbers));
        let of_another_job = self.layout_of_another_job(case, board);
        let length = self.noise.pick(&awkward_lengths(8 * board.job.pieces(), 2));
        let noise = [self.noise.bytes(length), self.noise.bytes(1)];
        spoilt.into_iter().flatten().chain(at_random).chain(of_another_job).chain(noise).collect()
    }

    /// A layout of a job with one thing changed, under the same margin.
    fn layout_of_another_job(&mut self, case: &Case, board: &Board) -> Option<Vec<u8>> {
        let others = other_contents(self.noise, &board.job);
        let (_, bytes) = others.get(self.noise.below(others.len().max(1)))?;
        let other = Board::read(bytes, case.margin).ok()?;
        if other.candidate_count() > CANDIDATES_AT_MOST {
            return None;
        }
        let best = walk(&other, None, STEPS_ELSEWHERE).best?;
        Some(bytes_of(&to_numbers(&other, &best)))
    }

    /// A run of few steps from a layout of these bytes, with room enough or about enough.
    pub fn short_run(&mut self, case: &Case, layout: &[u8]) {
        let Ok(job) = &case.reading else { return };
        let room = if self.noise.one_in(2) { self.long_enough(job) } else { self.any_room(job) };
        let budget = self.noise.pick(&[0, 1, 20]);
        self.run(case, budget, layout, room);
    }

    /// A run of few steps from a layout that was found under another margin than the case's.
    pub fn run_under_another_margin(&mut self, case: &Case, layout: &[u8]) {
        match services::check(&case.clamped, layout).number {
            0 => self.report.note(FIT_ELSEWHERE),
            11 => self.report.note(UNFIT_ELSEWHERE),
            _ => {}
        }
        self.short_run(case, layout);
    }

    /// Layouts that a walk completes with the gap as a square pass with the round one, and are as long.
    fn layouts_by_squares(&mut self, case: &Case, board: &Board) {
        let Some(by_squares) = case.walked_by_squares() else { return };
        for layout in &by_squares.completed {
            let bytes = bytes_of(&to_numbers(board, layout));
            let expected = Answer::counted(board.length(layout) as usize);
            let got = nest::check(&case.bytes, case.margin, &bytes);
            if [got, services::check(&case.clamped, &bytes)] != [expected; 2] {
                self.mismatch(case, &format!("check of a layout made by squares: got {got:?}, expected {expected:?}"));
            }
            self.report.note(BY_SQUARES);
        }
        let Some(best) = &by_squares.best else { return };
        let walked_to_its_end = case.walked().filter(|walked| !walked.stopped);
        let shortest = walked_to_its_end.and_then(|walked| walked.best.as_ref());
        if shortest.is_some_and(|shortest| board.length(shortest) < board.length(best)) {
            self.report.note(LONGER_BY_SQUARES);
        }
        self.runs_from(case, board, best);
    }

    /// What a walk ends with by a rule that has less room between some pieces: they may stand too near.
    fn layout_with_less_room(&mut self, case: &Case, board: &Board, walked: Option<&Walked>, too_near: &'static str) {
        let Some(best) = walked.and_then(|walked| walked.best.as_ref()) else { return };
        let numbers = to_numbers(board, best);
        if passing(board, &numbers).is_none() {
            self.report.note(too_near);
        }
        let bytes = bytes_of(&numbers);
        self.check(case, &bytes);
        self.short_run(case, &bytes);
    }
}
