//! Jobs with their types in no class as fillers: in a class of gap 0. By the library they nest as the jobs themselves did
//! while types in no class had no gap.

use nest_tests::reference::services::bytes_of;

use crate::case::{is_large, Case};
use crate::harness::Harness;

const FILLED: &str = "jobs without classes that nest alike with fillers";
const FILLED_OTHERWISE: &str = "jobs with classes that nest otherwise with fillers in the place of types in no class";

/// All that is counted.
pub const COUNTED: [&str; 2] = [FILLED, FILLED_OTHERWISE];

impl Harness<'_> {
    /// On boards that are not large.
    pub fn fillers(&mut self, case: &Case) {
        if case.clamped.as_ref().is_ok_and(is_large) {
            return;
        }
        let Some(filled) = case.filled() else { return };
        let (Ok(board), Some(walked)) = (&filled.clamped, filled.walked()) else { return };
        let otherwise = case.walks_otherwise(walked);
        match (board.job.classes.is_empty(), otherwise) {
            (true, true) => self.mismatch(case, "the reference: a job without classes does not nest as before"),
            (true, false) => self.report.note(FILLED),
            (false, true) => self.report.note(FILLED_OTHERWISE),
            (false, false) => {}
        }
        if let Some((kind, number, other)) = self.good_row(board) {
            self.row(&filled, kind, number, other, 8 * board.job.words());
        }
        for numbers in self.layouts(&filled, board) {
            self.check(&filled, &bytes_of(&numbers));
        }
        let room = self.long_enough(&board.job);
        self.run(&filled, walked.steps as u32, &[], room);
    }
}
