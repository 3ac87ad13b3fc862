//! Stopped runs carried across: each begins from what the one before it held.

use nest_tests::answer::{Answer, STOPPED_WITH_LAYOUT, STOPPED_WITH_NOTHING};
use nest_tests::reference::board::Board;

use crate::case::Case;
use crate::harness::{Harness, Room};
use crate::nest;

pub const CARRIED: &str = "stopped runs carried across to their end";

impl Harness<'_> {
    /// The first run has a small budget, each later one a larger budget and the layout that the one before it held, if it
    /// held any. The one that ends tells the length of one long run, and so does the library's check of what it holds.
    pub fn carry_across(&mut self, case: &Case) {
        let (Ok(board), Some(walked)) = (&case.clamped, case.walked()) else { return };
        if walked.stopped {
            return;
        }
        let shortest = walked.best.as_ref().map(|best| board.length(best) as u16);
        let mut budget = self.noise.below(walked.steps as usize / 2 + 1) as u64;
        let mut given = None;
        // That the walk from a layout needs no more steps than the one from none is nowhere promised. If it did, the last
        // run would stop, and be told.
        while budget < walked.steps {
            let (answer, held) = self.run_on(case, board, given.as_deref(), budget as u32);
            match answer.verdict {
                STOPPED_WITH_LAYOUT => given = Some(held),
                STOPPED_WITH_NOTHING => given = None,
                _ => break,
            }
            budget += 1 + budget / 2;
        }
        let (ended, held) = self.run_on(case, board, given.as_deref(), walked.steps as u32);
        let expected = match shortest {
            Some(length) => Answer { steps: ended.steps, ..Answer::counted(length.into()) },
            None => Answer { steps: ended.steps, ..Answer::refused(10) },
        };
        let checked = nest::check(&case.bytes, case.margin, &held);
        if ended != expected || shortest.is_some_and(|length| checked != Answer::counted(length.into())) {
            let what = format!("runs carried across: ended with {ended:?}, checked {checked:?}, expected {expected:?}");
            self.mismatch(case, &what);
        }
        if given.is_some() {
            self.report.note(CARRIED);
        }
    }

    /// A run of the library alone, and what its answer numbers are afterwards.
    fn run_on(&mut self, case: &Case, board: &Board, given: Option<&[u8]>, budget: u32) -> (Answer, Vec<u8>) {
        let (mut work, mut answer) = self.lent_to_run(Room::exact(&board.job));
        let layout = given.unwrap_or_default();
        let got = nest::run(&case.bytes, case.margin, budget, layout, work.bytes_mut(), answer.bytes_mut());
        (got, answer.bytes().to_vec())
    }
}
