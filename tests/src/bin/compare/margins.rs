//! A job under margins besides the one that it was made with.

use nest_tests::margins::{above, for_sides};
use nest_tests::reference::services::bytes_of;

use crate::case::Case;
use crate::harness::Harness;
use crate::lent::awkward_lengths;

/// How many refused margins each job is put to.
const REFUSED: usize = 3;

impl Harness<'_> {
    /// Layouts and candidates that were found under the case's margin, under others: there a layout has another
    /// length or meets a clamp, and other candidates exist. The first of the layouts is also given to a run.
    pub fn other_margins(&mut self, case: &Case) {
        let Ok(board) = &case.clamped else { return };
        let job = &board.job;
        let layouts: Vec<Vec<u8>> = self.layouts(case, board).iter().map(|numbers| bytes_of(numbers)).collect();
        let some = for_sides(self.noise, job.width, job.length);
        let mut margins = vec![0, case.margin.saturating_sub(1), case.margin + 1, some];
        margins.sort_unstable();
        margins.dedup();
        for margin in margins.into_iter().filter(|&margin| margin != case.margin) {
            let other = case.under(margin);
            for layout in &layouts {
                self.check(&other, layout);
            }
            if let Some(layout) = layouts.first() {
                self.run_under_another_margin(&other, layout);
            }
            if let Some((kind, number, second)) = self.good_row(board) {
                self.row(&other, kind, number, second, 8 * job.words());
            }
        }
    }

    /// A margin above the most is refused before all that row, check and run refuse by themselves: with good
    /// arguments and bad ones, with room enough and too little.
    pub fn refused_margins(&mut self, case: &Case) {
        let Ok(board) = &case.clamped else { return };
        let job = &board.job;
        for _ in 0..REFUSED {
            let refused = case.under(above(self.noise));
            let (kind, number, other) = self.any_row(board);
            let row = self.noise.pick(&awkward_lengths(8 * job.words(), 8));
            self.row(&refused, kind, number, other, row);
            let layout = self.any_layout(case, board);
            self.check(&refused, &layout);
            let room = self.any_room(job);
            // Small, so that an engine which accepts such a margin still comes back.
            let budget = self.noise.pick(&[0, 1, 1000]);
            self.run(&refused, budget, &layout, room);
        }
    }
}
