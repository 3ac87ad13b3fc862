//! The layout that a run begins from, and the mistakes that concern it.

use opponent::job::Job;
use opponent::mutant;
use opponent::rows::Board;
use opponent::walk::{Outcome, Walk};

use crate::{by_an_earlier_rule, checked, refused, Layout};

/// None where the buffer has no bytes; or what refuses it.
pub fn layout(job: &Job, margin: i32, bytes: &[u8]) -> Result<Option<Layout>, u8> {
    let none = bytes.is_empty() || bytes.len() == 1 && mutant::is("given_byte_as_none");
    if none || mutant::is("given_ignored") {
        return Ok(None);
    }
    if mutant::is("given_incomplete_number_counted") && bytes.len() % 2 == 1 {
        return Err(11);
    }
    let more = bytes.len() > 8 * job.pieces && mutant::is("given_longer_taken");
    let bytes = if more { &bytes[..8 * job.pieces] } else { bytes };
    let clamps = if mutant::is("given_checked_without_margin") { 0 } else { margin };
    let judged = by_an_earlier_rule(*job, ["given_with_unranked_cut", "given_without_default"]);
    match checked(&judged, clamps, bytes, ["given_unclamped", "given_with_square_gap"]) {
        Some((length, numbers)) => Ok(Some((known_length(job, margin, length + margin - clamps, &numbers), numbers))),
        None if mutant::is("given_not_checked") && bytes.len() == 8 * job.pieces => Ok(Some(unchecked(job, bytes))),
        None => Err(11),
    }
}

/// A mistake: the length is that of the last piece.
fn known_length(job: &Job, margin: i32, length: i32, numbers: &[u16; 12]) -> i32 {
    if mutant::is("given_length_of_last_piece") {
        return Board::new(job, margin).length(job.kind_count - 1, numbers[job.pieces - 1].into());
    }
    length
}

/// For a mistake: whatever the numbers are, they are taken for a layout as long as the sheet.
fn unchecked(job: &Job, bytes: &[u8]) -> Layout {
    let mut numbers = [0; 12];
    for (number, entry) in numbers.iter_mut().zip(bytes.chunks_exact(8)) {
        let [column, row, turn] = [2, 4, 6].map(|at| usize::from(u16::from_le_bytes([entry[at], entry[at + 1]])));
        *number = ((column * job.rows + row) * 4 + turn) as u16;
    }
    (job.length, numbers)
}

/// The refusal of a given layout, which comes before those of short buffers. The mistakes: it comes behind one of them,
/// or the work words are cleared.
pub fn refusal(number: u8, work_short: bool, answer_short: bool, work: &mut [u8]) -> u64 {
    if mutant::is("work_cleared_at_eleven") {
        work.fill(0);
    }
    if work_short && mutant::is("eleven_after_eight") {
        return refused(8);
    }
    if answer_short && mutant::is("eleven_after_nine") {
        return refused(9);
    }
    refused(number)
}

/// The walk from a given layout, or from none. The mistakes: the layout is not handed to the walk; it is, but as no bound
/// or as one that is 1 off; or what is held in the end is not what the walk found.
pub fn walk_from(given: Option<Layout>, walk: Walk, budget: u32) -> Outcome {
    let Some((length, numbers)) = given.filter(|_| !mutant::is("given_checked_only")) else {
        return walk.run(budget.into());
    };
    let off = i32::from(mutant::is("given_bound_one_more")) - i32::from(mutant::is("given_bound_one_less"));
    let bound = Some((length + off, numbers)).filter(|_| !mutant::is("given_no_bound"));
    let mut out = walk.begun_from(bound).run(budget.into());
    let found = out.best.filter(|best| Some(*best) != bound && best.0 < length + off.max(0));
    out.best = match found {
        Some((shorter, _)) if mutant::is("given_told_with_shorter_length") => Some((shorter, numbers)),
        Some(_) if !mutant::is("given_returned_over_shorter") => found,
        _ => given,
    };
    out
}

/// The mistakes: a given layout that stands is not told.
pub fn overlooked(stopped: bool) -> bool {
    mutant::is(if stopped { "given_told_as_nothing" } else { "given_told_as_none" })
}
