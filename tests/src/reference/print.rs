//! What the command program prints for a job: it passes no margin and gives no layout. And what it would print for a run
//! begun from one.

use super::board::Board;
use super::layout::to_numbers;
use super::services::given;
use super::walk::walk;

pub const BUDGET: u64 = 1_000_000;

pub fn printed(bytes: &[u8], layout: &[u8]) -> String {
    let begun = Board::read(bytes, 0).and_then(|board| Ok((given(&board, layout)?, board)));
    let (given, board) = match begun {
        Err(number) => return format!("refused {number}\n"),
        Ok(begun) => begun,
    };
    let walked = walk(&board, given.as_deref(), BUDGET);
    let steps = walked.steps;
    let Some(best) = walked.best else {
        return if walked.stopped { format!("stopped - {steps}\n") } else { format!("none {steps}\n") };
    };
    let verdict = if walked.stopped { "stopped" } else { "shortest" };
    let mut out = format!("{verdict} {} {steps}\n", board.length(&best));
    for entry in to_numbers(&board, &best).chunks(4) {
        out += &format!("{} {} {} {}\n", entry[0], entry[1], entry[2], entry[3]);
    }
    out
}
