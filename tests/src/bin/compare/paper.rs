//! What is known of the small boards, put to the library.

use std::fmt::Debug;

use nest_tests::answer::{Answer, STOPPED_WITH_LAYOUT, STOPPED_WITH_NOTHING};
use nest_tests::reference::reader::read_job;
use nest_tests::reference::services::{bytes_of, numbers_of};
use nest_tests::small_boards::{small_boards, Claim, Dot, SmallBoard};

use crate::case::Case;
use crate::harness::Harness;
use crate::nest;
use crate::saving::saved_by_library;

/// Enough for every job.
const WORK_BYTES: usize = 49_152;
const ANSWER_BYTES: usize = 96;

pub fn small_board_cases(harness: &mut Harness) {
    for board in small_boards() {
        harness.report.origin = format!("small board \"{}\"", board.name);
        for claim in &board.claims {
            harness.report.note("claims about the small boards");
            if let Err(what) = holds(&board, claim) {
                harness.report.mismatch(&what, &board.bytes, claim.margin());
            }
        }
        for margin in margins(&board) {
            harness.every_service(&Case::new(board.bytes.clone(), margin, None));
        }
    }
}

/// None, and those that the claims speak of.
fn margins(board: &SmallBoard) -> Vec<u64> {
    let mut margins: Vec<u64> = board.claims.iter().map(Claim::margin).chain([0]).collect();
    margins.sort_unstable();
    margins.dedup();
    margins
}

fn holds(board: &SmallBoard, claim: &Claim) -> Result<(), String> {
    let job = &board.bytes;
    match *claim {
        Claim::Run { margin, budget, ref given, printed } => {
            same(printed_by_run(job, margin, budget, given).as_str(), printed)
        }
        Claim::Reads(number) => same(nest::read(job, &mut [0; 4096]).number, number),
        Claim::Gives(ref numbers) => same(&given_by_read(job), numbers),
        Claim::Saves(ref bytes) => same(&saved_by_library(job), bytes),
        Claim::Conflict { margin, types, one, other, holds } => same(conflict(job, margin, types, one, other), holds),
        Claim::Check { margin, layout, length } => same(checked(job, margin, layout), length),
    }
}

fn same<T: PartialEq + Debug>(got: T, expected: T) -> Result<(), String> {
    if got == expected {
        return Ok(());
    }
    Err(format!("got {got:?}, expected {expected:?}"))
}

/// The numbers that read writes, none if it refuses the job.
pub fn given_by_read(job: &[u8]) -> Vec<u16> {
    let mut answer = [0; 4096];
    let count = nest::read(job, &mut answer).count;
    numbers_of(&answer).into_iter().take(count.into()).collect()
}

/// The count of an answer, or its refusal.
pub fn counted(answer: Answer) -> Result<u16, u8> {
    match answer.number {
        0 => Ok(answer.count),
        number => Err(number),
    }
}

fn checked(job: &[u8], margin: u64, layout: &[u16]) -> Result<u16, u8> {
    counted(nest::check(job, margin, &bytes_of(layout)))
}

/// The run's answer in the command program's words.
fn printed_by_run(job: &[u8], margin: u64, budget: u32, given: &[u8]) -> String {
    let (mut work, mut answer) = (vec![0xFF; WORK_BYTES], vec![0xFF; ANSWER_BYTES]);
    let Answer { number, verdict, count, steps } = nest::run(job, margin, budget, given, &mut work, &mut answer);
    let mut out = match (number, verdict) {
        (10, _) => return format!("none {steps}\n"),
        (0, STOPPED_WITH_NOTHING) => return format!("stopped - {steps}\n"),
        (0, STOPPED_WITH_LAYOUT) => format!("stopped {count} {steps}\n"),
        (0, _) => format!("shortest {count} {steps}\n"),
        _ => return format!("refused {number}\n"),
    };
    let pieces = read_job(job).map_or(0, |job| job.pieces());
    for e in numbers_of(&answer).chunks(4).take(pieces) {
        out += &format!("{} {} {} {}\n", e[0], e[1], e[2], e[3]);
    }
    out
}

fn conflict(bytes: &[u8], margin: u64, types: (usize, usize), one: Dot, other: Dot) -> Result<bool, u8> {
    let job = read_job(bytes)?;
    let number = |(column, row): Dot| (column * job.rows() + row) * 4;
    let mut row = vec![0xFF; 8 * job.words()];
    counted(nest::row(bytes, margin, types.0 as u64, number(one) as u64, types.1 as u64, &mut row))?;
    let at = number(other);
    Ok(row[at / 8] >> (at % 8) & 1 == 1)
}
