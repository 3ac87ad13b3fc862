//! The six services: each gives its answer and changes the lent buffers as documents 01 and 02 say.

use super::board::{Board, Piece};
use super::cutting::{CutOff, MOST_TRIANGLES};
use super::geometry::Point;
use super::layout::{passing, to_numbers};
use super::reader::Job;
use super::walk::walk;
use super::writer::saved;
use crate::answer::{Answer, ENDED, STOPPED_WITH_LAYOUT, STOPPED_WITH_NOTHING};

/// A job as it was read, or the number that refuses it.
pub type Reading = Result<Job, u8>;
/// A job under a margin, or the number that refuses the one or the other.
pub type Clamped = Result<Board, u8>;

/// The numbers that read writes, in order; a class's mark as 0 or 1, a negative coordinate as 65,536 plus it.
pub fn content(job: &Job) -> Vec<u16> {
    let mut out = vec![job.width, job.length, job.step, job.classes.len() as u16];
    for class in &job.classes {
        out.extend([class.id, class.rank, class.gap, class.marked.into()].map(u16::from));
    }
    out.push(job.types.len() as u16);
    for kind in &job.types {
        out.extend([kind.demand, kind.turn_mask, kind.class_mask, kind.parts.len() as u8].map(u16::from));
        for part in &kind.parts {
            out.push(part.len() as u16);
            out.extend(part.iter().flat_map(coordinates));
        }
    }
    out.push(job.pieces() as u16);
    out
}

/// x and y, a negative one as 65,536 plus it.
fn coordinates(corner: &Point) -> [u16; 2] {
    [corner.x, corner.y].map(|n| n.rem_euclid(65_536) as u16)
}

pub fn read(reading: &Reading, answer: &mut [u8]) -> Answer {
    let job = match reading {
        Err(number) => return Answer::refused(*number),
        Ok(job) => job,
    };
    let numbers = content(job);
    if answer.len() / 2 < numbers.len() {
        return Answer::refused(9);
    }
    write_numbers(answer, &numbers);
    Answer::counted(numbers.len())
}

/// The answer is counted in bytes.
pub fn save(reading: &Reading, answer: &mut [u8]) -> Answer {
    let job = match reading {
        Err(number) => return Answer::refused(*number),
        Ok(job) => job,
    };
    let bytes = saved(job);
    if answer.len() < bytes.len() {
        return Answer::refused(9);
    }
    answer[..bytes.len()].copy_from_slice(&bytes);
    Answer::counted(bytes.len())
}

pub fn row(clamped: &Clamped, kind: u64, number: u64, other: u64, row: &mut [u8]) -> Answer {
    let board = match clamped {
        Err(number) => return Answer::refused(*number),
        Ok(board) => board,
    };
    let Some((piece, other)) = row_arguments(board, kind, number, other) else {
        return Answer::refused(12);
    };
    let mut words = vec![0u64; board.job.words()];
    if row.len() / 8 < words.len() {
        return Answer::refused(9);
    }
    for (index, candidate) in board.candidates[other].iter().enumerate() {
        if board.conflict(piece, Piece { kind: other, index }) {
            words[candidate.number / 64] |= 1 << (candidate.number % 64);
        }
    }
    write_words(row, &words);
    Answer::counted(words.len())
}

fn row_arguments(board: &Board, kind: u64, number: u64, other: u64) -> Option<(Piece, usize)> {
    let kind = usize::try_from(kind).ok().filter(|&k| k < board.job.types.len())?;
    let other = usize::try_from(other).ok().filter(|&k| k < board.job.types.len())?;
    let index = board.find(kind, usize::try_from(number).ok()?)?;
    Some((Piece { kind, index }, other))
}

pub fn check(clamped: &Clamped, layout: &[u8]) -> Answer {
    let board = match clamped {
        Err(number) => return Answer::refused(*number),
        Ok(board) => board,
    };
    match passing(board, &numbers_of(layout)) {
        None => Answer::refused(11),
        Some(layout) => Answer::counted(board.length(&layout) as usize),
    }
}

/// The layout that a run begins from; a buffer of no bytes gives none.
pub fn given(board: &Board, layout: &[u8]) -> Result<Option<Vec<Piece>>, u8> {
    match layout {
        [] => Ok(None),
        _ => passing(board, &numbers_of(layout)).ok_or(11).map(Some),
    }
}

pub fn run(clamped: &Clamped, budget: u32, layout: &[u8], work: &mut [u8], answer: &mut [u8]) -> Answer {
    let board = match clamped {
        Err(number) => return Answer::refused(*number),
        Ok(board) => board,
    };
    let given = match given(board, layout) {
        Err(number) => return Answer::refused(number),
        Ok(given) => given,
    };
    let work_words = work_words(&board.job);
    if work.len() / 8 < work_words {
        return Answer::refused(8);
    }
    if answer.len() / 2 < 4 * board.job.pieces() {
        return Answer::refused(9);
    }
    let walked = walk(board, given.as_deref(), budget.into());
    write_words(work, &vec![0; work_words]);
    if let Some(best) = &walked.best {
        write_numbers(answer, &to_numbers(board, best));
    }
    let steps = u32::try_from(walked.steps).expect("at most the budget");
    let count = walked.best.as_ref().map_or(0, |best| board.length(best) as u16);
    let (number, verdict) = match (walked.stopped, &walked.best) {
        (false, Some(_)) => (0, ENDED),
        (false, None) => (10, ENDED),
        (true, Some(_)) => (0, STOPPED_WITH_LAYOUT),
        (true, None) => (0, STOPPED_WITH_NOTHING),
    };
    Answer { number, verdict, count, steps }
}

/// The answer is counted in triangles, six numbers each.
pub fn cut(cut_off: &CutOff, answer: &mut [u8]) -> Answer {
    let triangles = match cut_off {
        Err(number) => return Answer::refused(*number),
        Ok(triangles) => triangles,
    };
    if answer.len() / 2 < 6 * MOST_TRIANGLES {
        return Answer::refused(9);
    }
    let numbers: Vec<u16> = triangles.as_flattened().iter().flat_map(coordinates).collect();
    write_numbers(answer, &numbers);
    Answer::counted(triangles.len())
}

/// T × N × ceil(D / 16).
pub fn work_words(job: &Job) -> usize {
    job.types.len() * job.pieces() * job.words()
}

pub fn numbers_of(bytes: &[u8]) -> Vec<u16> {
    bytes.chunks_exact(2).map(|b| u16::from_le_bytes([b[0], b[1]])).collect()
}

pub fn bytes_of(numbers: &[u16]) -> Vec<u8> {
    numbers.iter().flat_map(|n| n.to_le_bytes()).collect()
}

fn write_numbers(buffer: &mut [u8], numbers: &[u16]) {
    let bytes = bytes_of(numbers);
    buffer[..bytes.len()].copy_from_slice(&bytes);
}

fn write_words(buffer: &mut [u8], words: &[u64]) {
    let bytes: Vec<u8> = words.iter().flat_map(|w| w.to_le_bytes()).collect();
    buffer[..bytes.len()].copy_from_slice(&bytes);
}
