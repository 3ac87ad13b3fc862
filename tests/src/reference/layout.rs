//! Layouts as numbers, and whether one passes.

use super::board::{Board, Piece};

/// Four numbers an entry: type, column, row, turn.
pub fn to_numbers(board: &Board, layout: &[Piece]) -> Vec<u16> {
    layout
        .iter()
        .flat_map(|&piece| {
            let c = board.at(piece);
            [piece.kind, c.column, c.row, c.turn].map(|n| n as u16)
        })
        .collect()
}

/// The layout that the numbers list, if it passes.
pub fn passing(board: &Board, numbers: &[u16]) -> Option<Vec<Piece>> {
    if numbers.len() != 4 * board.job.pieces() {
        return None;
    }
    let layout: Option<Vec<Piece>> = numbers.chunks(4).map(|entry| piece(board, entry)).collect();
    let layout = layout?;
    (in_order(&layout) && has_the_copies(board, &layout) && free_of_conflict(board, &layout)).then_some(layout)
}

fn piece(board: &Board, entry: &[u16]) -> Option<Piece> {
    let [kind, column, row, turn] = [0, 1, 2, 3].map(|i| usize::from(entry[i]));
    let list = board.candidates.get(kind)?;
    let index = list.iter().position(|c| (c.column, c.row, c.turn) == (column, row, turn))?;
    Some(Piece { kind, index })
}

/// By type, and within a type by strictly rising candidate number (lists are in that order).
fn in_order(layout: &[Piece]) -> bool {
    layout.windows(2).all(|w| w[0].kind < w[1].kind || w[0].kind == w[1].kind && w[0].index < w[1].index)
}

fn has_the_copies(board: &Board, layout: &[Piece]) -> bool {
    board
        .job
        .demands()
        .iter()
        .enumerate()
        .all(|(kind, &demand)| layout.iter().filter(|p| p.kind == kind).count() == demand)
}

pub fn free_of_conflict(board: &Board, layout: &[Piece]) -> bool {
    layout
        .iter()
        .enumerate()
        .all(|(i, &one)| layout[..i].iter().all(|&before| !board.conflict(before, one)))
}
