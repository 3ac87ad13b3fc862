//! Every layout of a small board, one after the other in document 01's order; no pruning, no walk.

use super::board::{Board, Piece};
use super::layout::free_of_conflict;

/// How many layouts there are to look at, if at most `most`.
pub fn how_many(board: &Board, most: u64) -> Option<u64> {
    let mut product = 1u64;
    for (kind, demand) in board.job.demands().into_iter().enumerate() {
        product = product.checked_mul(choose(board.candidates[kind].len() as u64, demand as u64)?)?;
        if product > most {
            return None;
        }
    }
    Some(product)
}

/// Ways to choose k of n.
fn choose(n: u64, k: u64) -> Option<u64> {
    if k > n {
        return Some(0);
    }
    (0..k).try_fold(1u64, |ways, i| Some(ways.checked_mul(n - i)? / (i + 1)))
}

/// All that pass, the earlier ones first.
pub fn passing_layouts(board: &Board) -> Vec<Vec<Piece>> {
    let mut passing = Vec::new();
    let kinds: Vec<usize> =
        board.job.demands().into_iter().enumerate().flat_map(|(kind, demand)| vec![kind; demand]).collect();
    each_layout(board, &kinds, &mut Vec::new(), &mut |complete| {
        if free_of_conflict(board, complete) {
            passing.push(complete.to_vec());
        }
    });
    passing
}

/// What a run that ends holds: the first of the shortest if something is shorter than the given layout, and otherwise
/// that one.
pub fn held<'a>(board: &Board, passing: &'a [Vec<Piece>], given: Option<&'a [Piece]>) -> Option<&'a [Piece]> {
    let shortest = passing.iter().map(|layout| board.length(layout)).min();
    let first = passing.iter().find(|layout| Some(board.length(layout)) == shortest).map(Vec::as_slice);
    match given {
        Some(layout) if Some(board.length(layout)) == shortest => given,
        _ => first,
    }
}

/// Calls `visit` with every ordered layout, the earlier ones first.
fn each_layout(board: &Board, kinds: &[usize], layout: &mut Vec<Piece>, visit: &mut dyn FnMut(&[Piece])) {
    let Some((&kind, later)) = kinds.split_first() else {
        return visit(layout);
    };
    let first = match layout.last() {
        Some(before) if before.kind == kind => before.index + 1,
        _ => 0,
    };
    for index in first..board.candidates[kind].len() {
        layout.push(Piece { kind, index });
        each_layout(board, later, layout, visit);
        layout.pop();
    }
}
