//! Layouts to check and to begin from: those that were found, those at random, and those with something wrong.

use nest_tests::reference::board::{Board, Piece};
use nest_tests::reference::layout::to_numbers;
use nest_tests::reference::services::bytes_of;

use crate::case::Case;
use crate::harness::Harness;
use crate::lent::awkward_lengths;

impl Harness<'_> {
    /// The best layout of the walk, if there is one, and some at random, as numbers.
    pub fn layouts(&mut self, case: &Case, board: &Board) -> Vec<Vec<u16>> {
        let mut layouts: Vec<Vec<Piece>> = case.best().map(<[Piece]>::to_vec).into_iter().collect();
        layouts.extend((0..3).filter_map(|_| self.random_layout(board)));
        layouts.iter().map(|layout| to_numbers(board, layout)).collect()
    }

    /// The bytes of the best layout, or noise in their place.
    pub fn any_layout(&mut self, case: &Case, board: &Board) -> Vec<u8> {
        match case.best().filter(|_| self.noise.one_in(2)) {
            Some(best) => bytes_of(&to_numbers(board, best)),
            None => {
                let length = self.noise.pick(&awkward_lengths(8 * board.job.pieces(), 2));
                self.noise.bytes(length)
            }
        }
    }

    /// Candidates at random, mostly clear of those before, in order.
    fn random_layout(&mut self, board: &Board) -> Option<Vec<Piece>> {
        let mut layout: Vec<Piece> = Vec::new();
        for (kind, demand) in board.job.demands().into_iter().enumerate() {
            for _ in 0..demand {
                let list = &board.candidates[kind];
                if list.is_empty() {
                    return None;
                }
                let mut pick = || Piece { kind, index: self.noise.below(list.len()) };
                let mut piece = pick();
                for _ in 0..20 {
                    if layout.iter().all(|&p| !board.conflict(p, piece)) {
                        break;
                    }
                    piece = pick();
                }
                layout.push(piece);
            }
        }
        layout.sort_by_key(|p| (p.kind, p.index));
        Some(layout)
    }

    /// The bytes of the layout with one thing changed, or of another size.
    pub fn spoilt_layouts(&mut self, board: &Board, numbers: &[u16]) -> Vec<Vec<u8>> {
        let mut spoilt: Vec<Vec<u8>> = (0..4).map(|_| bytes_of(&self.spoilt_layout(board, numbers))).collect();
        let mut bytes = bytes_of(numbers);
        bytes.push(self.noise.byte());
        spoilt.push(bytes.clone());
        bytes.truncate(2 * numbers.len() - 1);
        spoilt.push(bytes);
        spoilt
    }

    fn spoilt_layout(&mut self, board: &Board, numbers: &[u16]) -> Vec<u16> {
        let mut other = numbers.to_vec();
        let entry = 4 * self.noise.below(numbers.len() / 4);
        let field = entry + self.noise.below(4);
        match self.noise.below(9) {
            0 => other[field] = other[field].wrapping_add(1),
            1 => other[field] = other[field].wrapping_sub(1),
            2 => other[field] = other[field].wrapping_add(self.noise.pick(&[256, 4, 32_768])),
            3 => {
                // Another column and row with the same candidate number.
                other[entry + 1] = other[entry + 1].wrapping_sub(1);
                other[entry + 2] = other[entry + 2].wrapping_add(board.job.rows() as u16);
            }
            4 => {
                // Another row and turn with the same candidate number.
                other[entry + 2] = other[entry + 2].wrapping_sub(1);
                other[entry + 3] += 4;
            }
            5 => {
                let next = (entry + 4) % numbers.len();
                for i in 0..4 {
                    other.swap(entry + i, next + i);
                }
            }
            6 => {
                let next = (entry + 4) % numbers.len();
                other.copy_within(entry..entry + 4, next);
            }
            7 => other.truncate(numbers.len() - self.noise.pick(&[1, 2, 4])),
            _ => other.extend((0..self.noise.pick(&[1, 2, 4])).map(|_| 0)),
        }
        other
    }
}
