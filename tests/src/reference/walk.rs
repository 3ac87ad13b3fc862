//! The section "The walk", sentence by sentence, with a budget, and a layout to begin from if one is given.

use super::board::{Board, Piece};

pub struct Walked {
    pub stopped: bool,
    pub steps: u64,
    /// The layouts completed, each shorter than those before it and than the given one.
    pub completed: Vec<Vec<Piece>>,
    /// The last of them; where there is none, the layout that the walk began with.
    pub best: Option<Vec<Piece>>,
}

struct Walk<'a> {
    board: &'a Board,
    demands: Vec<usize>,
    budget: u64,
    steps: u64,
    stopped: bool,
    placed: Vec<Piece>,
    completed: Vec<Vec<Piece>>,
    best: Option<Vec<Piece>>,
}

/// A given layout, which passes, is the best from the beginning.
pub fn walk(board: &Board, given: Option<&[Piece]>, budget: u64) -> Walked {
    let mut walk = Walk {
        board,
        demands: board.job.demands(),
        budget,
        steps: 0,
        stopped: false,
        placed: vec![],
        completed: vec![],
        best: given.map(<[Piece]>::to_vec),
    };
    if walk.look_ahead() {
        walk.try_piece();
    }
    Walked { stopped: walk.stopped, steps: walk.steps, completed: walk.completed, best: walk.best }
}

impl Walk<'_> {
    /// Tries the candidates of the next piece in rising order and takes each that is live at that moment.
    fn try_piece(&mut self) {
        let kind = self.next_kind();
        for index in 0..self.board.candidates[kind].len() {
            let piece = Piece { kind, index };
            if !self.live(piece) {
                continue;
            }
            if self.steps == self.budget {
                self.stopped = true;
                return;
            }
            self.steps += 1;
            self.placed.push(piece);
            self.go_on();
            self.placed.pop();
            if self.stopped {
                return;
            }
        }
    }

    fn go_on(&mut self) {
        if self.placed.len() == self.board.job.pieces() {
            self.completed.push(self.placed.clone());
            self.best = Some(self.placed.clone());
        } else if self.look_ahead() {
            self.try_piece();
        }
    }

    /// Pieces follow the layout's order: the first type with copies left.
    fn next_kind(&self) -> usize {
        (0..self.demands.len()).find(|&kind| self.copies_left(kind) > 0).expect("a piece is left")
    }

    fn copies_left(&self, kind: usize) -> usize {
        self.demands[kind] - self.placed.iter().filter(|p| p.kind == kind).count()
    }

    fn live(&self, piece: Piece) -> bool {
        self.above_previous_copy(piece) && self.below_best(piece) && self.clear_of_placed(piece)
    }

    fn above_previous_copy(&self, piece: Piece) -> bool {
        self.placed.iter().filter(|p| p.kind == piece.kind).all(|p| p.index < piece.index)
    }

    /// The length of all pieces then placed stays below the best so far.
    fn below_best(&self, piece: Piece) -> bool {
        let length = self.board.length(&self.placed).max(self.board.length(&[piece]));
        self.best.as_ref().is_none_or(|best| length < self.board.length(best))
    }

    fn clear_of_placed(&self, piece: Piece) -> bool {
        self.placed.iter().all(|&p| !self.board.conflict(p, piece))
    }

    /// Every type has at least as many live candidates as copies left.
    fn look_ahead(&self) -> bool {
        (0..self.demands.len()).all(|kind| {
            let wanted = self.copies_left(kind);
            let pieces = (0..self.board.candidates[kind].len()).map(|index| Piece { kind, index });
            pieces.filter(|&p| self.live(p)).take(wanted).count() == wanted
        })
    }
}
