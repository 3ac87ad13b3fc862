//! Every outline of a few corners on a few dots, also those that go through a dot twice.

use nest_tests::outlines::bytes_of;
use nest_tests::reference::cutting::{cut, Place};

use crate::cutting::NEEDED;
use crate::harness::Harness;

/// How many corners, and how many dots along each side of a square.
const GRIDS: [(u32, i64); 5] = [(3, 3), (4, 3), (5, 3), (6, 3), (4, 4)];

pub const SEARCHED: &str = "outlines on small grids";
pub const CUT: &str = "outlines on small grids that are cut";

impl Harness<'_> {
    pub fn every_outline_on_grids(&mut self) {
        for (count, side) in GRIDS {
            self.report.origin = format!("outlines of {count} corners on {side} x {side} dots");
            self.every_outline(count, side);
        }
    }

    fn every_outline(&mut self, count: u32, side: i64) {
        let places = places_around(side);
        let dots = side * side;
        for number in 0..dots.pow(count) {
            // The digits of the number are the dots; the middle of the grid is about the origin.
            let dot = |digit: u32| number / dots.pow(digit) % dots;
            let corner = |dot: i64| (dot % side - side / 2, dot / side - side / 2);
            let outline = bytes_of(&(0..count).map(|digit| corner(dot(digit))).collect::<Vec<_>>());
            let cut_off = cut(&outline);
            let length = self.noise.pick(&[NEEDED, NEEDED, NEEDED + 1, NEEDED + 7, 2 * NEEDED]);
            let triangles = self.cut(&outline, &cut_off, length);
            self.report.note(SEARCHED);
            if cut_off.is_ok() {
                self.report.note(CUT);
                self.cover(&outline, &triangles, &places);
            }
        }
    }
}

/// All places of small denominators on the grid and around it.
fn places_around(side: i64) -> Vec<Place> {
    let mut places = vec![];
    for under in [2, 3, 5, 7] {
        let reach = under * (side / 2 + 1);
        let numbers = -reach..=reach;
        places.extend(numbers.clone().flat_map(|x| numbers.clone().map(move |y| Place { x, y, under })));
    }
    places
}
