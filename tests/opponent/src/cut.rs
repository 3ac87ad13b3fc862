//! An outline cut into triangles: corners as plain integers, and those that remain in one small array.

use crate::mutant;
use crate::outline::{doubled, narrow, turn, Corner, Outline, ROOM};

/// For six triangles of three corners, however few there are.
const NUMBERS: usize = 36;

/// A triangle by the numbers of its corners.
type Triangle = [usize; 3];

/// Writes the triangles into the answer and tells how many they are; or what refuses the outline.
pub fn cut(bytes: &[u8], answer: &mut [u8]) -> Result<usize, u8> {
    let Some(outline) = Outline::accepted(bytes) else {
        return Err(refusal(answer));
    };
    let triangles = told_triangles(&outline);
    let numbers: Vec<i32> = triangles.iter().flatten().flat_map(|&corner| written(outline.at[corner])).collect();
    let short = is_short(answer.len(), numbers.len());
    if !short || mutant::is("cut_written_although_nine") {
        write(&numbers, answer);
    }
    if short {
        return Err(9);
    }
    Ok(told_count(triangles.len(), outline.corners))
}

/// The refusal of an outline, which comes before that of a short answer. The mistakes: it comes behind, or it leaves
/// something in the answer.
fn refusal(answer: &mut [u8]) -> u8 {
    if mutant::is("cut_touched_when_fourteen") {
        answer.fill(0);
    }
    if mutant::is("cut_nine_before_fourteen") && is_short(answer.len(), 0) {
        return 9;
    }
    14
}

/// Whether the answer has too few numbers. The mistakes: no more are asked for than are written; bytes are taken for
/// numbers; off by a byte.
fn is_short(room: usize, written: usize) -> bool {
    if mutant::is("cut_room_of_the_triangles") {
        room / 2 < written
    } else if mutant::is("cut_room_in_bytes") {
        room < NUMBERS
    } else if mutant::is("cut_room_of_a_byte_less") {
        room.div_ceil(2) < NUMBERS
    } else if mutant::is("cut_room_of_a_byte_more") {
        room <= 2 * NUMBERS
    } else {
        room / 2 < NUMBERS
    }
}

/// How many triangles were written. The mistakes: numbers are told, or one triangle for each corner but two.
fn told_count(triangles: usize, corners: usize) -> usize {
    if mutant::is("cut_counted_in_numbers") {
        6 * triangles
    } else if mutant::is("cut_counted_by_corners") {
        corners - 2
    } else {
        triangles
    }
}

/// The numbers of a corner. The mistakes: in the other order, or a negative one as a byte.
fn written((x, y): Corner) -> [i32; 2] {
    let numbers = if mutant::is("cut_x_and_y_exchanged") { [y, x] } else { [x, y] };
    let narrow = mutant::is("cut_negative_as_byte");
    numbers.map(|n| if narrow { n & 255 } else { n })
}

/// The mistakes: nothing is written, or something behind the triangles.
fn write(numbers: &[i32], answer: &mut [u8]) {
    if mutant::is("cut_nothing_written") {
        return;
    }
    for (place, &n) in answer.chunks_exact_mut(2).zip(numbers) {
        place.copy_from_slice(&(n as u16).to_le_bytes());
    }
    let (used, needed, all) = (2 * numbers.len(), 2 * NUMBERS, answer.len());
    let spoilt = if mutant::is("cut_rest_cleared") {
        used..needed
    } else if mutant::is("cut_bytes_behind_cleared") {
        needed..all
    } else if mutant::is("cut_odd_byte_cleared") {
        all / 2 * 2..all
    } else {
        0..0
    };
    answer.get_mut(spoilt).unwrap_or_default().fill(0);
}

/// The triangles as they are told. The mistakes: another order of them, or of their corners, or corners of the whole
/// outline beside the one cut off.
fn told_triangles(outline: &Outline) -> Vec<Triangle> {
    let mut all = triangles(outline);
    if mutant::is("cut_last_triangle_first") {
        all.reverse();
    }
    if mutant::is("cut_last_triangle_lost") && all.len() > 1 {
        all.pop();
    }
    all.iter().map(|&triangle| told_triangle(triangle, outline.corners)).collect()
}

fn told_triangle([corner, next, before]: Triangle, corners: usize) -> Triangle {
    if mutant::is("cut_neighbours_exchanged") {
        [corner, before, next]
    } else if mutant::is("cut_from_the_predecessor") {
        [before, corner, next]
    } else if mutant::is("cut_from_the_successor") {
        [next, before, corner]
    } else if mutant::is("cut_neighbours_in_the_outline") {
        [corner, (corner + 1) % corners, (corner + corners - 1) % corners]
    } else {
        [corner, next, before]
    }
}

/// The corners that remain, by rising number.
struct Ring<'a> {
    outline: &'a Outline,
    corners: [usize; ROOM],
    count: usize,
    /// Corners that stand in the way although they no longer remain; only a mistake puts some here.
    obstacles: Vec<usize>,
    /// Where the search for the next corner begins; only a mistake changes it.
    from: usize,
    triangles: Vec<Triangle>,
}

fn triangles(outline: &Outline) -> Vec<Triangle> {
    let corners = std::array::from_fn(|i| i);
    let mut ring = Ring { outline, corners, count: outline.corners, obstacles: vec![], from: 0, triangles: vec![] };
    // Some mistakes leave nothing to cut off while corners remain.
    while ring.count > 2 && ring.step() {}
    ring.triangles
}

impl Ring<'_> {
    /// Takes away a corner in line with its neighbours, or else cuts one off. The mistakes: the other way round, or no
    /// corner in line is taken away, or none that came to be in line.
    fn step(&mut self) -> bool {
        if mutant::is("cut_in_line_as_triangle") {
            return self.cut_off();
        }
        if mutant::is("cut_in_line_after_ears") {
            return self.cut_off() || self.drop_in_line();
        }
        let late = mutant::is("cut_in_line_at_first_only") && !self.triangles.is_empty();
        !late && self.drop_in_line() || self.cut_off()
    }

    fn drop_in_line(&mut self) -> bool {
        let Some(place) = (0..self.count).find(|&place| self.turn_at(place) == 0) else { return false };
        if mutant::is("cut_dropped_corners_in_the_way") {
            self.obstacles.push(self.corners[place]);
        }
        self.remove(place);
        true
    }

    fn cut_off(&mut self) -> bool {
        let Some(place) = self.ear() else { return false };
        self.triangles.push(self.triangle_at(place));
        self.from = if mutant::is("cut_goes_round") { self.corners[place] + 1 } else { 0 };
        self.remove(place);
        true
    }

    /// The first that may be cut off. The mistakes: the last, or the first behind the one before.
    fn ear(&self) -> Option<usize> {
        let may_go = |&place: &usize| self.may_go(place);
        if mutant::is("cut_highest_ear") {
            return (0..self.count).rev().find(may_go);
        }
        let behind = |&place: &usize| self.corners[place] >= self.from;
        (0..self.count).filter(behind).find(may_go).or_else(|| (0..self.count).find(may_go))
    }

    /// A left turn whose triangle holds no other remaining corner. The mistakes: a right turn, or no turn at all.
    fn may_go(&self, place: usize) -> bool {
        let turn = match self.turn_at(place) {
            0 => i32::from(mutant::is("cut_in_line_as_triangle")),
            turn if mutant::is("cut_right_turns") => -turn,
            turn => turn,
        };
        turn > 0 && !self.holds_another(place)
    }

    fn turn_at(&self, place: usize) -> i32 {
        let [corner, next, before] = self.triangle_at(place).map(|corner| self.outline.at[corner]);
        turn(before, corner, next)
    }

    /// The corner at this place, its successor and its predecessor.
    fn triangle_at(&self, place: usize) -> Triangle {
        let (next, before) = (place + 1, place + self.count - 1);
        [place, next, before].map(|place| self.corners[place % self.count])
    }

    fn holds_another(&self, place: usize) -> bool {
        if mutant::is("cut_corners_inside_allowed") {
            return false;
        }
        let own = self.triangle_at(place);
        let triangle = own.map(|corner| self.outline.at[corner]);
        let others = self.corners[..self.count].iter().chain(&self.obstacles);
        others.filter(|other| !own.contains(other)).any(|&other| holds(triangle, self.outline.at[other]))
    }

    fn remove(&mut self, place: usize) {
        self.corners.copy_within(place + 1..self.count, place);
        self.count -= 1;
    }
}

/// On the left of each edge, or on it. The mistakes: not on it; or areas in 16 bits.
fn holds([a, b, c]: [Corner; 3], at: Corner) -> bool {
    let border = i32::from(mutant::is("cut_border_corners_allowed"));
    [(a, b), (b, c), (c, a)].iter().all(|&(from, to)| narrow(doubled(from, to, at), "cut_inside_of_16_bits") >= border)
}
