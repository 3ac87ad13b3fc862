//! Jobs made for the gap of a round cutter. Two pieces are set up in places where they are a whole number apart, corner
//! to corner or corner to the middle of a slanting edge, and that number or one beside it is their gap; or in places
//! where something else decides. And strips of which a layout with the gap as a square takes more than is needed.

use super::ids_and_ranks;
use crate::draft::{Draft, DraftPart, DraftType};
use crate::noise::Noise;
use crate::reference::geometry::{point, turned};
use crate::shapes::{hull, random_part, Corner};

const MOST_GAP: i64 = 63;

/// Triangles with a right angle and whole sides, the longest of them at most the largest gap.
const TRIANGLES: [[i64; 3]; 9] = [
    [3, 4, 5],
    [5, 12, 13],
    [8, 15, 17],
    [20, 21, 29],
    [7, 24, 25],
    [12, 35, 37],
    [9, 40, 41],
    [28, 45, 53],
    [11, 60, 61],
];
/// No slanting edge of a whole length is made longer, and the long sides of the first seven fit into it twice.
const LONGEST_EDGE: i64 = 82;
const FITTING_TWICE: usize = 7;

type Outline = Vec<Corner>;

/// Two pieces where they are to stand, each a list of parts, and their gap.
struct Scene {
    pieces: [Vec<Outline>; 2],
    gap: i64,
}

pub fn round_gap_draft(noise: &mut Noise) -> Draft {
    let mut scene = match noise.below(12) {
        0..=2 => corner_to_corner(noise),
        3..=7 => corner_to_edge(noise),
        8 => inside(noise),
        9 => crossing(noise),
        10 => hollow(noise),
        _ => anywhere(noise),
    };
    one_off(noise, &mut scene);
    turn(noise, &mut scene);
    on_a_board(noise, scene)
}

/// Copies of a piece on a strip that leaves less than their gap across it, and has room for the whole gap along it: with
/// the gap as a square they nest too, but corner to corner they may stand nearer.
pub fn strip_draft(noise: &mut Noise) -> Draft {
    let (copies, size, gap) = (noise.pick(&[2, 2, 3]), noise.between(1, 2), noise.between(2, 6));
    let width = 2 * size + noise.between(1, gap - 1);
    let length = copies * size + (copies - 1) * gap + noise.between(0, 1);
    let parts = vec![random_part(noise, size, 0, 0)];
    let mut draft = Draft::new(width as u16, length as u16, 1);
    draft.types.push(DraftType { demand: copies as u8, turn_mask: noise.pick(&[1, 1, 4]), class_mask: 1, parts });
    draft.classes = vec![[0, noise.byte(), gap as u8]];
    draft
}

// How the two stand, before they are turned together.

/// The second ahead of the first, and the nearest corners as far apart as the long side of a triangle.
fn corner_to_corner(noise: &mut Noise) -> Scene {
    let triangle = some_triangle(noise, TRIANGLES.len());
    let times = noise.between(1, MOST_GAP / triangle[2]);
    let [x, y, gap] = triangle.map(|side| times * side);
    let behind = ahead(noise).iter().map(|corner| (-corner.0, -corner.1)).collect();
    let before = moved(&ahead(noise), (x, y));
    Scene { pieces: [several(noise, behind, (-1, -1)), several(noise, before, (1, 1))], gap }
}

/// An edge from (0, 0) along the long side of a triangle, with the first part on its left. On its right is a corner of
/// the second part, before the middle of the edge and a whole number away, and behind that corner all else of the part.
fn corner_to_edge(noise: &mut Noise) -> Scene {
    let [x, y, long] = some_triangle(noise, FITTING_TWICE);
    let (times, gap) = (noise.between(2, LONGEST_EDGE / long), noise.between(1, MOST_GAP));
    // Of the places along the edge that are a whole number from its beginning, one in `long` has a corner with whole
    // coordinates before it.
    let places: Vec<i64> = (1..times * long).filter(|way| (way * x + gap * y) % long == 0).collect();
    let way = noise.pick(&places);
    let corner = ((way * x + gap * y) / long, (way * y - gap * x) / long);
    let left = left_of(noise, (x, y), times);
    let right = hull(ahead(noise).iter().map(|at| (corner.0 + at.0, corner.1 - at.1)).collect()).expect("a part");
    Scene { pieces: [several(noise, left, (-1, 1)), several(noise, right, (1, -1))], gap }
}

/// A small part in the middle of a large one, farther than the gap from its edges.
fn inside(noise: &mut Noise) -> Scene {
    let size = noise.pick(&[20, 50, 100]);
    let cut = noise.pick(&[0, size / 4]);
    let to = size - cut;
    let corners = [(cut, 0), (to, 0), (size, cut), (size, to), (to, size), (cut, size), (0, to), (0, cut)];
    let large = hull(corners.into()).expect("a part");
    let small = rectangle((size / 2 - 1, size / 2 - 1), (noise.between(1, 3), noise.between(1, 3)));
    Scene { pieces: [vec![large], vec![small]], gap: noise.between(1, size / 2 - 4) }
}

/// Two bars that cross, the corners of each farther than the gap from the other.
fn crossing(noise: &mut Noise) -> Scene {
    let (length, thick) = (noise.between(10, 60), noise.between(1, 3));
    let along = rectangle((0, length / 2), (length, thick));
    let across = rectangle((length / 2, 0), (thick, length));
    Scene { pieces: [vec![along], vec![across]], gap: noise.between(1, length / 2 - 3) }
}

/// A floor and two walls, and the gap around a part between them.
fn hollow(noise: &mut Noise) -> Scene {
    let (gap, size, thick) = (noise.between(1, 20), noise.between(1, 6), noise.between(1, 4));
    let (width, height) = (2 * gap + size, thick + gap + noise.between(0, 10));
    let floor = rectangle((0, 0), (width + 2 * thick, thick));
    let walls = [0, width + thick].map(|x| rectangle((x, 0), (thick, height)));
    let between = rectangle((thick + gap, thick + gap), (size, size));
    Scene { pieces: [[vec![floor], walls.into()].concat(), vec![between]], gap }
}

/// Parts of any shape, about as far apart as any gap.
fn anywhere(noise: &mut Noise) -> Scene {
    let (size, gap) = (noise.pick(&[3, 10, 30, 60]), noise.between(1, MOST_GAP));
    let mut part = || random_part(noise, size, 0, 0).iter().map(|&(x, y)| (x.into(), y.into())).collect::<Outline>();
    let (one, other) = (part(), part());
    let mut off = || noise.between(-gap - size, gap + size);
    let other = moved(&other, (off(), off()));
    Scene { pieces: [several(noise, one, (1, 1)), several(noise, other, (1, -1))], gap }
}

/// One of the first so many, its short sides in either order.
fn some_triangle(noise: &mut Noise, of: usize) -> [i64; 3] {
    let few = noise.pick(&[3, of]);
    let [x, y, long] = noise.pick(&TRIANGLES[..few]);
    if noise.one_in(2) {
        [x, y, long]
    } else {
        [y, x, long]
    }
}

/// A part with a corner in (0, 0) and all others ahead of it, at x and y of 0 and more.
fn ahead(noise: &mut Noise) -> Outline {
    let size = noise.pick(&[1, 2, 4, 9, 20, 40]);
    loop {
        let others = noise.between(2, 5);
        let at = (0..others).map(|_| (noise.between(0, size), noise.between(0, size)));
        if let Some(part) = hull(at.chain([(0, 0)]).collect()) {
            return part;
        }
    }
}

/// A part on the left of its edge from (0, 0), so many times (x, y) long.
fn left_of(noise: &mut Noise, (x, y): Corner, times: i64) -> Outline {
    loop {
        let others = noise.between(1, 3);
        let mut off = |way: i64| (way * x - noise.between(0, 40), way * y + noise.between(0, 40));
        let at = (0..others).map(|place| off(place * times / others));
        if let Some(part) = hull(at.chain([(0, 0), (times * x, times * y)]).collect()) {
            return part;
        }
    }
}

fn rectangle((x, y): Corner, (width, height): Corner) -> Outline {
    vec![(x, y), (x + width, y), (x + width, y + height), (x, y + height)]
}

fn moved(part: &[Corner], (x, y): Corner) -> Outline {
    part.iter().map(|corner| (corner.0 + x, corner.1 + y)).collect()
}

/// The part alone, or the same again farther back, before or behind it in the list.
fn several(noise: &mut Noise, part: Outline, (x, y): Corner) -> Vec<Outline> {
    let back = moved(&part, (x * noise.between(0, 20), y * noise.between(0, 20)));
    match noise.below(6) {
        0 => vec![part, back],
        1 => vec![back, part],
        _ => vec![part],
    }
}

/// In a few of them the gap is one more or one less, or a piece is moved by one.
fn one_off(noise: &mut Noise, scene: &mut Scene) {
    let by = noise.pick(&[(1, 0), (-1, 0), (0, 1), (0, -1)]);
    match noise.below(12) {
        0 => scene.gap += 1,
        1 => scene.gap -= 1,
        2 => scene.pieces[1].iter_mut().for_each(|part| *part = moved(part, by)),
        _ => {}
    }
    scene.gap = scene.gap.clamp(1, MOST_GAP);
}

/// Any number of quarter turns, and the pieces in either order.
fn turn(noise: &mut Noise, scene: &mut Scene) {
    let turns = noise.below(4);
    scene.pieces.iter_mut().flatten().flatten().for_each(|corner| *corner = quarters(*corner, turns));
    if noise.one_in(2) {
        scene.pieces.reverse();
    }
}

fn quarters((x, y): Corner, turns: usize) -> Corner {
    let at = turned(point(x, y), turns);
    (at.x, at.y)
}

// The pieces as types of a job.

/// A board on which the two have room as they stand, of not too many dots.
fn on_a_board(noise: &mut Noise, mut scene: Scene) -> Draft {
    let (low, _) = box_of(scene.pieces.iter().flatten());
    let by = (noise.between(0, 3) - low.0, noise.between(0, 3) - low.1);
    scene.pieces.iter_mut().flatten().for_each(|part| *part = moved(part, by));
    let (_, (x, y)) = box_of(scene.pieces.iter().flatten());
    let (length, width) = (x + noise.between(0, 20), y + noise.between(0, 20));
    let most = noise.pick(&[12, 25, 60]);
    let least = (1..).find(|step| (length / step + 1) * (width / step + 1) <= most).expect("a step");
    // No more, or there may be no dot so near to a piece as it has to be.
    let step = (least + noise.between(0, 2)).min(60);
    let mut draft = Draft::new(width as u16, length as u16, step as u16);
    for piece in &scene.pieces {
        draft.types.push(standing(noise, piece, step, (length, width)));
    }
    in_classes(noise, &mut draft, scene.gap as u8);
    draft
}

/// The least and the largest x and y.
fn box_of<'a>(parts: impl Iterator<Item = &'a Outline>) -> (Corner, Corner) {
    let (mut low, mut high) = ((i64::MAX, i64::MAX), (i64::MIN, i64::MIN));
    for &(x, y) in parts.flatten() {
        low = (low.0.min(x), low.1.min(y));
        high = (high.0.max(x), high.1.max(y));
    }
    (low, high)
}

/// A type that stands like this on a dot of this board, when it is turned by one of its turns.
fn standing(noise: &mut Noise, piece: &[Outline], step: i64, (length, width): Corner) -> DraftType {
    let (low, high) = box_of(piece.iter());
    let (x, y) = (dot_for(noise, low.0, high.0, step, length), dot_for(noise, low.1, high.1, step, width));
    let (turn, another) = (noise.below(4), noise.below(4));
    let turn_mask = 1 << turn | noise.pick(&[0, 0, 0, 15, 1 << another]);
    let demand = noise.pick(&[1, 1, 1, 2]);
    let mut part = |part: &Outline| {
        let at = part.iter().map(|&(px, py)| quarters((px - x, py - y), 4 - turn));
        let mut corners: DraftPart = at.map(|(x, y)| (x as i8, y as i8)).collect();
        corners.rotate_left(noise.below(part.len()));
        corners
    };
    DraftType { demand, turn_mask, class_mask: 0, parts: piece.iter().map(&mut part).collect() }
}

/// Where a dot may be, along a side, for a piece from `low` to `high`: coordinates go from -127 to 127.
fn dot_for(noise: &mut Noise, low: i64, high: i64, step: i64, side: i64) -> i64 {
    let dots = (0..=side / step).map(|place| place * step);
    let near: Vec<i64> = dots.filter(|dot| low - dot >= -127 && high - dot <= 127).collect();
    noise.pick(&near)
}

/// The gap is that of both, of which one may be in no class, or of one of them while the other has a smaller one.
fn in_classes(noise: &mut Noise, draft: &mut Draft, gap: u8) {
    let classes = ids_and_ranks(noise, 2);
    let gaps = [gap, noise.between(0, gap.into()) as u8];
    draft.classes = classes.iter().zip(gaps).map(|(&[id, rank], gap)| [id, rank, gap]).collect();
    let [mine, smaller] = [0, 1].map(|place: usize| 1 << classes[place][0]);
    let masks = noise.pick(&[[mine, mine], [mine, 0], [0, mine], [mine, smaller], [smaller, mine]]);
    draft.types.iter_mut().zip(masks).for_each(|(kind, mask)| kind.class_mask = mask);
}
