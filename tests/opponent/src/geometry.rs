//! Turned pieces and the pair test. Each part keeps the directions of its edges and how far it reaches
//! along each, so that whether two overlap is a question to the other part's corners alone.

use crate::distance::too_near;
use crate::job::{Job, Part};
use crate::mutant;

#[derive(Clone, Copy, Default)]
pub struct Shape {
    pub corners: usize,
    pub x: [i32; 8],
    pub y: [i32; 8],
    /// Outward normals and the largest product over the part's own corners.
    pub nx: [i32; 8],
    pub ny: [i32; 8],
    far: [i32; 8],
    pub box_x: (i32, i32),
    pub box_y: (i32, i32),
}

impl Shape {
    fn new(part: &Part, turn: usize) -> Shape {
        let (mut x, mut y) = (part.x, part.y);
        let turns = if mutant::is("negated_turn") { (4 - turn) % 4 } else { turn };
        for _ in 0..turns {
            (x, y) = (y.map(|y| -y), x);
        }
        Shape::of_corners(part.corners, x, y)
    }

    /// All that a pair test asks for, from corners that are turned already.
    pub fn of_corners(n: usize, x: [i32; 8], y: [i32; 8]) -> Shape {
        let mut s = Shape { corners: n, x, y, ..Shape::default() };
        for i in 0..n {
            let j = (i + 1) % n;
            s.nx[i] = s.y[j] - s.y[i];
            s.ny[i] = s.x[i] - s.x[j];
            // Sound parts reach farthest along a normal at its own edge. A mistake: a corner off that edge is asked,
            // so that the part seems to reach less far than it does.
            let own = if mutant::is("reach_of_a_later_corner") { (i + 2) % n } else { i };
            s.far[i] = s.nx[i] * s.x[own] + s.ny[i] * s.y[own];
        }
        let least = |v: &[i32]| v.iter().copied().min().unwrap_or(0);
        let most = |v: &[i32]| v.iter().copied().max().unwrap_or(0);
        s.box_x = (least(&s.x[..n]), most(&s.x[..n]));
        s.box_y = (least(&s.y[..n]), most(&s.y[..n]));
        s
    }

    /// Some normal of this part separates it from `other` moved by (dx, dy), with so much to spare along it. In line it
    /// was slower where pieces have many parts.
    #[inline(never)]
    fn apart_by_own(&self, other: &Shape, dx: i32, dy: i32, spare: impl Fn(i32, i32) -> i32) -> bool {
        let corners = other.corners - usize::from(mutant::is("last_corner_not_asked"));
        let more = more_than_touching();
        'normals: for i in 0..self.corners {
            let (a, b) = (self.nx[i], self.ny[i]);
            let reach = self.far[i] + spare(a, b) + more - a * dx - b * dy;
            for k in 0..corners {
                if reach > a * other.x[k] + b * other.y[k] {
                    continue 'normals;
                }
            }
            return true;
        }
        false
    }

    /// Some normal of either part separates them. The mistakes: those of one part are not tried.
    #[inline]
    pub fn apart_by_normals(&self, other: &Shape, dx: i32, dy: i32, spare: impl Fn(i32, i32) -> i32) -> bool {
        !mutant::is("normals_of_the_second_only") && self.apart_by_own(other, dx, dy, &spare)
            || !mutant::is("normals_of_the_first_only") && other.apart_by_own(self, -dx, -dy, &spare)
    }

    #[inline]
    pub fn boxes_apart(&self, other: &Shape, dx: i32, dy: i32, gap: i32) -> bool {
        let gap = gap + more_than_touching();
        self.box_x.1 + gap <= other.box_x.0 + dx
            || other.box_x.1 + dx + gap <= self.box_x.0
            || self.box_y.1 + gap <= other.box_y.0 + dy
            || other.box_y.1 + dy + gap <= self.box_y.0
    }

    /// Boxes that are a gap apart along an axis spare the rest.
    #[inline]
    pub fn separated(&self, other: &Shape, dx: i32, dy: i32, gap: i32) -> bool {
        self.boxes_apart(other, dx, dy, gap) || self.separated_closely(other, dx, dy, gap)
    }

    /// Out of line, so that the boxes stay quick.
    #[inline(never)]
    fn separated_closely(&self, other: &Shape, dx: i32, dy: i32, gap: i32) -> bool {
        self.apart_by_normals(other, dx, dy, |_, _| 0) && (gap == 0 || !too_near(self, other, dx, dy, gap))
    }
}

/// What parts have to be apart at least. A mistake: those that touch are taken to overlap.
#[inline]
fn more_than_touching() -> i32 {
    i32::from(mutant::is("touching_overlaps"))
}

/// A type under one turn.
#[derive(Clone, Default)]
pub struct Turned {
    pub allowed: bool,
    /// Only a mistake asks for it. A byte has room beside `allowed`, so that the table is as large as without it.
    pub turn: u8,
    pub shapes: Vec<Shape>,
    pub box_x: (i32, i32),
    pub box_y: (i32, i32),
}

pub fn turned(job: &Job, kind: usize, turn: usize) -> Turned {
    let kind = &job.kinds[kind];
    let shapes: Vec<Shape> = kind.parts[..kind.part_count].iter().map(|p| Shape::new(p, turn)).collect();
    let hull = |b: fn(&Shape) -> (i32, i32)| {
        let low = shapes.iter().map(|s| b(s).0).min().unwrap_or(0);
        let high = shapes.iter().map(|s| b(s).1).max().unwrap_or(0);
        (low, high)
    };
    let (box_x, box_y) = (hull(|s| s.box_x), hull(|s| s.box_y));
    Turned { allowed: kind.turns >> turn & 1 == 1, turn: turn as u8, box_x, box_y, shapes }
}

/// Two pieces at their gap, the second moved by (dx, dy).
pub fn in_conflict(one: &Turned, other: &Turned, dx: i32, dy: i32, gap: i32) -> bool {
    one.shapes.iter().any(|p| other.shapes.iter().any(|q| !p.separated(q, dx, dy, gap)))
}
