//! Random parts, all of them sound.

use crate::draft::DraftPart;
use crate::noise::Noise;

pub type Corner = (i64, i64);

/// A sound part that begins at any of its corners, moved off the origin.
pub fn random_part(noise: &mut Noise, size: i64, left: i64, down: i64) -> DraftPart {
    let mut corners = match noise.below(4) {
        0 | 1 => rectangle(noise, size),
        2 => hull_of(noise, size, 3),
        _ => hull_of(noise, size, 8),
    };
    let first = noise.below(corners.len());
    corners.rotate_left(first);
    corners.iter().map(|&(x, y)| ((x + left) as i8, (y + down) as i8)).collect()
}

fn rectangle(noise: &mut Noise, size: i64) -> Vec<Corner> {
    let (x, y) = (noise.between(0, size - 1), noise.between(0, size - 1));
    let (right, up) = (noise.between(x + 1, size), noise.between(y + 1, size));
    vec![(x, y), (right, y), (right, up), (x, up)]
}

/// The convex hull of some points, tried again until it has an inside.
fn hull_of(noise: &mut Noise, size: i64, points: usize) -> Vec<Corner> {
    loop {
        let at = (0..points).map(|_| (noise.between(0, size), noise.between(0, size)));
        if let Some(hull) = hull(at.collect()) {
            return hull;
        }
    }
}

/// The corners of the convex hull, anticlockwise, if it has an inside.
pub fn hull(mut at: Vec<Corner>) -> Option<Vec<Corner>> {
    at.sort_unstable();
    at.dedup();
    let mut hull = chain(at.iter());
    let upper = chain(at.iter().rev());
    hull.pop();
    hull.extend(&upper[..upper.len() - 1]);
    (hull.len() >= 3).then_some(hull)
}

/// One side of the hull, from the first point to the last, turning left all along.
fn chain<'a>(points: impl Iterator<Item = &'a Corner>) -> Vec<Corner> {
    let mut side: Vec<Corner> = Vec::new();
    for &p in points {
        while side.len() >= 2 && !turns_left(side[side.len() - 2], side[side.len() - 1], p) {
            side.pop();
        }
        side.push(p);
    }
    side
}

fn turns_left(a: Corner, b: Corner, c: Corner) -> bool {
    (b.0 - a.0) * (c.1 - a.1) - (b.1 - a.1) * (c.0 - a.0) > 0
}
