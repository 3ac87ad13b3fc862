//! Outlines that may be cut, of several kinds, beginning at any of their corners.

use std::cmp::Ordering;

use super::bytes_of;
use crate::noise::Noise;
use crate::reference::cutting::{causes, COUNT_OUT_OF_RANGE};
use crate::shapes::{hull, Corner};

const MOST: usize = 8;

pub fn outline(noise: &mut Noise) -> Vec<Corner> {
    let reach = reach(noise);
    let mut corners = match noise.below(8) {
        0 | 1 => around_a_dot(noise, reach),
        2 | 3 => grown(noise, reach),
        4 => between_two_chains(noise, reach.max(8)),
        5 | 6 => of_right_angles(noise, reach.max(3)),
        _ => convex(noise, reach),
    };
    if noise.one_in(3) {
        split_edges(noise, &mut corners, MOST);
    }
    turn(noise, &mut corners);
    if noise.one_in(6) {
        stretch(&mut corners);
    }
    let first = noise.below(corners.len());
    corners.rotate_left(first);
    corners
}

/// How far from the origin coordinates may be: a few dots, where much is in line, or as far as bytes go.
pub fn reach(noise: &mut Noise) -> i64 {
    noise.pick(&[1, 2, 2, 3, 3, 4, 6, 10, 30, 127, 127])
}

pub fn dot(noise: &mut Noise, reach: i64) -> Corner {
    (noise.between(-reach, reach), noise.between(-reach, reach))
}

/// By a quarter or half of a turn, or not; and perhaps slanted, where that stays in range.
fn turn(noise: &mut Noise, corners: &mut [Corner]) {
    for _ in 0..noise.below(4) {
        corners.iter_mut().for_each(|corner| *corner = (-corner.1, corner.0));
    }
    let slant = noise.between(-1, 1);
    if corners.iter().all(|&(x, y)| (x + slant * y).abs() <= 127) {
        corners.iter_mut().for_each(|corner| corner.0 += slant * corner.1);
    }
}

/// As many times larger as bytes have room for; what is in line stays so.
fn stretch(corners: &mut [Corner]) {
    let reach = corners.iter().map(|&(x, y)| x.abs().max(y.abs())).max().unwrap_or(127);
    let times = 127 / reach;
    corners.iter_mut().for_each(|corner| *corner = (times * corner.0, times * corner.1));
}

/// Tried again until it may be cut.
fn until_sound(mut made: impl FnMut() -> Vec<Corner>) -> Vec<Corner> {
    loop {
        let corners = made();
        if causes(&bytes_of(&corners)).next().is_none() {
            return corners;
        }
    }
}

/// Dots in the order of their directions from another dot: a star, with turns to either side.
fn around_a_dot(noise: &mut Noise, reach: i64) -> Vec<Corner> {
    until_sound(|| {
        let middle = dot(noise, (reach / 3).max(1));
        let count = noise.between(3, MOST as i64);
        let mut corners: Vec<Corner> =
            (0..count).map(|_| dot(noise, reach)).filter(|&corner| corner != middle).collect();
        corners.sort_by(|&one, &other| by_direction(seen_from(middle, one), seen_from(middle, other)));
        corners
    })
}

fn seen_from(middle: Corner, corner: Corner) -> Corner {
    (corner.0 - middle.0, corner.1 - middle.1)
}

/// By the half of the plane that they are in, the upper one first, and then by the turn from one to the other.
fn by_direction(one: Corner, other: Corner) -> Ordering {
    let lower = |(x, y): Corner| y < 0 || y == 0 && x < 0;
    lower(one).cmp(&lower(other)).then((other.0 * one.1).cmp(&(one.0 * other.1)))
}

/// A triangle, with edges that are broken in two at a dot as long as the outline may still be cut.
fn grown(noise: &mut Noise, reach: i64) -> Vec<Corner> {
    let mut corners = until_sound(|| (0..3).map(|_| dot(noise, reach)).collect());
    let count = noise.between(4, MOST as i64) as usize;
    for _ in 0..40 {
        if corners.len() < count {
            break_an_edge(noise, &mut corners, reach);
        }
    }
    corners
}

/// The corner stays if nothing is amiss with the outline then but that it may have nine corners or more.
pub fn break_an_edge(noise: &mut Noise, corners: &mut Vec<Corner>, reach: i64) {
    let place = noise.below(corners.len() + 1);
    corners.insert(place, dot(noise, reach));
    if causes(&bytes_of(corners)).any(|cause| cause != COUNT_OUT_OF_RANGE) {
        corners.remove(place);
    }
}

/// A chain of dots below the axis and one above it: combs and saws, and teeth that stand in each other's way.
fn between_two_chains(noise: &mut Noise, reach: i64) -> Vec<Corner> {
    until_sound(|| {
        let count = noise.between(4, MOST as i64) as usize;
        let below = noise.below(count + 1);
        let mut corners = chain(noise, below, reach, (-reach, -1));
        let mut above = chain(noise, count - below, reach, (1, reach));
        above.reverse();
        corners.extend(above);
        corners
    })
}

/// From left to right, at heights between two.
fn chain(noise: &mut Noise, count: usize, reach: i64, heights: (i64, i64)) -> Vec<Corner> {
    levels(noise, count, reach).into_iter().map(|x| (x, noise.between(heights.0, heights.1))).collect()
}

/// So many numbers from `-reach` to `reach`, rising; `reach` leaves room for them.
fn levels(noise: &mut Noise, count: usize, reach: i64) -> Vec<i64> {
    let mut levels = vec![];
    while levels.len() < count {
        let level = noise.between(-reach, reach);
        if !levels.contains(&level) {
            levels.push(level);
        }
    }
    levels.sort_unstable();
    levels
}

/// Angles, stairs, hooks and spirals. Their edges go along the axes, so that columns and rows may stand anywhere.
const OF_RIGHT_ANGLES: [&[(usize, usize)]; 7] = [
    &[(0, 0), (1, 0), (1, 1), (0, 1)],
    &[(0, 0), (2, 0), (2, 1), (1, 1), (1, 2), (0, 2)],
    &[(0, 0), (3, 0), (3, 2), (2, 2), (2, 1), (1, 1), (1, 2), (0, 2)],
    &[(1, 0), (2, 0), (2, 1), (3, 1), (3, 2), (0, 2), (0, 1), (1, 1)],
    &[(0, 0), (2, 0), (2, 2), (3, 2), (3, 3), (1, 3), (1, 1), (0, 1)],
    &[(0, 0), (3, 0), (3, 3), (1, 3), (1, 2), (2, 2), (2, 1), (0, 1)],
    &[(0, 0), (3, 0), (3, 1), (2, 1), (2, 2), (1, 2), (1, 3), (0, 3)],
];

fn of_right_angles(noise: &mut Noise, reach: i64) -> Vec<Corner> {
    let shape = noise.pick(&OF_RIGHT_ANGLES);
    let (columns, rows) = (levels(noise, 4, reach), levels(noise, 4, reach));
    shape.iter().map(|&(column, row)| (columns[column], rows[row])).collect()
}

fn convex(noise: &mut Noise, reach: i64) -> Vec<Corner> {
    loop {
        let dots = noise.between(3, MOST as i64);
        if let Some(corners) = hull((0..dots).map(|_| dot(noise, reach)).collect()) {
            return corners;
        }
    }
}

/// Puts corners on edges that go over a dot, so that they are in line with their neighbours.
pub fn split_edges(noise: &mut Noise, corners: &mut Vec<Corner>, most: usize) {
    for _ in 0..noise.between(1, 6) {
        let from = noise.below(corners.len());
        let (a, b) = (corners[from], corners[(from + 1) % corners.len()]);
        if let Some(between) = dot_between(noise, a, b).filter(|_| corners.len() < most) {
            corners.insert(from + 1, between);
        }
    }
}

/// A dot of an edge that is neither of its ends.
pub fn dot_between(noise: &mut Noise, a: Corner, b: Corner) -> Option<Corner> {
    let (dx, dy) = (b.0 - a.0, b.1 - a.1);
    let parts = common_divisor(dx.abs(), dy.abs());
    let part = (parts > 1).then(|| noise.between(1, parts - 1))?;
    Some((a.0 + dx / parts * part, a.1 + dy / parts * part))
}

pub fn common_divisor(a: i64, b: i64) -> i64 {
    if b == 0 {
        return a;
    }
    common_divisor(b, a % b)
}
