//! Outlines that give cause for 14: sound ones, spoilt.

use super::bytes_of;
use super::drawn;
use crate::noise::Noise;
use crate::reference::cutting::causes;
use crate::shapes::Corner;

/// An outline as it is spoilt: its corners, and bytes behind them that are none.
struct Draft {
    corners: Vec<Corner>,
    behind: Vec<u8>,
}

impl Draft {
    fn drawn(noise: &mut Noise) -> Draft {
        Draft { corners: drawn::outline(noise), behind: vec![] }
    }

    fn bytes(&self) -> Vec<u8> {
        [bytes_of(&self.corners), self.behind.clone()].concat()
    }

    fn gives_cause(&self) -> bool {
        causes(&self.bytes()).next().is_some()
    }
}

const SPOILS: [fn(&mut Noise, &mut Draft); 9] = [
    |noise, draft| draft.corners.truncate(noise.below(3)),
    |noise, draft| add_corners(noise, &mut draft.corners),
    |noise, draft| draft.behind.push(noise.byte()),
    |noise, draft| move_to_the_least(noise, &mut draft.corners),
    |noise, draft| flatten(noise, &mut draft.corners),
    |_, draft| draft.corners.reverse(),
    exchange_corners,
    |noise, draft| put_on_an_edge(noise, &mut draft.corners),
    |noise, draft| double_back(noise, &mut draft.corners),
];

/// In one way; those that a spoil could do nothing to are reversed, since then they go clockwise.
pub fn once(noise: &mut Noise) -> Vec<u8> {
    let mut draft = Draft::drawn(noise);
    noise.pick(&SPOILS)(noise, &mut draft);
    if !draft.gives_cause() {
        draft.corners.reverse();
    }
    draft.bytes()
}

/// In two ways, one on top of the other, of which the second may undo the first; an odd byte is then left.
pub fn twice(noise: &mut Noise) -> Vec<u8> {
    let mut draft = Draft::drawn(noise);
    for _ in 0..2 {
        let spoil = noise.pick(&SPOILS);
        if draft.corners.len() > 2 {
            spoil(noise, &mut draft);
        }
    }
    if !draft.gives_cause() {
        draft.behind.push(noise.byte());
    }
    draft.bytes()
}

/// More than eight, with nothing else amiss: edges are split, or broken in two where there is room.
fn add_corners(noise: &mut Noise, corners: &mut Vec<Corner>) {
    let count = noise.pick(&[9, 9, 9, 10, 16, 20]);
    for _ in 0..60 {
        if corners.len() < count {
            drawn::split_edges(noise, corners, count);
            drawn::break_an_edge(noise, corners, 127);
        }
    }
}

/// One coordinate is -128: the whole outline is moved there, or one corner.
fn move_to_the_least(noise: &mut Noise, corners: &mut [Corner]) {
    let coordinate: fn(&mut Corner) -> &mut i64 = noise.pick(&[|corner| &mut corner.0, |corner| &mut corner.1]);
    if noise.one_in(4) {
        let hit = noise.below(corners.len());
        *coordinate(&mut corners[hit]) = -128;
    } else {
        let least = corners.iter_mut().map(|corner| *coordinate(corner)).min().unwrap_or(0);
        corners.iter_mut().for_each(|corner| *coordinate(corner) -= least + 128);
    }
}

/// All on one line, or a bow tie of two halves that are equally large, or three corners on one dot.
fn flatten(noise: &mut Noise, corners: &mut Vec<Corner>) {
    let (x, y) = corners[0];
    match noise.below(3) {
        0 => *corners = vec![(x, y), (-x, -y), (x, -y), (-x, y)],
        1 => *corners = vec![(x, y); 3],
        _ => {
            let slope = noise.between(-1, 1);
            corners.iter_mut().for_each(|corner| corner.1 = slope * corner.0);
        }
    }
}

/// Until edges cross.
fn exchange_corners(noise: &mut Noise, draft: &mut Draft) {
    for _ in 0..20 {
        if !draft.gives_cause() {
            let (one, other) = (noise.below(draft.corners.len()), noise.below(draft.corners.len()));
            draft.corners.swap(one, other);
        }
    }
}

/// A corner is put on an edge of others: on a dot between its ends, or on an end.
fn put_on_an_edge(noise: &mut Noise, corners: &mut [Corner]) {
    let count = corners.len();
    let hit = noise.below(count);
    let from = hit + 1 + noise.below(count - 2);
    let (a, b) = (corners[from % count], corners[(from + 1) % count]);
    let end = noise.pick(&[a, b]);
    corners[hit] = drawn::dot_between(noise, a, b).filter(|_| !noise.one_in(4)).unwrap_or(end);
}

/// An edge goes on past its end and comes back to it; where a byte has no room for that, it goes there and back.
fn double_back(noise: &mut Noise, corners: &mut Vec<Corner>) {
    let from = noise.below(corners.len());
    let (a, b) = (corners[from], corners[(from + 1) % corners.len()]);
    let parts = drawn::common_divisor((b.0 - a.0).abs(), (b.1 - a.1).abs()).max(1);
    let past = (b.0 + (b.0 - a.0) / parts, b.1 + (b.1 - a.1) / parts);
    if past.0.abs() <= 127 && past.1.abs() <= 127 {
        corners.insert(from + 1, past);
    } else {
        corners.splice(from..from, [a, b]);
    }
    if corners.len() > 8 {
        let lost = (from + 4) % corners.len();
        corners.remove(lost);
    }
}
