//! What request 7/13 promises of an outline's triangles, whoever cut them: their doubled areas sum to the outline's, and
//! around each place that is on no edge's line there are as many of them as the crossings of a ray say.

use nest_tests::reference::cutting::{doubled_area, Place, Triangle};
use nest_tests::reference::geometry::{edges, Point};

/// What does not hold of the triangles, at places that are on no line.
pub fn fault(outline: &[Point], triangles: &[Triangle], places: &[Place]) -> Option<String> {
    let areas: Vec<i64> = triangles.iter().map(|triangle| doubled_area(triangle)).collect();
    if areas.iter().any(|&area| area <= 0) {
        return Some("a triangle that does not go anticlockwise".to_string());
    }
    let (sum, whole) = (areas.iter().sum::<i64>(), doubled_area(outline));
    if sum != whole {
        return Some(format!("doubled areas of {sum} in an outline of {whole}"));
    }
    let counts = |place: &Place| (around(triangles, place), crossings(outline, place));
    let wrong = places.iter().find(|place| counts(place).0 != counts(place).1)?;
    let (around, crossings) = counts(wrong);
    Some(format!("{around} triangles around {wrong:?}, and {crossings} crossings of a ray"))
}

/// Those on none of the lines through triangle edges or outline edges.
pub fn clear_places(outline: &[Point], triangles: &[Triangle], places: &[Place]) -> Vec<Place> {
    let off = |corners: &[Point], place: &Place| edges(corners).all(|edge| side(corners, edge, place) != 0);
    let clear = |place: &&Place| off(outline, place) && triangles.iter().all(|triangle| off(triangle, place));
    places.iter().filter(clear).copied().collect()
}

/// Above 0 for a place on the left of an edge, 0 on its line.
fn side(corners: &[Point], (from, to): (usize, usize), place: &Place) -> i64 {
    let (a, b) = (corners[from], corners[to]);
    (b.x - a.x) * (place.y - a.y * place.under) - (b.y - a.y) * (place.x - a.x * place.under)
}

fn around(triangles: &[Triangle], place: &Place) -> i64 {
    let inside = |triangle: &&Triangle| edges(*triangle).all(|edge| side(*triangle, edge, place) > 0);
    triangles.iter().filter(inside).count() as i64
}

/// Of a ray towards larger x: a rising edge counts 1 and a falling one -1, and of its ends the lower one alone.
fn crossings(outline: &[Point], place: &Place) -> i64 {
    let of_edge = |edge: (usize, usize)| {
        let [from, to] = [edge.0, edge.1].map(|corner| outline[corner].y * place.under);
        let left = side(outline, edge, place) > 0;
        if from <= place.y && place.y < to && left {
            1
        } else if to <= place.y && place.y < from && !left {
            -1
        } else {
            0
        }
    };
    edges(outline).map(of_edge).sum()
}
