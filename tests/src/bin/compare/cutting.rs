//! Outlines: answers and every byte against the reference, and what holds of the library's triangles whatever they are.

use nest_tests::answer::Answer;
use nest_tests::noise::Noise;
use nest_tests::outlines::{make, MadeOutline};
use nest_tests::reference::cutting::{corners, cut, CutOff, Place, Triangle};
use nest_tests::reference::geometry::{point, Point};
use nest_tests::reference::services::{self, numbers_of};
use nest_tests::small_outlines::small_outlines;

use crate::covering::{clear_places, fault};
use crate::harness::Harness;
use crate::lent::{awkward_lengths, Lent};
use crate::nest;
use crate::outline_counts;
use crate::report::hexadecimal;

/// For 36 numbers.
pub const NEEDED: usize = 72;
/// To each random job there are so many random outlines.
const OUTLINES: usize = 40;

pub const PLACES: &str = "places that as many triangles are around as crossings say";

impl Harness<'_> {
    /// Those worked out by hand, each at every length of the answer that may matter.
    pub fn small_outlines(&mut self) {
        for outline in small_outlines() {
            self.report.origin = format!("small outline \"{}\"", outline.name);
            self.report.note("small outlines");
            let cut_off = cut(&outline.bytes);
            if cut_off != outline.cut_off {
                // A fault of the reference, not of the library; no less a fault.
                self.cut_mismatch(&outline.bytes, &format!("the reference says {cut_off:?}"));
            }
            for length in (0..2 * NEEDED).chain([500]) {
                self.cut(&outline.bytes, &outline.cut_off, length);
            }
        }
    }

    pub fn random_outlines(&mut self) {
        for _ in 0..OUTLINES {
            let MadeOutline { bytes, intended } = make(self.noise);
            let cut_off = cut(&bytes);
            let number = cut_off.as_ref().err().copied().unwrap_or(0);
            if intended.is_some_and(|intended| intended != number) {
                let what = format!("made to be refused by {intended:?}, the reference says {number}");
                self.cut_mismatch(&bytes, &what);
            }
            outline_counts::count(&bytes, &cut_off, self.report);
            self.random_outline(&bytes, &cut_off);
        }
    }

    fn random_outline(&mut self, outline: &[u8], cut_off: &CutOff) {
        let written = cut_off.as_ref().map_or(0, |triangles| 12 * triangles.len());
        // As many bytes as numbers are needed: for an engine that counts the ones as the others.
        let others = [1, NEEDED / 2, written.saturating_sub(1), written, written + 1];
        for _ in 0..2 {
            let awkward = self.noise.pick(&awkward_lengths(NEEDED, 2));
            self.cut(outline, cut_off, awkward);
        }
        let other = self.noise.pick(&others);
        self.cut(outline, cut_off, other);
        let triangles = self.cut(outline, cut_off, NEEDED);
        if cut_off.is_ok() {
            let places = random_places(self.noise, &corners(outline), &triangles);
            self.cover(outline, &triangles, &places);
        }
    }

    /// The library's triangles, none if it refuses the outline.
    pub fn cut(&mut self, outline: &[u8], cut_off: &CutOff, length: usize) -> Vec<Triangle> {
        let kept = Lent::holding(self.noise, outline);
        let lent = kept.clone();
        let mut expected_bytes = Lent::noisy(self.noise, length);
        let mut got_bytes = expected_bytes.clone();
        let expected = services::cut(cut_off, expected_bytes.bytes_mut());
        let got = nest::cut(lent.bytes(), got_bytes.bytes_mut());
        self.report.call("cut", expected);
        let call = || format!("cut with {length} answer bytes");
        if got != expected {
            self.cut_mismatch(outline, &format!("{}: got {got:?}, expected {expected:?}", call()));
        }
        for (buffer, got, expected) in [("answer", &got_bytes, &expected_bytes), ("outline", &lent, &kept)] {
            if let Some(difference) = got.difference(expected) {
                self.cut_mismatch(outline, &format!("{}: {buffer}: {difference}", call()));
            }
        }
        triangles_in(got, got_bytes.bytes())
    }

    /// By the library alone: its triangles cover the outline, and nothing else.
    pub fn cover(&mut self, outline: &[u8], triangles: &[Triangle], places: &[Place]) {
        let outline_corners = corners(outline);
        let places = clear_places(&outline_corners, triangles, places);
        self.report.note_many(PLACES, places.len() as u64);
        if let Some(what) = fault(&outline_corners, triangles, &places) {
            self.cut_mismatch(outline, &format!("cut: {what}"));
        }
    }

    fn cut_mismatch(&mut self, outline: &[u8], what: &str) {
        self.report.mismatch_of(what, &format!("outline {}", hexadecimal(outline)));
    }
}

/// As many as the answer tells, as far as they are there.
fn triangles_in(answer: Answer, bytes: &[u8]) -> Vec<Triangle> {
    let numbers = numbers_of(bytes);
    let corner = |n: &[u16]| point((n[0] as i16).into(), (n[1] as i16).into());
    let told = numbers.chunks_exact(6).take(answer.count.into());
    told.map(|n| [corner(&n[..2]), corner(&n[2..4]), corner(&n[4..])]).collect()
}

/// Around the outline and in it: the middles of triangles, of the library's and of any three corners, and places at
/// random.
fn random_places(noise: &mut Noise, outline: &[Point], triangles: &[Triangle]) -> Vec<Place> {
    let middle = |[a, b, c]: Triangle| Place { x: a.x + b.x + c.x, y: a.y + b.y + c.y, under: 3 };
    let mut places: Vec<Place> = triangles.iter().map(|&triangle| middle(triangle)).collect();
    let of_corners = |n: fn(&Point) -> i64| {
        let all = outline.iter().map(n);
        (all.clone().min().unwrap_or(0) - 1, all.max().unwrap_or(0) + 1)
    };
    let (columns, rows) = (of_corners(|corner| corner.x), of_corners(|corner| corner.y));
    for _ in 0..6 {
        places.push(middle([0; 3].map(|_| noise.pick(outline))));
        let under = noise.pick(&[2, 3, 5, 7]);
        let [x, y] = [columns, rows].map(|(least, most)| noise.between(under * least, under * most));
        places.push(Place { x, y, under });
    }
    places
}
