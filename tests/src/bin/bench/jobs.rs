//! Jobs to measure: from small to the largest that the format allows, heavy and long pieces, three series that
//! grow one thing, two of the jobs again under a margin, and jobs with gaps that take corners and edges of many parts
//! to be measured.

use nest_tests::draft::{encode, Arrangement, Draft};

pub struct BenchJob {
    pub name: String,
    pub bytes: Vec<u8>,
    pub margin: u8,
}

const SHAPES: [&[(i8, i8)]; 4] = [
    &[(0, 0), (3, 0), (3, 2), (0, 2)],
    &[(0, 0), (4, 0), (2, 3)],
    &[(1, 0), (3, 0), (4, 1), (4, 2), (3, 3), (1, 3), (0, 2), (0, 1)],
    &[(0, 0), (5, 1), (5, 2), (0, 1)],
];

fn named(name: String, draft: Draft) -> BenchJob {
    BenchJob { name, bytes: encode(&draft, &Arrangement::plain()).bytes, margin: 0 }
}

/// A class of gap 1, and one of gap 0 for fillers.
const CLASSES: [[u8; 3]; 2] = [[0, 1, 1], [1, 0, 0]];

/// Of three types one has the gap; the others are fillers, since in no class they would have it too.
fn class_mask(kind: usize) -> u8 {
    if kind % 3 == 1 {
        1 << 0
    } else {
        1 << 1
    }
}

/// A board of so many rows and columns, with so many types and pieces, in all four turns.
fn grid(name: &str, rows: u16, columns: u16, types: usize, pieces: usize) -> BenchJob {
    let mut draft = Draft::new(rows - 1, columns - 1, 1).classes(&CLASSES);
    for kind in 0..types {
        let demand = pieces / types + usize::from(kind < pieces % types);
        draft = draft.with(demand as u8, 15, class_mask(kind), &[SHAPES[kind % SHAPES.len()]]);
    }
    named(format!("{name}: {}d {types}t {pieces}p", rows * columns), draft)
}

/// Such a board on a sheet that is held by its edges.
fn clamped(margin: u8, rows: u16, columns: u16, types: usize, pieces: usize) -> BenchJob {
    BenchJob { margin, ..grid(&format!("margin {margin}"), rows, columns, types, pieces) }
}

/// Pieces of six parts of eight corners, as many as fit into 1024 bytes; all in one class, if there is any.
fn many_parts(name: &str, classes: &[[u8; 3]]) -> BenchJob {
    let octagon = SHAPES[2];
    let moved: Vec<Vec<(i8, i8)>> =
        (0..6).map(|i| octagon.iter().map(|&(x, y)| (x + i % 3, y + i / 3)).collect()).collect();
    let parts: Vec<&[(i8, i8)]> = moved.iter().map(Vec::as_slice).collect();
    let mut draft = Draft::new(31, 31, 1).classes(classes);
    for kind in 0..8 {
        draft = draft.with(if kind < 4 { 2 } else { 1 }, 15, classes.len() as u8, &parts);
    }
    named(name.into(), draft)
}

/// Octagons, slanting strips and triangles with this gap, and the whole board with them so many times as large.
fn gapped(gap: u8, scale: u8) -> BenchJob {
    let larger = |at: i8| at * scale as i8;
    let side = 31 * u16::from(scale);
    let mut draft = Draft::new(side, side, scale.into()).classes(&[[0, 0, gap]]);
    for shape in [SHAPES[2], SHAPES[3], SHAPES[1], SHAPES[2]] {
        let shape: Vec<(i8, i8)> = shape.iter().map(|&(x, y)| (larger(x), larger(y))).collect();
        draft = draft.with(2, 15, 1, &[&shape]);
    }
    named(format!("gap {gap}, step {scale}: 1024d 4t 8p"), draft)
}

/// Eight types in four turns on 1024 dots, each a third of the board long: far-reaching pieces.
fn thirds() -> BenchJob {
    let mut draft = Draft::new(31, 31, 1).classes(&CLASSES);
    for kind in 0..8 {
        let (length, height) = (10, 2 + (kind % 4) as i8);
        let cut = (kind / 4) as i8;
        let shape: &[(i8, i8)] = &[(0, 0), (length, cut), (length, height), (0, height - cut)];
        draft = draft.with(if kind < 4 { 2 } else { 1 }, 15, class_mask(kind), &[shape]);
    }
    named("thirds: 1024d 8t 12p".into(), draft)
}

pub fn bench_jobs() -> Vec<BenchJob> {
    let printed = Draft::new(2, 4, 1).with(2, 1, 0, &[&[(0, 0), (2, 0), (2, 2), (0, 2)]]);
    let mut jobs = vec![
        named("the printed board".into(), printed),
        grid("small", 8, 8, 2, 4),
        grid("middle", 16, 16, 4, 8),
        grid("largest", 32, 32, 8, 12),
        many_parts("six parts, eight corners", &[]),
        thirds(),
    ];
    // Eight rows: too few for the pieces to stand in one column, so that the walks are long.
    jobs.extend([24, 32, 64, 128].map(|columns| grid("dots grow", 8, columns, 4, 8)));
    jobs.extend([1, 2, 4, 8].map(|types| grid("types grow", 8, 48, types, 8)));
    jobs.extend([6, 8, 10, 12].map(|pieces| grid("pieces grow", 8, 48, 2, pieces)));
    // The middle and the largest again.
    jobs.extend([clamped(2, 16, 16, 4, 8), clamped(2, 32, 32, 8, 12)]);
    jobs.extend([gapped(3, 1), gapped(20, 8)]);
    jobs.extend([3, 15].map(|gap| many_parts(&format!("gap {gap}: six parts of eight"), &[[0, 0, gap]])));
    jobs
}
