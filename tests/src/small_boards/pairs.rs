//! Two squares on W 2, where they stand in one row. Two that are to be a gap apart nest with the second 2 + gap columns
//! behind the first, in two steps, and are 2 + gap + 2 long; the first is then tried on the 1 + gap columns between them.

use super::*;

/// Two squares of one type, which has this class mask.
pub fn copies(length: u16, classes: &[[u8; 3]], mask: u8) -> Draft {
    Draft::new(2, length, 1).classes(classes).with(2, 1, mask, &[SQUARE])
}

pub fn copies_at_gap_3() -> Vec<Claim> {
    vec![
        run(u32::MAX, "shortest 7 6\n0 0 0 0\n0 5 0 0\n"),
        run(2, "stopped 7 2\n0 0 0 0\n0 5 0 0\n"),
        check(&[0, 0, 0, 0, 0, 5, 0, 0], Ok(7)),
        check(&[0, 0, 0, 0, 0, 4, 0, 0], Err(11)),
        check(TOUCHING, Err(11)),
        conflict((0, 0), (5, 0), false),
        conflict((0, 0), (4, 0), true),
        conflict((0, 0), (2, 0), true),
    ]
}

/// A square each of two types, whose masks name these of the classes.
pub fn two_types(length: u16, classes: &[[u8; 3]], masks: [u8; 2]) -> Draft {
    let [one, other] = masks;
    Draft::new(2, length, 1).classes(classes).with(1, 1, one, &[SQUARE]).with(1, 1, other, &[SQUARE])
}

/// What holds of them if they nest with the second on this column, as in the first layout, and may be no nearer, as they
/// are in the other.
fn nested_at(column: usize, printed: &'static str, layouts: [&'static [u16]; 2]) -> Vec<Claim> {
    let [first, too_near] = layouts;
    let mut claims = vec![run(u32::MAX, printed), check(first, Ok(column as u16 + 2)), check(too_near, Err(11))];
    for types in [(0, 1), (1, 0)] {
        let on = |column, holds| conflict_of(types, (0, 0), (column, 0), holds);
        claims.extend([on(column, false), on(column - 1, true)]);
    }
    claims
}

pub fn at_gap_0() -> Vec<Claim> {
    nested_at(2, "shortest 4 3\n0 0 0 0\n1 2 0 0\n", [&[0, 0, 0, 0, 1, 2, 0, 0], &[0, 0, 0, 0, 1, 1, 0, 0]])
}

pub fn at_gap_1() -> Vec<Claim> {
    nested_at(3, "shortest 5 4\n0 0 0 0\n1 3 0 0\n", [&[0, 0, 0, 0, 1, 3, 0, 0], &[0, 0, 0, 0, 1, 2, 0, 0]])
}

pub fn at_gap_2() -> Vec<Claim> {
    nested_at(4, "shortest 6 5\n0 0 0 0\n1 4 0 0\n", [&[0, 0, 0, 0, 1, 4, 0, 0], &[0, 0, 0, 0, 1, 3, 0, 0]])
}

pub fn at_gap_3() -> Vec<Claim> {
    nested_at(5, "shortest 7 6\n0 0 0 0\n1 5 0 0\n", [&[0, 0, 0, 0, 1, 5, 0, 0], &[0, 0, 0, 0, 1, 4, 0, 0]])
}
