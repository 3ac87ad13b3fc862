//! A job's content as bytes: board, classes by rising id, types as given, then the trailer, with no skipped bytes.

use super::reader::{Class, Job, Type, TRAILER};

pub fn saved(job: &Job) -> Vec<u8> {
    let board: Vec<u8> = [job.width, job.length, job.step].iter().flat_map(|&n| number(n.into())).collect();
    // By rising id, as they were read.
    let classes: Vec<u8> = job.classes.iter().flat_map(class_record).collect();
    let types: Vec<u8> = job.types.iter().flat_map(type_record).collect();
    // The board's 6 bytes, also where there is no class.
    let classes_at = board.len();
    let types_at = classes_at + classes.len();
    let trailer_at = types_at + types.len();

    let mut trailer: Vec<u8> = [0, classes_at, types_at, types.len()].into_iter().flat_map(number).collect();
    trailer.extend([job.classes.len() as u8, job.types.len() as u8]);
    trailer.extend(number(trailer_at + TRAILER));
    trailer.extend([0x44, 0x42]);
    [board, classes, types, trailer].concat()
}

/// Two bytes, the low one first.
fn number(n: usize) -> [u8; 2] {
    [(n % 256) as u8, (n / 256) as u8]
}

/// A marked class has 128 more in its gap byte.
fn class_record(class: &Class) -> [u8; 3] {
    let mark = if class.marked { 128 } else { 0 };
    [class.id, class.rank, mark + class.gap]
}

fn type_record(kind: &Type) -> Vec<u8> {
    let mut record = vec![kind.demand, kind.turn_mask, kind.class_mask, kind.parts.len() as u8];
    for part in &kind.parts {
        record.push(part.len() as u8);
        record.extend(part.iter().flat_map(|corner| [corner.x, corner.y].map(signed_byte)));
    }
    record
}

/// A coordinate of -127 to 127; a negative one is written as 256 plus it.
fn signed_byte(coordinate: i64) -> u8 {
    coordinate.rem_euclid(256) as u8
}
