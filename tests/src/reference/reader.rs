//! A plain reader of jobs, with the refusals that the job's sender can cause (1 to 7).

use super::geometry::{point, sound, Part};

#[derive(Clone, Copy, PartialEq, Eq, Debug)]
pub struct Class {
    pub id: u8,
    pub rank: u8,
    /// 0 to 63, also where the class is marked.
    pub gap: u8,
    /// Marked as common cut.
    pub marked: bool,
}

#[derive(Clone, PartialEq, Eq, Debug)]
pub struct Type {
    pub demand: u8,
    pub turn_mask: u8,
    pub class_mask: u8,
    pub parts: Vec<Part>,
}

#[derive(Clone, PartialEq, Eq, Debug)]
pub struct Job {
    pub width: u16,
    pub length: u16,
    pub step: u16,
    /// By rising id, whatever their order in the file.
    pub classes: Vec<Class>,
    pub types: Vec<Type>,
}

pub const TRAILER: usize = 14;

struct Section {
    offset: usize,
    length: usize,
}

impl Section {
    fn end(&self) -> usize {
        self.offset + self.length
    }

    fn of<'a>(&self, bytes: &'a [u8]) -> &'a [u8] {
        &bytes[self.offset..self.end()]
    }

    /// Some byte lies in both; an empty section has no byte to share.
    fn shares_a_byte(&self, other: &Section) -> bool {
        (self.offset..self.end()).any(|at| other.offset <= at && at < other.end())
    }
}

pub fn read_job(bytes: &[u8]) -> Result<Job, u8> {
    refuse_if(1, bytes.len() < TRAILER || bytes.len() > 1024)?;
    let trailer_at = bytes.len() - TRAILER;
    let trailer = &bytes[trailer_at..];
    refuse_if(2, trailer[12..] != [0x44, 0x42] || number_at(trailer, 10) != bytes.len())?;

    let (class_count, type_count) = (trailer[8] as usize, trailer[9] as usize);
    let board = Section { offset: number_at(trailer, 0), length: 6 };
    let class_list = Section { offset: number_at(trailer, 2), length: 3 * class_count };
    let type_list = Section { offset: number_at(trailer, 4), length: number_at(trailer, 6) };
    refuse_if(3, [&board, &class_list, &type_list].iter().any(|s| s.end() > trailer_at))?;
    refuse_if(
        3,
        board.shares_a_byte(&class_list)
            || board.shares_a_byte(&type_list)
            || class_list.shares_a_byte(&type_list),
    )?;

    let (width, length, step) = read_board(board.of(bytes)).ok_or(4)?;
    let classes = read_classes(class_list.of(bytes)).ok_or(5)?;
    let types = read_types(type_list.of(bytes), type_count, &classes).ok_or(6)?;
    refuse_if(7, !types.iter().flat_map(|t| &t.parts).all(good_part))?;
    Ok(Job { width, length, step, classes, types })
}

fn refuse_if(number: u8, cause: bool) -> Result<(), u8> {
    if cause {
        Err(number)
    } else {
        Ok(())
    }
}

/// A two-byte number, low byte first.
fn number_at(bytes: &[u8], at: usize) -> usize {
    bytes[at] as usize + 256 * bytes[at + 1] as usize
}

fn read_board(record: &[u8]) -> Option<(u16, u16, u16)> {
    let [width, length, step] = [0, 2, 4].map(|at| number_at(record, at));
    let in_range = [width, length, step].iter().all(|&n| (1..=1000).contains(&n));
    if !in_range || (length / step + 1) * (width / step + 1) > 1024 {
        return None;
    }
    Some((width as u16, length as u16, step as u16))
}

fn read_classes(list: &[u8]) -> Option<Vec<Class>> {
    let classes: Option<Vec<Class>> = list.chunks(3).map(read_class).collect();
    let mut classes = classes?;
    let twice = classes.iter().enumerate().any(|(i, c)| {
        classes[..i].iter().any(|before| before.id == c.id || before.rank == c.rank)
    });
    if classes.len() > 8 || twice {
        return None;
    }
    classes.sort_by_key(|c| c.id);
    Some(classes)
}

fn read_class(record: &[u8]) -> Option<Class> {
    let (gap, marked) = read_gap(record[2])?;
    (record[0] <= 7).then_some(Class { id: record[0], rank: record[1], gap, marked })
}

/// A gap byte of 128 to 191 means that byte minus 128 and marks the class as common cut.
fn read_gap(byte: u8) -> Option<(u8, bool)> {
    match byte {
        0..=63 => Some((byte, false)),
        64..=127 => None,
        128..=191 => Some((byte - 128, true)),
        192..=255 => None,
    }
}

/// Refusal 6 is judged over the whole list before any corner is looked at, so this reads all records.
fn read_types(list: &[u8], count: usize, classes: &[Class]) -> Option<Vec<Type>> {
    if !(1..=8).contains(&count) {
        return None;
    }
    let mut rest = list;
    let types: Option<Vec<Type>> = (0..count).map(|_| read_type(&mut rest)).collect();
    let types = types?;
    let demands: usize = types.iter().map(|t| t.demand as usize).sum();
    let named_are_there = (0..8u8).all(|id| {
        let named = types.iter().any(|t| t.class_mask >> id & 1 == 1);
        !named || classes.iter().any(|c| c.id == id)
    });
    if demands > 12 || !named_are_there || !rest.is_empty() {
        return None;
    }
    Some(types)
}

fn read_type(rest: &mut &[u8]) -> Option<Type> {
    let demand = take_in(rest, 1, 12)?;
    let turn_mask = take_in(rest, 1, 15)?;
    let class_mask = take_in(rest, 0, 255)?;
    let part_count = take_in(rest, 1, 6)?;
    let parts: Option<Vec<Part>> = (0..part_count).map(|_| read_part(rest)).collect();
    Some(Type { demand, turn_mask, class_mask, parts: parts? })
}

fn read_part(rest: &mut &[u8]) -> Option<Part> {
    let corner_count = take_in(rest, 3, 8)?;
    (0..corner_count)
        .map(|_| {
            let x = take_in(rest, 0, 255)? as i8;
            let y = take_in(rest, 0, 255)? as i8;
            Some(point(x.into(), y.into()))
        })
        .collect()
}

/// The next byte, if there is one and it lies in the range.
fn take_in(rest: &mut &[u8], least: u8, most: u8) -> Option<u8> {
    let (&first, others) = rest.split_first()?;
    *rest = others;
    (least..=most).contains(&first).then_some(first)
}

fn good_part(part: &Part) -> bool {
    part.iter().all(|c| c.x != -128 && c.y != -128) && sound(part)
}
