//! A job written anew: board, classes by rising id, type list and trailer, one behind the other.

use std::borrow::Cow;

use crate::job::{read, read_records, sections, Job, Kind};
use crate::mistaken_default::told_classes;
use crate::mutant;

const TRAILER: usize = 14;

/// Writes the job into the answer and tells how many bytes that are; or what refuses it.
pub fn save(job: &[u8], answer: &mut [u8]) -> Result<usize, u8> {
    let content = accepted(job, answer.len())?;
    let saved = if mutant::is("save_skipped_bytes_kept") { Saved::of(job) } else { written(job, &content) };
    let bytes = &saved.bytes[..saved.length];
    let fitting = answer.len().min(bytes.len());
    let short = is_short(answer.len(), bytes.len(), job.len());
    if !mutant::is("save_nothing_written") && (!short || mutant::is("save_written_although_nine")) {
        answer[..fitting].copy_from_slice(&bytes[..fitting]);
    }
    if short {
        return Err(9);
    }
    if mutant::is("save_rest_cleared") {
        answer[fitting..].fill(0);
    }
    let untold = if mutant::is("save_count_without_trailer") { TRAILER } else { 0 };
    Ok(bytes.len() - untold)
}

/// The job, if nothing refuses it. The mistakes: too little room is seen first, or no part is judged.
fn accepted(job: &[u8], room: usize) -> Result<Job, u8> {
    if mutant::is("save_seven_accepted") {
        let mut unjudged = Job::default();
        return read_records(&mut unjudged, job).map(|()| unjudged);
    }
    let room_first = mutant::is("save_nine_before_the_job") && room < job.len();
    read(job).map_err(|number| if room_first { 9 } else { number })
}

/// Whether the answer has too few bytes. The mistakes: counted in numbers, or in those that are whole; off by one; or
/// as if skipped bytes were written too.
fn is_short(room: usize, needed: usize, job_length: usize) -> bool {
    if mutant::is("save_room_by_numbers") {
        room / 2 < needed
    } else if mutant::is("save_room_of_whole_numbers") {
        room / 2 * 2 < needed
    } else if mutant::is("save_room_of_one_byte_more") {
        room < needed + 1
    } else if mutant::is("save_room_of_one_byte_less") {
        room + 1 < needed
    } else if mutant::is("save_room_of_the_original") {
        room < job_length
    } else {
        room < needed
    }
}

/// A job as it grows.
struct Saved {
    bytes: [u8; 1024],
    length: usize,
}

impl Saved {
    fn of(bytes: &[u8]) -> Saved {
        let mut saved = Saved { bytes: [0; 1024], length: 0 };
        saved.put(bytes);
        saved
    }

    /// Puts bytes behind those that are there, and tells where they begin.
    fn put(&mut self, bytes: &[u8]) -> usize {
        let at = self.length;
        self.bytes[at..at + bytes.len()].copy_from_slice(bytes);
        self.length += bytes.len();
        at
    }

    fn put_number(&mut self, number: usize) {
        self.put(&(number as u16).to_le_bytes());
    }
}

fn written(job: &[u8], content: &Job) -> Saved {
    let old = sections(&job[job.len() - TRAILER..]);
    let [board, classes, types] = old.map(|(at, length)| &job[at..at + length]);
    let (classes, class_count) = class_records(content, classes);
    let types = type_list(content, types);
    let mut saved = Saved::of(&board_record(board));
    let lists = [&classes.as_flattened()[..3 * class_count], &types];
    let mut at = [0; 2];
    for list in if mutant::is("save_classes_behind_the_types") { [1, 0] } else { [0, 1] } {
        at[list] = saved.put(lists[list]);
    }
    if class_count == 0 {
        at[0] = empty_at(at[0], old[1].0, saved.length);
    }
    let offsets = if mutant::is("save_offsets_kept") { old.map(|(at, _)| at) } else { [0, at[0], at[1]] };
    offsets.iter().for_each(|&offset| saved.put_number(offset));
    saved.put_number(stated_types(content, types.len()));
    let lost = u8::from(mutant::is("save_without_the_last_type"));
    saved.put(&[class_count as u8, content.kind_count as u8 - lost]);
    saved.put_number(stated_length(saved.length + 4, job.len()));
    saved.put(&[0x44, 0x42]);
    saved
}

/// The board record. A mistake: width and length are exchanged.
fn board_record(board: &[u8]) -> [u8; 6] {
    let mut record: [u8; 6] = board.try_into().expect("a board has six bytes");
    if mutant::is("save_sides_exchanged") {
        record[..4].rotate_left(2);
    }
    record
}

/// The class records by rising id, and how many. The mistakes: in another order, or those alone that a type names.
fn class_records(content: &Job, list: &[u8]) -> ([[u8; 3]; 8], usize) {
    let (mut records, mut count) = ([[0; 3]; 8], 0);
    let named = content.kinds[..content.kind_count].iter().fold(0, |mask, kind| mask | kind.classes);
    for &[id, rank, gap] in &content.classes[..content.class_count] {
        if mutant::is("save_named_classes_only") && named >> id & 1 == 0 {
            continue;
        }
        records[count] = [id, rank, gap_byte(gap, content.cuts >> id & 1)];
        count += 1;
    }
    let kept = &mut records[..count];
    if mutant::is("save_classes_in_file_order") {
        kept.as_flattened_mut().copy_from_slice(list);
    } else if mutant::is("save_classes_by_falling_id") {
        kept.reverse();
    } else if mutant::is("save_classes_by_rising_rank") {
        kept.sort_unstable_by_key(|record| record[1]);
    }
    (records, count)
}

/// A marked class has 128 more. The mistakes: no mark, another one, or no gap beside it.
fn gap_byte(gap: u8, mark: u8) -> u8 {
    let size = if mutant::is("save_mark_of_64") { 64 } else { 128 };
    if mutant::is("save_without_mark") {
        gap
    } else if mark == 1 && mutant::is("save_marked_gap_0") {
        size
    } else {
        gap | mark * size
    }
}

/// The type list, as it is. The mistakes: with a class for types in none, by rising demand, or without its last record.
fn type_list<'a>(content: &Job, list: &'a [u8]) -> Cow<'a, [u8]> {
    if mutant::none() {
        return Cow::Borrowed(list);
    }
    let mut rest = list;
    let kinds = content.kinds[..content.kind_count].iter();
    let mut records: Vec<Vec<u8>> =
        kinds.map(|kind| rest.split_off(..record_length(kind)).expect("a record").to_vec()).collect();
    for record in &mut records {
        record[2] = told_classes(content, record[2], "save_no_class_as_the_largest_gap");
    }
    if mutant::is("save_types_by_rising_demand") {
        records.sort_by_key(|record| record[0]);
    } else if mutant::is("save_without_the_last_type") {
        records.pop();
    }
    Cow::Owned(records.concat())
}

fn record_length(kind: &Kind) -> usize {
    let parts = &kind.parts[..kind.part_count];
    4 + parts.iter().map(|part| 1 + 2 * part.corners).sum::<usize>()
}

/// The offset of an empty class list: that behind the board. The mistakes: the first of all, the one that it had, or
/// the trailer's own.
fn empty_at(behind_board: usize, had: usize, trailer: usize) -> usize {
    if mutant::is("save_empty_classes_at_0") {
        0
    } else if mutant::is("save_empty_classes_where_they_were") {
        had
    } else if mutant::is("save_empty_classes_at_the_trailer") {
        trailer
    } else {
        behind_board
    }
}

/// The length of the type list. A mistake: without its last record, which is there.
fn stated_types(content: &Job, length: usize) -> usize {
    let last = &content.kinds[content.kind_count - 1];
    let overlooked = if mutant::is("save_type_list_without_the_last_stated") { record_length(last) } else { 0 };
    length - overlooked
}

/// The length of the whole job. The mistakes: without the trailer, or that of the job as it was.
fn stated_length(whole: usize, had: usize) -> usize {
    if mutant::is("save_stated_length_without_trailer") {
        whole - TRAILER
    } else if mutant::is("save_stated_length_of_the_original") {
        had
    } else {
        whole
    }
}
