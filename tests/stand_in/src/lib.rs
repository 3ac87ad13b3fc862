//! The six services over the unverified opponent: what the comparison tests are tried on, as it is and
//! with each of the deliberate mistakes.

mod given;

use std::slice;

use opponent::cut::cut;
use opponent::job::{read, Job};
use opponent::mistaken_default::told_classes;
use opponent::mutant;
use opponent::rows::{place, Board, Rows};
use opponent::save::save;
use opponent::walk::{Outcome, Walk};

fn packed(number: u8, verdict: u8, count: usize, steps: u64) -> u64 {
    u64::from(number) | u64::from(verdict) << 8 | (count as u64) << 16 | steps << 32
}

fn refused(number: u8) -> u64 {
    packed(number, 0, 0, 0)
}

/// The bytes of a buffer. One of no bytes may have any pointer, which a slice may not.
unsafe fn lent<'a>(at: *const u8, length: usize) -> &'a [u8] {
    match length {
        0 => &[],
        _ => slice::from_raw_parts(at, length),
    }
}

/// The bytes of a buffer that may change.
unsafe fn lent_mut<'a>(at: *mut u8, length: usize) -> &'a mut [u8] {
    match length {
        0 => &mut [],
        _ => slice::from_raw_parts_mut(at, length),
    }
}

/// # Safety
/// Pointers and lengths name the caller's buffers.
#[no_mangle]
pub unsafe extern "C" fn nest_read(job: *const u8, job_len: usize, answer: *mut u8, answer_len: usize) -> u64 {
    let job = lent(job, job_len);
    let answer = lent_mut(answer, answer_len);
    match read(job) {
        Err(number) => refused(number),
        Ok(job) => write_content(&job, answer),
    }
}

/// # Safety
/// Pointers and lengths name the caller's buffers.
#[no_mangle]
pub unsafe extern "C" fn nest_save(job: *const u8, job_len: usize, answer: *mut u8, answer_len: usize) -> u64 {
    match save(lent(job, job_len), lent_mut(answer, answer_len)) {
        Err(number) => refused(number),
        Ok(count) => packed(0, 0, count, 0),
    }
}

fn write_content(job: &Job, answer: &mut [u8]) -> u64 {
    let mut out = vec![job.width, job.length, job.step, job.class_count as i32];
    for &[id, rank, gap] in &job.classes[..job.class_count] {
        out.extend(told_class([id, rank, gap, job.cuts >> id & 1].map(i32::from)));
    }
    out.push(job.kind_count as i32);
    for kind in &job.kinds[..job.kind_count] {
        let classes = told_classes(job, kind.classes, "read_no_class_as_the_largest_gap");
        out.extend([kind.demand as i32, i32::from(kind.turns), i32::from(classes), kind.part_count as i32]);
        for part in &kind.parts[..kind.part_count] {
            out.push(part.corners as i32);
            for i in 0..part.corners {
                out.extend([part.x[i], part.y[i]]);
            }
        }
    }
    out.push(job.pieces as i32);
    let overlooked = if mutant::is("read_room_of_three_a_class") { job.class_count } else { 0 };
    if answer.len() / 2 < out.len() - overlooked {
        return refused(9);
    }
    for (place, &n) in answer.chunks_exact_mut(2).zip(&out) {
        let n = if mutant::is("negative_as_byte") && n < 0 { n & 255 } else { n };
        place.copy_from_slice(&(n as u16).to_le_bytes());
    }
    spoil_odd_byte(answer);
    packed(0, 0, out.len(), 0)
}

/// The numbers of a class: id, rank, gap and mark. The mistakes: no mark, the mark in another place or of another
/// size, or the gap as the byte that it was read from.
fn told_class([id, rank, gap, mark]: [i32; 4]) -> Vec<i32> {
    if mutant::is("read_without_mark") {
        vec![id, rank, gap]
    } else if mutant::is("read_mark_before_gap") {
        vec![id, rank, mark, gap]
    } else if mutant::is("read_mark_of_128") {
        vec![id, rank, gap, 128 * mark]
    } else if mutant::is("read_raw_gap_byte") {
        vec![id, rank, gap + 128 * mark, mark]
    } else {
        vec![id, rank, gap, mark]
    }
}

/// A mistake: the odd last byte is cleared.
fn spoil_odd_byte(buffer: &mut [u8]) {
    if mutant::is("odd_byte_overwritten") && buffer.len() % 2 == 1 {
        buffer[buffer.len() - 1] = 0;
    }
}

/// The job of a service that takes a margin. The mistakes: the margin is judged first; with the first one named, the
/// service knows nothing of marks, with the second it does not ask for ranks, with the third it has no gap for types in
/// no class.
fn read_under(job: &[u8], margin: u64, mistakes: [&str; 3]) -> Result<Job, u8> {
    if mutant::is("thirteen_before_the_job") && accepted(margin).is_none() {
        return Err(13);
    }
    let mut job = read(job)?;
    let [unmarked, unranked, no_default] = mistakes;
    if mutant::is(unmarked) {
        job.kinds.iter_mut().for_each(|kind| kind.cut = 0);
    }
    Ok(by_an_earlier_rule(job, [unranked, no_default]))
}

/// The job as it is. The mistakes: every marked class of a type counts, as if it were the best-ranked; or types in no
/// class have no gap.
fn by_an_earlier_rule(mut job: Job, mistakes: [&str; 2]) -> Job {
    let [unranked, no_default] = mistakes.map(mutant::is);
    for kind in &mut job.kinds {
        if unranked {
            kind.cut = job.cuts & kind.classes;
        }
        if no_default && kind.classes == 0 {
            kind.gap = 0;
        }
    }
    job
}

/// The margin, if it is one that a host may pass.
fn accepted(margin: u64) -> Option<i32> {
    let cuts = [("margin_of_8_bits", 8), ("margin_of_16_bits", 16), ("margin_of_32_bits", 32)];
    let bits = cuts.iter().find(|(name, _)| mutant::is(name)).map_or(64, |&(_, bits)| bits);
    let margin = margin & u64::MAX >> (64 - bits);
    let most = 63 + u64::from(mutant::is("margin_64_accepted")) - u64::from(mutant::is("margin_63_refused"));
    let signed = mutant::is("margin_signed") && margin as i64 <= most as i64;
    (margin <= most || signed).then_some(margin as i32)
}

/// The refusal of a margin, which comes before all that the service itself refuses. The mistakes: after another cause.
fn margin_refused(others: &[(&str, bool, u8)]) -> u64 {
    let first = others.iter().find(|(mistake, cause, _)| *cause && mutant::is(mistake));
    refused(first.map_or(13, |&(_, _, number)| number))
}

/// The board under a margin. With the first mistake named, its candidates are those of a sheet without clamps; with the
/// second, this service alone measures gaps as squares.
fn clamped<'a>(job: &'a Job, margin: i32, mistakes: [&'static str; 2]) -> Board<'a> {
    let [unclamped, square_gap] = mistakes;
    let mut board = Board::new(job, margin);
    if mutant::is(unclamped) {
        board.candidates = Board::new(job, 0).candidates;
    }
    if mutant::is(square_gap) {
        board.square_gap = square_gap;
    }
    board
}

/// A length as it is told. The mistakes: without the margin, or with two of them.
fn told(length: i32, margin: i32, mistakes: [&str; 2]) -> usize {
    let [without, twice] = mistakes.map(|name| i32::from(mutant::is(name)));
    (length + (twice - without) * margin) as usize
}

/// # Safety
/// Pointers and lengths name the caller's buffers.
#[no_mangle]
pub unsafe extern "C" fn nest_row(
    job: *const u8,
    job_len: usize,
    margin: u64,
    kind: u64,
    number: u64,
    other: u64,
    row: *mut u8,
    row_len: usize,
) -> u64 {
    let job = lent(job, job_len);
    let row = lent_mut(row, row_len);
    match read_under(job, margin, ["row_without_common_cut", "row_with_unranked_cut", "row_without_default"]) {
        Err(number) => refused(number),
        Ok(job) => write_row(&job, margin, kind, number, other, row),
    }
}

fn write_row(job: &Job, margin: u64, kind: u64, number: u64, other: u64, row: &mut [u8]) -> u64 {
    let words = job.words();
    let short = row.len() / 8 < words;
    let narrow = |n: u64| if mutant::is("kind_of_32_bits") { n & 0xFFFF_FFFF } else { n };
    let (kind, other) = (narrow(kind), narrow(other));
    let number = if mutant::is("number_of_16_bits") { number & 0xFFFF } else { number };
    let kinds = job.kind_count as u64;
    let absent = kind >= kinds || other >= kinds || number >= 4096;
    let Some(margin) = accepted(margin) else {
        return margin_refused(&[("thirteen_after_twelve", absent, 12), ("thirteen_after_nine", short, 9)]);
    };
    if mutant::is("nine_before_twelve") && short {
        return refused(9);
    }
    if absent {
        return refused(12);
    }
    let board = clamped(job, margin, ["row_of_unclamped_candidate", "row_with_square_gap"]);
    if !board.is_candidate(kind as usize, number as usize) {
        return refused(12);
    }
    if short {
        return refused(9);
    }
    let board = clamped(job, margin, ["row_against_unclamped_candidates", "row_with_square_gap"]);
    let mut out: Vec<u64> =
        row.chunks_exact(8).take(words).map(|b| u64::from_le_bytes(b.try_into().expect("eight"))).collect();
    if !mutant::is("row_untouched") {
        board.row(kind as usize, number as usize, other as usize, &mut out);
    }
    if mutant::is("row_always_zero") {
        out.fill(0);
    }
    for (place, word) in row.chunks_exact_mut(8).zip(out) {
        place.copy_from_slice(&word.to_le_bytes());
    }
    packed(0, 0, words, 0)
}

/// # Safety
/// Pointers and lengths name the caller's buffers.
#[no_mangle]
pub unsafe extern "C" fn nest_check(
    job: *const u8,
    job_len: usize,
    margin: u64,
    layout: *const u8,
    layout_len: usize,
) -> u64 {
    let job = lent(job, job_len);
    let layout = lent(layout, layout_len);
    match read_under(job, margin, ["check_without_common_cut", "check_with_unranked_cut", "check_without_default"]) {
        Err(number) => refused(number),
        Ok(job) => check(&job, margin, layout),
    }
}

fn check(job: &Job, margin: u64, layout: &[u8]) -> u64 {
    let Some(margin) = accepted(margin) else {
        return margin_refused(&[("thirteen_after_eleven", layout.len() / 2 != 4 * job.pieces, 11)]);
    };
    match checked(job, margin, layout, ["check_unclamped", "check_with_square_gap"]) {
        None => refused(11),
        Some((length, _)) => {
            let mistakes = ["check_length_without_margin", "check_length_with_margin_twice"];
            packed(0, 0, told(length, margin, mistakes), 0)
        }
    }
}

/// A layout's length and its candidate numbers.
type Layout = (i32, [u16; 12]);

/// The layout, if it passes, with the mistakes of the board that it is put on.
fn checked(job: &Job, margin: i32, layout: &[u8], mistakes: [&'static str; 2]) -> Option<Layout> {
    let numbers: Vec<usize> =
        layout.chunks_exact(2).map(|b| usize::from(u16::from_le_bytes([b[0], b[1]]))).collect();
    if mutant::is("check_passes_nothing") {
        return None;
    }
    let longer = mutant::is("check_takes_longer_layouts") && numbers.len() > 4 * job.pieces;
    if numbers.len() != 4 * job.pieces && !longer {
        return None;
    }
    let board = clamped(job, margin, mistakes);
    let (mut placed, mut length, mut held): (Vec<(usize, usize)>, i32, _) = (vec![], 0, [0; 12]);
    for entry in numbers.chunks_exact(4).take(job.pieces) {
        let (kind, column, row, turn) = (entry[0], entry[1], entry[2], entry[3]);
        let by_number = mutant::is("check_by_number_alone");
        if kind >= job.kind_count || !by_number && (column >= job.columns || row >= job.rows || turn > 3) {
            return None;
        }
        let number = (column * job.rows + row) * 4 + turn;
        let rises = mutant::is("check_without_order") || placed.last().is_none_or(|&last| last < (kind, number));
        let clear = |&(k, n): &(usize, usize)| !board.conflict(k, n, kind, number);
        if !rises || !board.is_candidate(kind, number) || !placed.iter().all(clear) {
            return None;
        }
        held[placed.len()] = number as u16;
        placed.push((kind, number));
        length = length.max(board.length(kind, number));
    }
    let copies = |kind: usize| placed.iter().filter(|p| p.0 == kind).count();
    (0..job.kind_count).all(|k| copies(k) == job.kinds[k].demand).then_some((length, held))
}

/// # Safety
/// Pointers and lengths name the caller's buffers.
#[no_mangle]
pub unsafe extern "C" fn nest_run(
    job: *const u8,
    job_len: usize,
    margin: u64,
    budget: u32,
    layout: *const u8,
    layout_len: usize,
    work: *mut u8,
    work_len: usize,
    answer: *mut u8,
    answer_len: usize,
) -> u64 {
    if mutant::is("null_refused") && work.is_null() {
        return refused(8);
    }
    if mutant::is("given_null_refused") && layout.is_null() {
        return refused(11);
    }
    let job = lent(job, job_len);
    let given = lent(layout, layout_len);
    let work = lent_mut(work, work_len);
    let answer = lent_mut(answer, answer_len);
    if mutant::is("guard_written") && work_len > 0 {
        // The byte past the lent ones.
        work.as_mut_ptr().add(work_len).write(0xA5);
    }
    let mistakes = ["run_without_common_cut", "run_with_unranked_cut", "run_without_default"];
    let result = match read_under(job, margin, mistakes) {
        Err(number) => refused(number),
        Ok(job) => run(&job, margin, budget, given, work, answer),
    };
    if mutant::is("given_buffer_cleared") && layout_len > 0 {
        layout.cast_mut().write_bytes(0, layout_len);
    }
    result
}

fn run(job: &Job, margin: u64, budget: u32, layout: &[u8], work: &mut [u8], answer: &mut [u8]) -> u64 {
    let work_bytes = 8 * job.kind_count * job.pieces * job.words();
    let work_short = work.len() < work_bytes;
    let answer_short = answer.len() / 2 < 4 * job.pieces;
    let Some(margin) = accepted(margin) else {
        if mutant::is("work_cleared_at_thirteen") {
            work.fill(0);
        }
        let unfit = given::layout(job, 0, layout).is_err();
        return margin_refused(&[
            ("thirteen_after_eleven_of_run", unfit, 11),
            ("thirteen_after_eight", work_short, 8),
            ("thirteen_after_nine", answer_short, 9),
        ]);
    };
    let given = match given::layout(job, margin, layout) {
        Err(number) => return given::refusal(number, work_short, answer_short, work),
        Ok(given) => given,
    };
    if mutant::is("eight_after_nine") && answer_short {
        return refused(9);
    }
    if work_short {
        return refused(8);
    }
    if answer_short {
        return refused(9);
    }
    let board = clamped(job, margin, ["run_unclamped", "run_with_square_gap"]);
    let mut rows = Rows::new(&board);
    let out = given::walk_from(given, Walk::new(&board, &mut rows), budget);
    // Whether nothing shorter than the given layout was found.
    let stands = given.is_some() && out.best == given;
    let none = !out.stopped && out.best.is_none();
    clear_work(work, work_bytes, none, given.is_some());
    if let Some((_, numbers)) = out.best.filter(|_| !(stands && mutant::is("given_not_written"))) {
        write_layout(job, margin, &numbers, answer);
        if mutant::is("rest_copied") {
            (1..job.pieces).for_each(|piece| answer.copy_within(0..8, 8 * piece));
        }
    }
    if out.stopped && out.best.is_none() && mutant::is("answer_written_when_stopped_with_nothing")
        || none && mutant::is("answer_cleared_when_none")
    {
        answer[..8 * job.pieces].fill(0);
    }
    spoil_odd_byte(answer);
    let mistakes = match stands {
        true => ["given_length_without_margin", "given_length_with_margin_twice"],
        false => ["run_length_without_margin", "run_length_with_margin_twice"],
    };
    let length = out.best.map_or(0, |(length, _)| told(length, margin, mistakes));
    packed_verdict(length, told_verdict(&out, stands, budget))
}

/// Whether the run stopped, its steps and whether it holds a layout, as they are told.
fn told_verdict(out: &Outcome, stands: bool, budget: u32) -> (bool, u64, bool) {
    let (mut stopped, mut steps) = (out.stopped, out.steps);
    if mutant::is("stopped_at_exact_budget") && steps == u64::from(budget) {
        stopped = true;
    }
    if mutant::is("steps_always_counted") && stopped {
        steps += 1;
    }
    if mutant::is("invented_steps") && !stopped {
        steps /= 2;
    }
    let held = out.best.is_some() && !(stands && given::overlooked(stopped));
    if mutant::is("stopped_at_once") {
        return (true, 0, false);
    }
    if mutant::is("none_to_all") {
        return (false, steps, false);
    }
    (stopped, steps, held)
}

fn packed_verdict(length: usize, (stopped, steps, held): (bool, u64, bool)) -> u64 {
    match (stopped, held) {
        (false, true) => packed(0, 0, length, steps),
        (false, false) => packed(10, 0, 0, steps),
        (true, true) => packed(0, 1, length, steps),
        (true, false) => packed(0, 2, 0, steps),
    }
}

fn clear_work(work: &mut [u8], needed: usize, none: bool, given: bool) {
    let left = none && mutant::is("work_not_cleared_when_none") || given && mutant::is("work_not_cleared_with_given");
    if left || mutant::is("work_not_cleared") {
        return;
    }
    let more = if mutant::is("one_work_word_too_many") { 8 } else { 0 };
    let last = work.len().min(needed + more);
    work[..last].fill(0);
}

fn write_layout(job: &Job, margin: i32, numbers: &[u16; 12], answer: &mut [u8]) {
    let first_column = if mutant::is("columns_from_the_clamp") { (margin / job.step) as usize } else { 0 };
    let mut piece = 0;
    for kind in 0..job.kind_count {
        for _ in 0..job.kinds[kind].demand {
            let at = place(job, numbers[piece].into());
            for (i, n) in [kind, at.column.wrapping_sub(first_column), at.row, at.turn].into_iter().enumerate() {
                let from = 8 * piece + 2 * i;
                answer[from..from + 2].copy_from_slice(&(n as u16).to_le_bytes());
            }
            piece += 1;
        }
    }
}

/// # Safety
/// Pointers and lengths name the caller's buffers.
#[no_mangle]
pub unsafe extern "C" fn nest_cut(outline: *const u8, outline_len: usize, answer: *mut u8, answer_len: usize) -> u64 {
    if mutant::is("cut_null_refused") && answer.is_null() {
        return refused(14);
    }
    let told = match cut(lent(outline, outline_len), lent_mut(answer, answer_len)) {
        Err(number) => refused(number),
        Ok(count) => packed(0, 0, count, 0),
    };
    if mutant::is("cut_outline_cleared") && outline_len > 0 {
        outline.cast_mut().write_bytes(0, outline_len);
    }
    if mutant::is("cut_guard_written") && answer_len > 0 {
        // The byte past the lent ones.
        answer.add(answer_len).write(0xA5);
    }
    told
}
