//! The static library's services, as include/nest.h declares them, wrapped for byte slices. Only programs
//! that have this module link libnest.a; not each of them calls every service.
#![allow(dead_code)]

use nest_tests::answer::Answer;

#[link(name = "nest", kind = "static")]
extern "C" {
    fn nest_read(job: *const u8, job_len: usize, answer: *mut u8, answer_len: usize) -> u64;
    fn nest_save(job: *const u8, job_len: usize, answer: *mut u8, answer_len: usize) -> u64;
    fn nest_row(
        job: *const u8,
        job_len: usize,
        margin: u64,
        kind: u64,
        number: u64,
        other: u64,
        row: *mut u8,
        row_len: usize,
    ) -> u64;
    fn nest_check(job: *const u8, job_len: usize, margin: u64, layout: *const u8, layout_len: usize) -> u64;
    fn nest_run(
        job: *const u8,
        job_len: usize,
        margin: u64,
        budget: u32,
        layout: *const u8,
        layout_len: usize,
        work: *mut u8,
        work_len: usize,
        answer: *mut u8,
        answer_len: usize,
    ) -> u64;
    fn nest_cut(outline: *const u8, outline_len: usize, answer: *mut u8, answer_len: usize) -> u64;
}

/// A buffer by its first byte's place and its length. One of no bytes may have any place, which a slice may not.
pub type Given = (*mut u8, usize);

/// # Safety
/// Each place has as many bytes as the length beside it says, and a buffer that may change shares none with another.
pub unsafe fn read_at(job: Given, answer: Given) -> Answer {
    Answer::unpack(nest_read(job.0, job.1, answer.0, answer.1))
}

/// # Safety
/// As above.
pub unsafe fn save_at(job: Given, answer: Given) -> Answer {
    Answer::unpack(nest_save(job.0, job.1, answer.0, answer.1))
}

/// # Safety
/// As above.
pub unsafe fn row_at(job: Given, margin: u64, kind: u64, number: u64, other: u64, row: Given) -> Answer {
    Answer::unpack(nest_row(job.0, job.1, margin, kind, number, other, row.0, row.1))
}

/// # Safety
/// As above; nothing is changed, so the two may share bytes.
pub unsafe fn check_at(job: Given, margin: u64, layout: Given) -> Answer {
    Answer::unpack(nest_check(job.0, job.1, margin, layout.0, layout.1))
}

/// # Safety
/// As above; job and layout may share bytes.
pub unsafe fn run_at(job: Given, margin: u64, budget: u32, layout: Given, work: Given, answer: Given) -> Answer {
    let (layout, layout_len) = layout;
    Answer::unpack(nest_run(job.0, job.1, margin, budget, layout, layout_len, work.0, work.1, answer.0, answer.1))
}

/// # Safety
/// As for the first.
pub unsafe fn cut_at(outline: Given, answer: Given) -> Answer {
    Answer::unpack(nest_cut(outline.0, outline.1, answer.0, answer.1))
}

fn kept(bytes: &[u8]) -> Given {
    (bytes.as_ptr().cast_mut(), bytes.len())
}

fn changed(bytes: &mut [u8]) -> Given {
    (bytes.as_mut_ptr(), bytes.len())
}

pub fn read(job: &[u8], answer: &mut [u8]) -> Answer {
    // SAFETY: places and lengths are those of live slices, and the changed one is borrowed alone.
    unsafe { read_at(kept(job), changed(answer)) }
}

pub fn save(job: &[u8], answer: &mut [u8]) -> Answer {
    // SAFETY: as above.
    unsafe { save_at(kept(job), changed(answer)) }
}

pub fn row(job: &[u8], margin: u64, kind: u64, number: u64, other: u64, row: &mut [u8]) -> Answer {
    // SAFETY: as above.
    unsafe { row_at(kept(job), margin, kind, number, other, changed(row)) }
}

pub fn check(job: &[u8], margin: u64, layout: &[u8]) -> Answer {
    // SAFETY: as above; nothing is changed, so the two may share bytes.
    unsafe { check_at(kept(job), margin, kept(layout)) }
}

pub fn run(job: &[u8], margin: u64, budget: u32, layout: &[u8], work: &mut [u8], answer: &mut [u8]) -> Answer {
    // SAFETY: as above; the two changed ones are borrowed apart.
    unsafe { run_at(kept(job), margin, budget, kept(layout), changed(work), changed(answer)) }
}

pub fn cut(outline: &[u8], answer: &mut [u8]) -> Answer {
    // SAFETY: as for read.
    unsafe { cut_at(kept(outline), changed(answer)) }
}
