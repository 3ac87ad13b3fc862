//! Save: its answer and bytes against the reference, what holds of saved jobs whatever their bytes are, and counts of
//! the jobs that saving does something to.

use nest_tests::changes::{other_contents, CHANGES};
use nest_tests::reference::reader::{Job, TRAILER};
use nest_tests::reference::writer::saved;

use crate::case::Case;
use crate::harness::{Harness, SAVE};
use crate::lent::awkward_lengths;
use crate::nest;
use crate::paper::{counted, given_by_read};
use crate::report::Report;

/// As many as a job may have.
const MOST_BYTES: usize = 1024;

/// The bytes that the library saves a job to, or what refuses it.
pub fn saved_by_library(job: &[u8]) -> Result<Vec<u8>, u8> {
    let mut answer = vec![0xFF; MOST_BYTES];
    let count = counted(nest::save(job, &mut answer))?;
    answer.truncate(count.into());
    Ok(answer)
}

impl Harness<'_> {
    pub fn saves(&mut self, case: &Case) {
        let job_length = case.bytes.len();
        let Ok(job) = &case.reading else {
            for length in [0, self.any_length(), job_length] {
                self.write(&SAVE, case, length);
            }
            return;
        };
        // Twice the bytes: for an engine that counts them as numbers.
        let needed = saved(job).len();
        for length in awkward_lengths(needed, 2).into_iter().chain([job_length, 2 * needed]) {
            self.write(&SAVE, case, length);
        }
        self.saved_jobs(case, job);
    }

    /// By the library alone: how long a saved job is, what read gives of it, that it is saved to its own bytes, and
    /// that jobs of other contents are saved to others.
    fn saved_jobs(&mut self, case: &Case, job: &Job) {
        let Ok(saved) = saved_by_library(&case.bytes) else {
            return self.mismatch(case, "save: refused, with room for every job");
        };
        if saved.len() > case.bytes.len() {
            self.mismatch(case, "save: the saved job is longer than the job");
        }
        if given_by_read(&saved) != given_by_read(&case.bytes) {
            self.mismatch(case, "save: read gives other numbers of the saved job");
        }
        if saved_by_library(&saved).as_ref() != Ok(&saved) {
            self.mismatch(case, "save: the saved job is saved to other bytes than its own");
        }
        for (what, other) in other_contents(self.noise, job) {
            self.report.note(what);
            if other == saved || saved_by_library(&other).as_ref() != Ok(&other) {
                self.mismatch(case, &format!("save: not the bytes of another content for {what}"));
            }
        }
    }
}

const OTHER_BYTES: &str = "jobs that are saved to other bytes than their own";
const SKIPPED: &str = "jobs with skipped bytes";
const OTHER_ORDER: &str = "jobs with their sections in another order";
const SHUFFLED: &str = "jobs with classes not by rising id";
const MARKED: &str = "jobs with marked classes";
const UNNAMED: &str = "jobs with a class that no type names";
const EMPTY_ELSEWHERE: &str = "jobs without a class whose class list is not at 6";
const FALLING_DEMAND: &str = "jobs with types not by rising demand";
const ODD: &str = "jobs with an odd number of bytes when saved";

/// All that is counted of accepted jobs.
const OF_JOBS: [&str; 9] =
    [OTHER_BYTES, SKIPPED, OTHER_ORDER, SHUFFLED, MARKED, UNNAMED, EMPTY_ELSEWHERE, FALLING_DEMAND, ODD];

/// And of the jobs of other contents that they were compared with.
pub fn counted_things() -> impl Iterator<Item = &'static str> {
    OF_JOBS.into_iter().chain(CHANGES.iter().map(|&(what, _)| what))
}

pub fn count(case: &Case, report: &mut Report) {
    let Ok(job) = &case.reading else { return };
    let saved = saved(job);
    let [board_at, classes_at, types_at] = [0, 2, 4].map(|field| trailer_number(&case.bytes, field));
    let named = job.types.iter().fold(0, |mask, kind| mask | kind.class_mask);
    let no_class = job.classes.is_empty();
    let seen = [
        (OTHER_BYTES, saved != case.bytes),
        (SKIPPED, saved.len() < case.bytes.len()),
        (OTHER_ORDER, board_at > types_at || !no_class && (board_at > classes_at || classes_at > types_at)),
        (SHUFFLED, !class_ids(case, job).is_sorted()),
        (MARKED, job.classes.iter().any(|class| class.marked)),
        (UNNAMED, job.classes.iter().any(|class| named >> class.id & 1 == 0)),
        (EMPTY_ELSEWHERE, no_class && classes_at != 6),
        (FALLING_DEMAND, !job.types.iter().is_sorted_by_key(|kind| kind.demand)),
        (ODD, saved.len() % 2 == 1),
    ];
    seen.into_iter().filter(|&(_, holds)| holds).for_each(|(what, _)| report.note(what));
}

/// The ids of the classes in the order of the file.
pub fn class_ids(case: &Case, job: &Job) -> Vec<u8> {
    let classes_at = trailer_number(&case.bytes, 2);
    (0..job.classes.len()).map(|place| case.bytes[classes_at + 3 * place]).collect()
}

fn trailer_number(job: &[u8], field: usize) -> usize {
    let at = job.len() - TRAILER + field;
    u16::from_le_bytes([job[at], job[at + 1]]).into()
}
