//! Common cut as request 3 of document 02 had it before request 8 put the rank first: a marked class that two pieces
//! share is enough. Layouts from that time may no longer pass.

use super::reader::{Class, Job};

/// Two pieces share every class that both their types name, and so do two copies of one type.
pub fn shared(job: &Job, one: usize, other: usize) -> impl Iterator<Item = &Class> {
    job.classes_of(one).filter(move |c| job.classes_of(other).any(|d| d.id == c.id))
}

/// 0 for two pieces that share a marked class, otherwise the larger of the two gaps.
pub fn pair_gap(job: &Job, one: usize, other: usize) -> i64 {
    if shared(job, one, other).any(|c| c.marked) {
        return 0;
    }
    job.larger_gap(one, other)
}
