//! Gaps as document 01 had them before request 9 of document 02: a type with no class has none. Layouts from that time
//! may no longer pass.

use super::reader::Job;

/// 0 for a common cut, otherwise the larger of the two gaps.
pub fn pair_gap(job: &Job, one: usize, other: usize) -> i64 {
    let gap = |kind| job.best_ranked(kind).map_or(0, |c| i64::from(c.gap));
    if job.cut_together(one, other) {
        return 0;
    }
    gap(one).max(gap(other))
}
