//! Counts the jobs that tell common cut from what might be taken for it.

use nest_tests::reference::reader::Job;
use nest_tests::reference::unranked_cut::shared;

use crate::case::Case;
use crate::report::Report;

const COPIES: &str = "types of several copies whose best-ranked class is marked";
const COPIES_BEHIND: &str = "types of several copies in a marked class behind an unmarked one that is the best-ranked";
const BEST_OF_BOTH: &str = "pairs of types with a marked class that is the best-ranked of both";
const BEHIND_ONE_CLASS: &str = "pairs of types that share a marked class, behind the best-ranked class of both";
const BEHIND_TWO_CLASSES: &str = "pairs of types that share a marked class, behind another best-ranked class of each";
const BEHIND_UNMARKED: &str = "pairs of types that share a marked class, best-ranked of one, behind an unmarked one";
const BEHIND_MARKED: &str = "pairs of types that share a marked class, best-ranked of one, behind a marked one";
const NONE_SHARED: &str = "pairs of types whose best-ranked classes are marked, and that share none that is";
const ONE_MARKED: &str = "pairs of types of which one's best-ranked class is marked, and the other's is not";
const ONE_IN_NO_CLASS: &str = "pairs of types of which one's best-ranked class is marked, and the other has no class";
const NEST_OTHERWISE: &str = "jobs that nest otherwise without their marks";
const NEST_OTHERWISE_UNRANKED: &str = "jobs that nest otherwise where any shared marked class makes a common cut";

/// All that is counted.
pub const COUNTED: [&str; 12] = [
    COPIES,
    COPIES_BEHIND,
    BEST_OF_BOTH,
    BEHIND_ONE_CLASS,
    BEHIND_TWO_CLASSES,
    BEHIND_UNMARKED,
    BEHIND_MARKED,
    NONE_SHARED,
    ONE_MARKED,
    ONE_IN_NO_CLASS,
    NEST_OTHERWISE,
    NEST_OTHERWISE_UNRANKED,
];

pub fn count(case: &Case, report: &mut Report) {
    let Ok(board) = &case.clamped else { return };
    let job = &board.job;
    for kind in 0..job.types.len() {
        what_copies(job, kind).into_iter().for_each(|what| report.note(what));
        (0..kind).filter_map(|before| what_pair(job, before, kind)).for_each(|what| report.note(what));
    }
    if case.walked_with(Job::larger_gap).is_some_and(|there| case.walks_otherwise(&there)) {
        report.note(NEST_OTHERWISE);
    }
    if case.walked_without_ranks().is_some_and(|there| case.walks_otherwise(there)) {
        report.note(NEST_OTHERWISE_UNRANKED);
    }
}

/// Nothing if the type is in no marked class or has one copy.
fn what_copies(job: &Job, kind: usize) -> Option<&'static str> {
    let in_a_marked_class = job.classes_of(kind).any(|c| c.marked);
    let best = job.best_ranked(kind).filter(|_| in_a_marked_class && job.types[kind].demand > 1)?;
    Some(if best.marked { COPIES } else { COPIES_BEHIND })
}

/// Nothing if neither type's best-ranked class is marked and they share no class that is.
fn what_pair(job: &Job, one: usize, other: usize) -> Option<&'static str> {
    let bests = [one, other].map(|kind| job.best_ranked(kind));
    let marked = bests.iter().flatten().filter(|c| c.marked).count();
    let same = bests[0] == bests[1];
    let cuts: Vec<_> = shared(job, one, other).filter(|c| c.marked).collect();
    let best_of_one = cuts.iter().any(|&c| bests.contains(&Some(c)));
    match marked {
        0 if cuts.is_empty() => None,
        1 if cuts.is_empty() && bests.contains(&None) => Some(ONE_IN_NO_CLASS),
        1 if cuts.is_empty() => Some(ONE_MARKED),
        _ if cuts.is_empty() => Some(NONE_SHARED),
        2 if same => Some(BEST_OF_BOTH),
        _ if same => Some(BEHIND_ONE_CLASS),
        _ if !best_of_one => Some(BEHIND_TWO_CLASSES),
        1 => Some(BEHIND_UNMARKED),
        _ => Some(BEHIND_MARKED),
    }
}
