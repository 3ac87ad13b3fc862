//! Counts the jobs that tell the gap of a type in no class from what might be taken for it.

use nest_tests::reference::reader::{Class, Job};

use crate::case::Case;
use crate::report::Report;
use crate::saving::class_ids;

/// The class whose gap might be taken for that of a type in no class: of all in the order of the file, and with the ids
/// that some type names. No class stands for no gap.
type Mistaken = fn(&[Class], u8) -> Option<&Class>;

/// What is told of a job with such types where that would be another gap.
const MISTAKEN: [(&str, Mistaken); 11] = [
    ("jobs whose types in no class have a gap", |_, _| None),
    ("jobs whose types in no class have not the smallest gap", |all, _| all.iter().min_by_key(|c| c.gap)),
    ("jobs whose types in no class have a gap of classes that no type names", |all, named| {
        largest(all, |c| named >> c.id & 1 == 1)
    }),
    ("jobs whose types in no class have not the best-ranked gap", |all, _| all.iter().min_by_key(|c| c.rank)),
    ("jobs whose types in no class have not the last-ranked gap", |all, _| all.iter().max_by_key(|c| c.rank)),
    ("jobs whose types in no class have not the gap of the lowest id", |all, _| all.iter().min_by_key(|c| c.id)),
    ("jobs whose types in no class have not the gap of the highest id", |all, _| all.iter().max_by_key(|c| c.id)),
    ("jobs whose types in no class have not the first gap in the file", |all, _| all.first()),
    ("jobs whose types in no class have not the last gap in the file", |all, _| all.last()),
    ("jobs whose types in no class have a gap of marked classes", |all, _| largest(all, |c| !c.marked)),
    ("jobs whose types in no class have a gap of unmarked classes", |all, _| largest(all, |c| c.marked)),
];

const COPIES: &str = "types of several copies in no class, with a gap";
const COPIES_BESIDE_A_CUT: &str = "types of several copies in no class, with a gap of marked classes";
const PAIR: &str = "pairs of types in no class, with a gap";
const PAIR_BESIDE_A_CUT: &str = "pairs of types in no class, with a gap of marked classes";
const SAME_GAP_IN_A_CUT: &str =
    "pairs of types of which one is in no class, and the other's best-ranked class is marked and has the same gap";
const GAP_0: &str =
    "pairs of types of which one is in no class, with a gap, and the other's best-ranked class has gap 0";
const SMALLER_GAP: &str = "pairs of types of which one is in no class, and the other's gap is smaller, but not 0";
const WITHOUT_CLASSES: &str = "jobs without classes";
const NEST_OTHERWISE: &str = "jobs that nest otherwise where types in no class have no gap";

/// All that is counted.
pub fn counted_things() -> impl Iterator<Item = &'static str> {
    let of_types = [COPIES, COPIES_BESIDE_A_CUT, PAIR, PAIR_BESIDE_A_CUT, SAME_GAP_IN_A_CUT, GAP_0, SMALLER_GAP];
    MISTAKEN.iter().map(|&(what, _)| what).chain(of_types).chain([WITHOUT_CLASSES, NEST_OTHERWISE])
}

pub fn count(case: &Case, report: &mut Report) {
    let Ok(board) = &case.clamped else { return };
    let job = &board.job;
    let mut seen = vec![(WITHOUT_CLASSES, job.classes.is_empty())];
    if (0..job.types.len()).any(|kind| in_no_class(job, kind)) {
        seen.extend(mistaken_for(job, &in_file_order(case, job)));
    }
    for kind in 0..job.types.len() {
        seen.extend(copies(job, kind));
        seen.extend((0..kind).flat_map(|before| pair(job, before, kind)));
    }
    let otherwise = case.walked_without_default().is_some_and(|there| case.walks_otherwise(there));
    seen.push((NEST_OTHERWISE, otherwise));
    seen.into_iter().filter(|&(_, holds)| holds).for_each(|(what, _)| report.note(what));
}

fn in_no_class(job: &Job, kind: usize) -> bool {
    job.types[kind].class_mask == 0
}

fn in_file_order(case: &Case, job: &Job) -> Vec<Class> {
    let of_id = |id| job.classes.iter().find(|class| class.id == id).copied();
    class_ids(case, job).into_iter().filter_map(of_id).collect()
}

fn largest(classes: &[Class], counts: impl Fn(&Class) -> bool) -> Option<&Class> {
    classes.iter().filter(|class| counts(class)).max_by_key(|class| class.gap)
}

fn mistaken_for(job: &Job, classes: &[Class]) -> Vec<(&'static str, bool)> {
    let named = job.types.iter().fold(0, |mask, kind| mask | kind.class_mask);
    let another = |class: Option<&Class>| class.map_or(0, |class| class.gap.into()) != job.largest_gap();
    MISTAKEN.iter().map(|&(what, mistaken)| (what, another(mistaken(classes, named)))).collect()
}

/// Whether a type in no class has a gap, and whether marked classes alone have that gap.
fn with_a_gap(job: &Job) -> [bool; 2] {
    let of_unmarked = largest(&job.classes, |class| !class.marked).map_or(0, |class| class.gap.into());
    [job.largest_gap() > 0, job.largest_gap() > of_unmarked]
}

fn copies(job: &Job, kind: usize) -> Vec<(&'static str, bool)> {
    let several = in_no_class(job, kind) && job.types[kind].demand > 1;
    let [gap, of_marked] = with_a_gap(job).map(|holds| holds && several);
    vec![(COPIES, gap), (COPIES_BESIDE_A_CUT, of_marked)]
}

fn pair(job: &Job, one: usize, other: usize) -> Vec<(&'static str, bool)> {
    let classed = match [one, other].map(|kind| job.best_ranked(kind)) {
        [None, None] => {
            let [gap, of_marked] = with_a_gap(job);
            return vec![(PAIR, gap), (PAIR_BESIDE_A_CUT, of_marked)];
        }
        [Some(class), None] | [None, Some(class)] => class,
        [Some(_), Some(_)] => return vec![],
    };
    let (gap, largest) = (i64::from(classed.gap), job.largest_gap());
    vec![
        (SAME_GAP_IN_A_CUT, classed.marked && gap == largest && gap > 0),
        (GAP_0, gap == 0 && largest > 0),
        (SMALLER_GAP, gap > 0 && gap < largest),
    ]
}
