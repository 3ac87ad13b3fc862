//! The gap that types in no class take, with the mistakes that concern it: whose gap it is, which types take it, and
//! between which pieces it is kept. Those of one service are made there.

use crate::job::{Job, Kind};
use crate::mistaken_cut::{gap_of, largest, least, rank, ALL};
use crate::mutant;

/// Gives the types of a job the gaps that a mistake has for them. The class list is as it stands in the file.
pub fn spoil(job: &mut Job, list: &[u8]) {
    let default = default_gap(job, list);
    let named = named(job);
    let first = job.kinds[..job.kind_count].iter().position(|kind| kind.classes == 0);
    for (place, kind) in job.kinds[..job.kind_count].iter_mut().enumerate() {
        let in_no_class = kind.classes == 0;
        let right = if in_no_class { default } else { kind.gap };
        let unless = |not_taken: bool| if in_no_class && not_taken { 0 } else { right };
        let mistakes = [
            // Not every type in no class takes it.
            ("default_of_the_first_type_alone", unless(Some(place) != first)),
            ("default_only_beside_classed_types", unless(named == 0)),
            ("default_only_without_classed_types", unless(named != 0)),
            // Other types take it too.
            ("default_as_the_least_gap", right.max(default)),
            ("gap_0_as_no_class", if kind.gap == 0 { default } else { right }),
        ];
        kind.gap = mutant::among(&mistakes).unwrap_or(right);
    }
}

fn default_gap(job: &Job, list: &[u8]) -> i32 {
    let largest_of = |mask| gap_of(job, largest(job, mask));
    let of_the_least = |number: fn([u8; 3]) -> i32| gap_of(job, least(job, ALL, number));
    let mut in_file = list.chunks_exact(3).map(|record| 1 << record[0]);
    let first = in_file.next().unwrap_or(0);
    let last = in_file.next_back().unwrap_or(first);
    let classes = job.classes[..job.class_count].iter();
    let below_63 = classes.clone().filter(|[_, _, gap]| *gap < 63).fold(0, |mask, [id, ..]| mask | 1 << id);
    let right = job.largest_gap;
    let no_list = job.class_count == 0;
    let mistakes = [
        // Of no class: as before, as large as can be, or where there is none.
        ("default_0", 0),
        ("default_63", if no_list { 0 } else { 63 }),
        ("default_1_without_classes", if no_list { 1 } else { right }),
        // Of all, of those that a type names, or of one that is found otherwise.
        ("default_of_all_together", classes.map(|[_, _, gap]| i32::from(*gap)).sum()),
        ("default_of_named_classes", largest_of(named(job))),
        ("default_of_the_smallest_gap", of_the_least(|[_, _, gap]| gap.into())),
        ("default_of_the_best_rank", of_the_least(rank)),
        ("default_of_the_worst_rank", of_the_least(|class| -rank(class))),
        ("default_of_the_lowest_id", of_the_least(|[id, ..]| id.into())),
        ("default_of_the_highest_id", of_the_least(|[id, ..]| -i32::from(id))),
        ("default_of_the_first_class", gap_of(job, first)),
        ("default_of_the_last_class", gap_of(job, last)),
        ("no_class_as_every_class", of_the_least(rank)),
        // A class is left out.
        ("default_without_the_first_class", largest_of(!first)),
        ("default_without_the_last_class", largest_of(!last)),
        ("default_without_id_0", largest_of(!1)),
        ("default_without_id_7", largest_of(!(1 << 7))),
        ("default_without_gap_63", largest_of(below_63)),
        // The mark is part of the gap, or keeps a class out, or the others.
        ("default_of_unmarked_classes", largest_of(!job.cuts)),
        ("default_of_marked_classes", largest_of(job.cuts)),
        ("default_of_the_largest_gap_byte", largest_of(if job.cuts == 0 { ALL } else { job.cuts })),
        ("default_with_its_mark", if job.cuts == 0 { right } else { 128 + largest_of(job.cuts) }),
    ];
    mutant::among(&mistakes).unwrap_or(right)
}

/// The classes that some type names, as a mask.
fn named(job: &Job) -> u8 {
    job.kinds[..job.kind_count].iter().fold(0, |mask, kind| mask | kind.classes)
}

/// What a mistake has for a pair of types of which one is in no class, or both are.
pub fn pair_gap(job: &Job, kind: usize, other: usize) -> Option<i32> {
    let (a, b) = (&job.kinds[kind], &job.kinds[other]);
    let (both, some) = (a.classes | b.classes == 0, a.classes == 0 || b.classes == 0);
    let (one, copies) = (some && !both, both && kind == other);
    let own = |kind: &Kind| if kind.classes == 0 { 0 } else { kind.gap };
    let without_default = own(a).max(own(b));
    let largest_is_cut = job.cuts & largest(job, ALL) != 0;
    let mistakes = [
        // It is kept between some of them.
        ("default_only_beside_a_class", both, 0),
        ("default_only_beside_no_class", one, without_default),
        ("default_not_between_copies", copies, 0),
        ("default_only_between_copies", some && !copies, without_default),
        ("default_of_the_first_piece_alone", one && b.classes == 0, a.gap),
        ("default_of_the_second_piece_alone", one && a.classes == 0, b.gap),
        // Both gaps count, or the smaller of them.
        ("default_and_the_other_gap", one, a.gap + b.gap),
        ("default_or_a_smaller_gap", one, a.gap.min(b.gap)),
        // Pieces in no class are cut together, as if they were in the class that has the gap.
        ("copies_in_no_class_share_the_largest_cut", copies && largest_is_cut, 0),
        ("types_in_no_class_share_the_largest_cut", both && !copies && largest_is_cut, 0),
    ];
    mistakes.iter().find(|(name, concerned, _)| *concerned && mutant::is(name)).map(|&(_, _, gap)| gap)
}

/// The class mask of a type as it is told. With the mistake named, a type in no class is told to be in the one whose gap
/// it takes.
pub fn told_classes(job: &Job, classes: u8, mistake: &str) -> u8 {
    if classes == 0 && mutant::is(mistake) {
        largest(job, ALL)
    } else {
        classes
    }
}
