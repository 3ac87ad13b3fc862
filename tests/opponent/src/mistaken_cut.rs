//! Common cut with the mistakes that concern it: which class of a type counts as its cut, which two types are cut
//! together, and what gap the others get.

use crate::job::Job;
use crate::mistaken_default;
use crate::mutant;

/// Every class.
pub const ALL: u8 = 255;

/// The classes that count as the cut of a type with this mask, whose best-ranked class is given.
pub fn of_type(job: &Job, mask: u8, best: u8) -> u8 {
    let (marked, named) = (job.cuts, job.cuts & mask);
    let right = marked & best;
    let highest_id = least(job, mask, |[id, ..]| -i32::from(id));
    let place = job.classes[..job.class_count].iter().position(|[id, ..]| 1 << id == best).unwrap_or(0);
    let mistakes = [
        // No class is one; or marked classes are left out of the gap alone.
        ("mark_ignored", 0),
        ("marked_class_not_ranked", marked & least(job, mask, rank)),
        // The rank is not asked, or not of all classes.
        ("cut_without_rank", named),
        ("best_of_the_marked_classes", least(job, named, rank)),
        ("only_unmarked_classes_outrank", marked_before_unmarked(job, mask)),
        ("gap_0_outranks_nothing", marked & least(job, mask & (marked | with_a_gap(job)), rank)),
        // Another class than the best-ranked.
        ("cut_of_the_worst_rank", marked & least(job, mask, |class| -rank(class))),
        ("cut_of_the_largest_gap", marked & largest(job, mask)),
        ("cut_of_the_lowest_id", marked & least(job, mask, |[id, ..]| id.into())),
        ("cut_of_the_highest_id", marked & highest_id),
        // The mark of another class, or of none.
        ("mark_of_the_highest_id", if marked & highest_id != 0 { best } else { 0 }),
        ("mark_of_the_place", if marked >> place & 1 == 1 { best } else { 0 }),
        ("mark_of_any_class", if named != 0 { best } else { 0 }),
        ("mark_not_asked", best),
        // Not for every class, and for no class.
        ("cut_only_where_alone", if mask == best { right } else { 0 }),
        ("class_0_never_cut", right & !1),
        ("class_7_never_cut", right & !(1 << 7)),
        ("no_class_as_class_0", if mask == 0 { marked & 1 } else { right }),
        ("no_class_as_every_class", if mask == 0 { marked & least(job, ALL, rank) } else { right }),
        ("no_class_as_the_largest_gap", if mask == 0 { marked & largest(job, ALL) } else { right }),
    ];
    mutant::among(&mistakes).unwrap_or(right)
}

/// Of a pair of types, under a margin.
pub fn pair_gap(job: &Job, kind: usize, other: usize, margin: i32) -> i32 {
    if let Some(mistaken) = mistaken_default::pair_gap(job, kind, other) {
        return mistaken;
    }
    if cut_together(job, kind, other) {
        return 0;
    }
    let (a, b) = (&job.kinds[kind], &job.kinds[other]);
    let of_both = a.classes | b.classes;
    let shared = job.cuts & a.classes & b.classes;
    // Pairs that share a marked class, though it is not their common cut, get another gap.
    let outranked = [
        ("outranked_cut_smaller_gap", a.gap.min(b.gap)),
        ("outranked_cut_own_gap", gap_of(job, least(job, shared, rank))),
        ("outranked_cut_gap_of_the_better_rank", gap_of(job, least(job, of_both, rank))),
        ("outranked_cut_largest_gap", gap_of(job, largest(job, of_both))),
    ];
    let mistaken = mutant::among(&outranked).filter(|_| shared != 0);
    let others = [("smaller_pair_gap", a.gap.min(b.gap)), ("margin_in_the_gap", a.gap.max(b.gap) + margin)];
    mistaken.or(mutant::among(&others)).unwrap_or(a.gap.max(b.gap))
}

fn cut_together(job: &Job, kind: usize, other: usize) -> bool {
    let (a, b) = (&job.kinds[kind], &job.kinds[other]);
    let right = a.cut & b.cut != 0;
    let (shared, of_both) = (a.classes & b.classes, a.classes | b.classes);
    let each_cut = a.cut != 0 && b.cut != 0;
    let mistakes = [
        // One of the two is not asked, or not for its best-ranked class.
        ("mark_of_one_piece_suffices", a.cut | b.cut != 0),
        ("best_of_the_first_suffices", a.cut & b.classes != 0),
        ("best_of_the_second_suffices", b.cut & a.classes != 0),
        ("best_of_one_suffices", a.cut & b.classes | b.cut & a.classes != 0),
        ("best_of_the_shared_classes", job.cuts & least(job, shared, rank) != 0),
        ("best_of_all_their_classes", job.cuts & least(job, of_both, rank) != 0),
        // Different classes count, or more than the best-ranked one has to be shared.
        ("different_marks_shared", each_cut),
        ("equal_gaps_suffice", each_cut && a.gap == b.gap),
        ("any_shared_class_suffices", shared != 0),
        ("every_mark_must_be_shared", right && job.cuts & (a.classes ^ b.classes) == 0),
        ("every_class_must_be_shared", right && a.classes == b.classes),
        // Copies of one type, and pieces of two, by rules of their own.
        ("copies_do_not_share", right && kind != other),
        ("only_copies_share", right && kind == other),
        ("copies_without_rank", right || kind == other && job.cuts & shared != 0),
        ("types_without_rank", right || kind != other && job.cuts & shared != 0),
    ];
    mutant::among(&mistakes).unwrap_or(right)
}

pub fn rank([_, rank, _]: [u8; 3]) -> i32 {
    rank.into()
}

/// The class of the mask with the least number, as a mask of that one; none for none.
pub fn least(job: &Job, mask: u8, number: impl Fn([u8; 3]) -> i32) -> u8 {
    let named = job.classes[..job.class_count].iter().filter(|[id, ..]| mask >> id & 1 == 1);
    named.min_by_key(|&&class| number(class)).map_or(0, |[id, ..]| 1 << id)
}

/// The class of the mask with the largest gap, likewise.
pub fn largest(job: &Job, mask: u8) -> u8 {
    least(job, mask, |[_, _, gap]| -i32::from(gap))
}

/// The marked classes of the mask that no unmarked one of it comes before.
fn marked_before_unmarked(job: &Job, mask: u8) -> u8 {
    let unmarked = least(job, mask & !job.cuts, rank);
    let each_marked = (0..8).map(|id| 1 << id & mask & job.cuts);
    each_marked.filter(|class| least(job, unmarked | class, rank) == *class).fold(0, |all, class| all | class)
}

/// The gap of the class of a mask of one.
pub fn gap_of(job: &Job, class: u8) -> i32 {
    job.classes[..job.class_count].iter().find(|[id, ..]| class >> id & 1 == 1).map_or(0, |&[_, _, gap]| gap.into())
}

/// The classes with a gap above 0, as a mask.
fn with_a_gap(job: &Job) -> u8 {
    let classes = job.classes[..job.class_count].iter().filter(|[_, _, gap]| *gap > 0);
    classes.fold(0, |mask, [id, ..]| mask | 1 << id)
}
