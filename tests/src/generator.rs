//! Random jobs, sound ones and spoilt ones, each with a margin.

mod round_gap;

use crate::draft::*;
use crate::margins;
use crate::noise::Noise;
use crate::shapes::random_part;
use round_gap::{round_gap_draft, strip_draft};

/// A job to try under a margin, and what it was made for.
pub struct Made {
    pub bytes: Vec<u8>,
    pub margin: u64,
    /// The refusal that its bytes were made to cause, 0 for none; nothing where they were hit at random.
    pub intended: Option<u8>,
    /// The same job with its classes in another order.
    pub reordered: Option<Vec<u8>>,
}

pub fn make(noise: &mut Noise) -> Made {
    match noise.below(38) {
        0..=4 => sound(noise, small_draft, usual_margin),
        5 => sound(noise, narrow_draft, margin_past_a_side),
        6 => sound(noise, roomy_draft, usual_margin),
        7..=8 => sound(noise, crowded_draft, usual_margin),
        9 => sound(noise, large_draft, usual_margin),
        10..=16 => sound(noise, common_cut_draft, usual_margin),
        17..=21 => sound(noise, no_class_draft, usual_margin),
        22..=26 => sound(noise, round_gap_draft, seldom_a_margin),
        27..=28 => sound(noise, strip_draft, seldom_a_margin),
        29..=33 => spoilt(noise),
        34..=36 => spoilt_twice(noise),
        _ => hit_at_random(noise),
    }
}

fn sound(noise: &mut Noise, draft: fn(&mut Noise) -> Draft, margin: fn(&mut Noise, &mut Draft) -> u64) -> Made {
    let (mut draft, arrangement) = fitting(noise, draft);
    let margin = margin(noise, &mut draft);
    let bytes = encode(&draft, &arrangement).bytes;
    let reordered = (draft.classes.len() > 1).then(|| {
        let mut other = draft.clone();
        other.classes.rotate_left(1);
        if noise.one_in(2) {
            other.classes.reverse();
        }
        encode(&other, &arrangement).bytes
    });
    Made { bytes, margin, intended: Some(0), reordered }
}

/// A margin that may be passed, for the board as it is or for a larger one.
fn usual_margin(noise: &mut Noise, draft: &mut Draft) -> u64 {
    match noise.below(10) {
        0..=3 => 0,
        4..=5 => margins::for_sides(noise, draft.width, draft.length),
        _ => frame(noise, draft),
    }
}

/// A margin takes from the board the places that two pieces were to stand in, and leaves others like them only if there
/// is room.
fn seldom_a_margin(noise: &mut Noise, draft: &mut Draft) -> u64 {
    if noise.one_in(4) {
        return frame(noise, draft);
    }
    0
}

/// A margin above the shorter side, so that the far clamp would be below 0.
fn margin_past_a_side(noise: &mut Noise, draft: &mut Draft) -> u64 {
    noise.between(i64::from(draft.width.min(draft.length)) + 1, 63) as u64
}

/// Makes the board larger by a margin on each side, so that as much is left between the clamps as there was. The
/// margin is halved until a board of that size may be.
fn frame(noise: &mut Noise, draft: &mut Draft) -> u64 {
    let mut margin = noise.pick(&[1, 1, 1, 2, 2, 3, 4, 6, 10, 62, 63]);
    let framed = |side: u16, margin: u16| side + 2 * margin;
    let dots_along = |side: u16| usize::from(side / draft.step + 1);
    let may_be = |margin: u16| {
        let (width, length) = (framed(draft.width, margin), framed(draft.length, margin));
        width.max(length) <= 1000 && dots_along(width) * dots_along(length) <= 1024
    };
    while !may_be(margin) {
        margin /= 2;
    }
    (draft.width, draft.length) = (framed(draft.width, margin), framed(draft.length, margin));
    margin.into()
}

/// A draft and an arrangement that fit into 1024 bytes; now and then they are filled up to exactly that.
fn fitting(noise: &mut Noise, draft: fn(&mut Noise) -> Draft) -> (Draft, Arrangement) {
    loop {
        let draft = draft(noise);
        let mut arrangement = Arrangement::random(noise);
        let length = encode(&draft, &arrangement).bytes.len();
        if length > 1024 {
            continue;
        }
        if noise.one_in(30) {
            let place = noise.below(4);
            let filler = noise.bytes(1024 - length);
            arrangement.skipped[place].extend(filler);
        }
        return (draft, arrangement);
    }
}

// Sound drafts.

/// A board of a few dozen dots and few pieces, so that all layouts can be looked at.
pub fn small_draft(noise: &mut Noise) -> Draft {
    let step = noise.pick(&[1, 1, 1, 2, 3]);
    let (rows, columns) = (noise.between(1, 5), noise.between(2, 8));
    let within = |noise: &mut Noise| noise.between(0, i64::from(step) - 1);
    let width = (rows * i64::from(step) + within(noise)).max(1);
    let length = columns * i64::from(step) + within(noise);
    let mut draft = Draft::new(width as u16, length as u16, step);
    draft.classes = random_classes(noise, 2);
    let kinds = noise.pick(&[1, 1, 2, 2, 3]);
    let most = noise.pick(&[1, 2, 2, 3]);
    for _ in 0..kinds {
        let size = noise.between(1, 3) * i64::from(step).min(2);
        let mut kind = random_type(noise, size, several_parts);
        kind.demand = noise.between(1, most) as u8;
        kind.class_mask = random_mask(noise, &draft.classes);
        draft.types.push(kind);
    }
    draft
}

/// Few dots far apart and larger pieces: a board of which every margin leaves something.
pub fn roomy_draft(noise: &mut Noise) -> Draft {
    let step = noise.pick(&[20, 31, 32, 45, 50]);
    let side = |noise: &mut Noise, steps: i64| noise.between(4, steps) * i64::from(step) + noise.between(50, 99);
    let (width, length) = (side(noise, 7), side(noise, 9));
    let mut draft = Draft::new(width as u16, length as u16, step);
    draft.classes = random_classes(noise, 20);
    for _ in 0..noise.between(1, 3) {
        let size = noise.pick(&[10, 30, 60, 100]);
        let mut kind = random_type(noise, size, several_parts);
        kind.demand = noise.between(1, 3) as u8;
        kind.class_mask = random_mask(noise, &draft.classes);
        draft.types.push(kind);
    }
    draft
}

/// A short side or two, and pieces far off their dots: between a clamp and no end they would have candidates.
pub fn narrow_draft(noise: &mut Noise) -> Draft {
    let mut sides = [noise.between(1, 20) as u16, noise.pick(&[5, 150, 200])];
    noise.shuffle(&mut sides);
    let mut draft = Draft::new(sides[0], sides[1], 5);
    let (left, down) = (noise.between(30, 60), noise.between(30, 60));
    let parts = vec![random_part(noise, 3, left, down)];
    draft.types.push(DraftType { demand: 1, turn_mask: 15, class_mask: 0, parts });
    draft
}

/// Many small pieces on a small board, most of them fillers if there are classes: long walks, much to look ahead at.
pub fn crowded_draft(noise: &mut Noise) -> Draft {
    let (width, length) = (noise.between(1, 4) as u16, noise.between(2, 9) as u16);
    let mut draft = Draft::new(width, length, 1);
    draft.classes = random_classes(noise, 1);
    let fillers = class_of_fillers(noise, &mut draft.classes);
    let kinds = noise.between(1, 4);
    for _ in 0..kinds {
        let mut kind = small_type(noise);
        kind.demand = noise.between(1, 12 / kinds) as u8;
        kind.class_mask = if noise.one_in(3) { random_mask(noise, &draft.classes) } else { fillers };
        draft.types.push(kind);
    }
    draft
}

/// One of the classes, if there are any, gets a gap of 0. Gives the mask that names it.
fn class_of_fillers(noise: &mut Noise, classes: &mut [[u8; 3]]) -> u8 {
    let hit = noise.below(classes.len().max(1));
    let Some(class) = classes.get_mut(hit) else { return 0 };
    class[2] &= MARK_OF_A_CUT;
    1 << class[0]
}

/// One type of several copies, or two types, on a board where a gap soon takes too much room. Which classes are marked,
/// and which of them each type names, is picked from a list; ids, gaps and the order of the classes fall as they may.
pub fn common_cut_draft(noise: &mut Noise) -> Draft {
    let mut draft = tight_sheet(noise);
    let Cuts { marked, mut named } = noise.pick(&CUTS);
    let mut classes = ids_and_ranks(noise, 4);
    classes.sort_unstable_by_key(|&[_, rank]| rank);
    draft.classes = (0..4).map(|place| cut_class(noise, classes[place], marked.contains(&place))).collect();
    noise.shuffle(&mut named);
    let kinds = noise.pick(&[1, 2, 2, 2, 2]);
    for places in &named[..kinds] {
        let mut kind = small_type(noise);
        kind.demand = few_copies(noise, kinds);
        kind.class_mask = places.iter().fold(0, |mask, &place| mask | 1 << classes[place][0]);
        draft.types.push(kind);
    }
    noise.shuffle(&mut draft.classes);
    draft
}

/// On which a gap soon takes too much room.
fn tight_sheet(noise: &mut Noise) -> Draft {
    let (width, length) = (noise.between(1, 3) as u16, noise.between(4, 9) as u16);
    Draft::new(width, length, 1)
}

/// Several of a type that is alone.
fn few_copies(noise: &mut Noise, kinds: usize) -> u8 {
    (if kinds == 1 { noise.between(2, 3) } else { noise.between(1, 2) }) as u8
}

/// A type in no class, alone or beside others that are in one class or in none, on such a board. Which class has the
/// largest gap, whether it is marked, whether a type names it, and where it stands by rank, by id and in the file, all
/// that falls as it may. In half of the jobs one of several classes is for fillers.
pub fn no_class_draft(noise: &mut Noise) -> Draft {
    let mut draft = tight_sheet(noise);
    let count = noise.pick(&[1, 2, 3, 3, 4, 6]);
    for class in ids_and_ranks(noise, count) {
        let marked = noise.one_in(2);
        draft.classes.push(cut_class(noise, class, marked));
    }
    let fillers = if count > 1 && noise.one_in(2) { class_of_fillers(noise, &mut draft.classes) } else { 0 };
    let kinds = noise.pick(&[1, 2, 2, 3, 3]);
    for place in 0..kinds {
        let mut kind = small_type(noise);
        kind.demand = few_copies(noise, kinds);
        let some_class = 1 << noise.pick(&draft.classes)[0];
        kind.class_mask = if place == 0 { 0 } else { noise.pick(&[0, 0, some_class, some_class, fillers]) };
        draft.types.push(kind);
    }
    noise.shuffle(&mut draft.types);
    draft
}

fn cut_class(noise: &mut Noise, [id, rank]: [u8; 2], marked: bool) -> [u8; 3] {
    let mark = if marked { MARK_OF_A_CUT } else { 0 };
    [id, rank, mark + noise.pick(&[0, 1, 1, 2, 3])]
}

/// Of four classes, from the best-ranked to the last: those that are marked, and those that each of two types names.
#[derive(Clone, Copy)]
struct Cuts {
    marked: &'static [usize],
    named: [&'static [usize]; 2],
}

const CUTS: [Cuts; 27] = [
    // The best-ranked class of both is marked, alone or before others.
    Cuts { marked: &[0], named: [&[0], &[0]] },
    Cuts { marked: &[0], named: [&[0, 2], &[0, 2]] },
    Cuts { marked: &[1], named: [&[1, 2], &[1, 3]] },
    Cuts { marked: &[0, 1], named: [&[0, 1], &[0]] },
    Cuts { marked: &[1, 3], named: [&[1, 2], &[1, 3]] },
    // A marked class is shared, behind one better-ranked class of both.
    Cuts { marked: &[2], named: [&[0, 2], &[0, 2]] },
    Cuts { marked: &[1], named: [&[0, 1], &[0, 1, 2]] },
    Cuts { marked: &[1, 3], named: [&[0, 1, 3], &[0, 3]] },
    // The same, behind another better-ranked class of each.
    Cuts { marked: &[2], named: [&[0, 2], &[1, 2]] },
    Cuts { marked: &[0, 2], named: [&[0, 2], &[1, 2]] },
    Cuts { marked: &[0, 1, 2], named: [&[0, 2], &[1, 2]] },
    // A marked class is the best-ranked of one, and behind an unmarked one of the other.
    Cuts { marked: &[2], named: [&[0, 2], &[2]] },
    Cuts { marked: &[1], named: [&[0, 1], &[1, 3]] },
    Cuts { marked: &[1, 3], named: [&[0, 1, 3], &[1]] },
    // The same, behind a marked one.
    Cuts { marked: &[0, 3], named: [&[0, 3], &[3]] },
    Cuts { marked: &[1, 2], named: [&[1, 2], &[2]] },
    Cuts { marked: &[0, 1], named: [&[0, 1], &[1, 3]] },
    Cuts { marked: &[0, 1], named: [&[0, 1, 2], &[1, 2]] },
    // Each has a marked class as its best-ranked, and they share none that is.
    Cuts { marked: &[0, 1], named: [&[0], &[1]] },
    Cuts { marked: &[0, 2], named: [&[0, 1], &[2]] },
    Cuts { marked: &[0, 1], named: [&[0, 3], &[1, 3]] },
    Cuts { marked: &[1, 2], named: [&[1], &[2, 3]] },
    Cuts { marked: &[2, 3], named: [&[2], &[3]] },
    // Marked classes are named by one of them.
    Cuts { marked: &[1], named: [&[1, 2], &[]] },
    Cuts { marked: &[1], named: [&[1], &[0]] },
    Cuts { marked: &[0], named: [&[0, 1], &[1]] },
    Cuts { marked: &[1], named: [&[0, 1], &[0, 2]] },
];

/// Up to 1024 dots, 8 types and 12 pieces, with parts of every size.
pub fn large_draft(noise: &mut Noise) -> Draft {
    let (width, length, step) = noise.pick(&[
        (31, 31, 1),
        (1, 511, 1),
        (511, 1, 1),
        (15, 63, 1),
        (93, 95, 3),
        (1000, 1000, 33),
        (1000, 1000, 300),
        (340, 2, 1),
        (1000, 1000, 32),
        (20, 30, 2),
        (300, 200, 10),
        (40, 24, 2),
        (7, 100, 1),
        (1, 1, 1000),
        (127, 254, 127),
    ]);
    let mut draft = Draft::new(width, length, step);
    let most_gap = noise.pick(&[0, 3, 63]);
    draft.classes = random_classes(noise, most_gap);
    let mut left = 12;
    let kinds = noise.between(1, 8) as usize;
    for place in 0..kinds {
        let size = noise.pick(&[1, 3, 10, 40, 120]);
        let mut kind = random_type(noise, size, several_parts);
        let reserved = (kinds - place - 1) as i64;
        let demand = noise.between(1, (left - reserved).min(6));
        left -= demand;
        kind.demand = demand as u8;
        kind.class_mask = random_mask(noise, &draft.classes);
        draft.types.push(kind);
    }
    draft
}

/// Added to a gap, it marks the class as common cut.
const MARK_OF_A_CUT: u8 = 128;

fn random_classes(noise: &mut Noise, most_gap: i64) -> Vec<[u8; 3]> {
    let count = noise.pick(&[0, 1, 2, 3, 5, 8]);
    ids_and_ranks(noise, count).iter().map(|&[id, rank]| [id, rank, random_gap(noise, most_gap)]).collect()
}

/// Ids and ranks of so many classes; no id and no rank twice.
fn ids_and_ranks(noise: &mut Noise, count: usize) -> Vec<[u8; 2]> {
    let mut ids: Vec<u8> = (0..8).collect();
    noise.shuffle(&mut ids);
    let mut classes: Vec<[u8; 2]> = Vec::new();
    while classes.len() < count {
        let rank = if noise.one_in(2) { noise.byte() } else { noise.below(12) as u8 };
        if classes.iter().all(|c| c[1] != rank) {
            classes.push([ids[classes.len()], rank]);
        }
    }
    classes
}

/// A gap byte that may be, with a mark or without.
fn random_gap(noise: &mut Noise, most_gap: i64) -> u8 {
    let gap = if noise.one_in(8) { noise.between(62, 63) } else { noise.between(0, most_gap) };
    let mark = if noise.one_in(3) { MARK_OF_A_CUT } else { 0 };
    mark + gap as u8
}

/// Some of the classes that there are.
fn random_mask(noise: &mut Noise, classes: &[[u8; 3]]) -> u8 {
    classes.iter().filter(|_| noise.one_in(2)).fold(0, |mask, c| mask | 1 << c[0])
}

fn random_type(noise: &mut Noise, size: i64, parts: fn(&mut Noise, i64) -> Vec<DraftPart>) -> DraftType {
    let turn_mask = noise.pick(&[1, 1, 2, 3, 4, 5, 8, 10, 15, 15]);
    DraftType { demand: 1, turn_mask, class_mask: 0, parts: parts(noise, size) }
}

/// A small one of one part.
fn small_type(noise: &mut Noise) -> DraftType {
    let size = noise.between(1, 2);
    random_type(noise, size, |noise, size| vec![random_part(noise, size, 0, 0)])
}

fn several_parts(noise: &mut Noise, size: i64) -> Vec<DraftPart> {
    let count = noise.pick(&[1, 1, 1, 1, 2, 2, 3, 6]);
    let reach = if noise.one_in(3) { size.min(4) } else { 0 };
    let (left, down) = (noise.between(-reach, reach), noise.between(-reach, reach));
    (0..count).map(|_| random_part(noise, size, left, down)).collect()
}

// Spoilt jobs: one cause, aimed at one refusal; or two of them, of which the earlier one counts.

fn spoilt(noise: &mut Noise) -> Made {
    let number = noise.between(1, 7) as u8;
    spoilt_for(noise, &[number])
}

fn spoilt_twice(noise: &mut Noise) -> Made {
    let numbers = [noise.between(1, 7) as u8, noise.between(3, 7) as u8];
    spoilt_for(noise, &numbers)
}

fn spoilt_for(noise: &mut Noise, numbers: &[u8]) -> Made {
    let draft = if noise.one_in(6) { large_draft } else { small_draft };
    let encoded = loop {
        let mut draft = fitting(noise, draft).0;
        // From the last to the first, so that no later cause undoes an earlier one.
        for number in (4..=7).rev().filter(|n| numbers.contains(n)) {
            spoil_draft(noise, &mut draft, number);
        }
        let encoded = encode(&draft, &Arrangement::random(noise));
        if encoded.bytes.len() <= 1024 {
            break encoded;
        }
    };
    let mut encoded = encoded;
    for number in (1..=3).rev().filter(|n| numbers.contains(n)) {
        spoil_bytes(noise, &mut encoded, number);
    }
    let margin = margins::any(noise);
    Made { bytes: encoded.bytes, margin, intended: numbers.iter().copied().min(), reordered: None }
}

fn spoil_draft(noise: &mut Noise, draft: &mut Draft, number: u8) {
    match number {
        4 => spoil_board(noise, draft),
        5 => spoil_classes(noise, draft),
        6 => spoil_types(noise, draft),
        _ => spoil_part(noise, draft),
    }
}

fn spoil_board(noise: &mut Noise, draft: &mut Draft) {
    let bad = noise.pick(&[0, 1001, 1024, 32768, 65535]);
    match noise.below(4) {
        0 => draft.width = bad,
        1 => draft.length = bad,
        2 => draft.step = bad,
        _ => {
            // The first has 1025 dots, the second 1026.
            let boards = [(40, 24, 1), (1, 512, 1), (512, 1, 1), (31, 32, 1), (1000, 1000, 31), (1000, 1000, 1)];
            (draft.width, draft.length, draft.step) = noise.pick(&boards);
        }
    }
}

fn spoil_classes(noise: &mut Noise, draft: &mut Draft) {
    let cause = noise.below(6);
    if cause == 5 {
        // Nine and more, which cannot have nine ids; or as many as a byte can count.
        let count = noise.pick(&[9, 9, 10, 255]);
        draft.classes = (0..count).map(|i| [i as u8, i as u8, 1]).collect();
        draft.types.truncate(2);
        return;
    }
    while draft.classes.len() < 2 || draft.classes.len() > 7 {
        draft.classes = random_classes(noise, 2);
    }
    let (one, other) = (draft.classes[0], noise.between(1, draft.classes.len() as i64 - 1) as usize);
    // 64 to 127 or 192 to 255.
    let bad_gap = 64 | noise.byte();
    let place = &mut draft.classes[other];
    match cause {
        0 => place[0] = noise.pick(&[8, 9, 128, 255]),
        1 | 2 => place[2] = noise.pick(&[64, 127, 192, 255, bad_gap]),
        3 => place[0] = one[0],
        _ => place[1] = one[1],
    }
}

fn spoil_types(noise: &mut Noise, draft: &mut Draft) {
    let hit = noise.below(draft.types.len());
    let absent: Vec<u8> = (0..8).filter(|id| draft.classes.iter().all(|c| c[0] != *id)).collect();
    let kind = &mut draft.types[hit];
    match noise.below(14) {
        0 => kind.demand = noise.pick(&[0, 13, 128, 255]),
        1 => kind.turn_mask = noise.pick(&[0, 16, 17, 128, 255]),
        2 if !absent.is_empty() => kind.class_mask |= 1 << noise.pick(&absent),
        3 => kind.parts.clear(),
        4 => kind.parts = vec![vec![(0, 0), (1, 0), (0, 1)]; 7],
        5 => kind.parts[0] = vec![(0, 0), (1, 0)],
        6 => kind.parts[0] = (-4..=4).map(|x| (x, x * x)).collect(),
        7 => {
            draft.types.clear();
            draft.extra = vec![];
        }
        8 => {
            let small = DraftType { demand: 1, turn_mask: 1, class_mask: 0, parts: vec![vec![(0, 0), (1, 0), (0, 1)]] };
            draft.types = vec![small; 9];
        }
        9 => {
            // Each demand is in range, but they sum to 13.
            let mut first = draft.types[0].clone();
            first.demand = 6;
            draft.types = vec![first; 2];
            draft.types[1].demand = 7;
        }
        10 => {
            let count = noise.between(1, 5) as usize;
            draft.extra = noise.bytes(count);
        }
        11 => draft.missing = 1 + noise.below(5),
        12 => draft.stated_types = Some(draft.types.len() as u8 + noise.pick(&[1, 2, 247])),
        _ => draft.stated_types = Some(draft.types.len() as u8 - 1),
    }
}

fn spoil_part(noise: &mut Noise, draft: &mut Draft) {
    let hit = noise.below(draft.types.len());
    let parts = &mut draft.types[hit].parts;
    let hit = noise.below(parts.len());
    let part = &mut parts[hit];
    match noise.below(9) {
        0 => part.reverse(),
        // A corner in line with its neighbours, at every place of the list.
        1 => *part = turned_list(noise, &[(0, 0), (2, 0), (4, 0), (4, 3), (0, 3)]),
        2 => {
            let twice = part[part.len() - 1];
            part[0] = twice;
        }
        // A five-pointed star: each corner turns left.
        3 => *part = turned_list(noise, &[(0, 10), (-6, -8), (10, 3), (-10, 3), (6, -8)]),
        4 => *part = turned_list(noise, &[(0, 0), (4, 0), (4, 4), (2, 1)]),
        5 => *part = turned_list(noise, &[(-128, 0), (0, 0), (0, 1), (-128, 1)]),
        6 => *part = turned_list(noise, &[(0, -128), (1, -128), (1, 0), (0, 0)]),
        7 => *part = vec![(-128, -128), (127, -128), (127, 127), (-128, 127)],
        // Once around and once more.
        _ => *part = turned_list(noise, &[(0, 0), (3, 0), (0, 3), (0, 0), (3, 0), (0, 3)]),
    }
}

fn turned_list(noise: &mut Noise, corners: &[(i8, i8)]) -> DraftPart {
    let mut part = corners.to_vec();
    part.rotate_left(noise.below(corners.len()));
    part
}

fn spoil_bytes(noise: &mut Noise, job: &mut Encoded, number: u8) {
    match number {
        1 => spoil_size(noise, &mut job.bytes),
        2 => spoil_mark(noise, job),
        _ => spoil_sections(noise, job),
    }
}

fn spoil_size(noise: &mut Noise, bytes: &mut Vec<u8>) {
    match noise.below(4) {
        0 => bytes.truncate(noise.pick(&[0, 1, 2, 13])),
        1 => bytes.truncate(noise.below(14)),
        // The last bytes only: a trailer that lacks its beginning.
        2 => {
            let keep = noise.below(14);
            bytes.drain(..bytes.len() - keep);
        }
        // One byte more than may be, or many; mark and stated length are right.
        _ => {
            let wanted = noise.pick(&[1025, 1026, 1500, 2000]);
            let trailer = bytes.split_off(bytes.len() - TRAILER);
            let filler = noise.bytes(wanted - TRAILER - bytes.len());
            bytes.extend(filler);
            bytes.extend(trailer);
            bytes[wanted - 4..wanted - 2].copy_from_slice(&(wanted as u16).to_le_bytes());
        }
    }
}

fn spoil_mark(noise: &mut Noise, job: &mut Encoded) {
    let length = job.bytes.len() as u16;
    match noise.below(6) {
        0 => job.set_byte(MARK, noise.pick(&[0, 0x42, 0x45, 0x64])),
        1 => job.set_byte(MARK + 1, noise.pick(&[0, 0x44, 0x32, 0x43])),
        2 => job.set_number(STATED_LENGTH, length - 1),
        3 => job.set_number(STATED_LENGTH, length + 1),
        4 => job.set_number(STATED_LENGTH, length ^ 0x0100),
        _ => job.set_number(STATED_LENGTH, noise.pick(&[0, 14, 65535]) ^ u16::from(length == 14)),
    }
}

fn spoil_sections(noise: &mut Noise, job: &mut Encoded) {
    let trailer_at = job.trailer_at();
    let hit = noise.below(3);
    let (_, length) = job.sections[hit];
    match noise.below(6) {
        // One byte past what may be, also for an empty section.
        0 => job.set_number(SECTION_OFFSET[hit], (trailer_at - length + 1) as u16),
        // Far past it; offset plus length may leave two bytes.
        1 => job.set_number(SECTION_OFFSET[hit], noise.pick(&[65535, 65535 - 5, 65535 - 2, 40000, 1025])),
        // A list that runs past it by its length alone, by one byte and by many.
        2 => {
            let room = trailer_at - job.sections[2].0;
            job.set_number(TYPE_LIST_LENGTH, noise.pick(&[room + 1, room + TRAILER, 65535]) as u16);
        }
        3 => {
            let room = (trailer_at - job.sections[1].0) / 3;
            job.set_byte(CLASS_COUNT, if room < 255 { noise.pick(&[room + 1, 255]) as u8 } else { 255 });
            if room >= 255 {
                job.set_number(SECTION_OFFSET[1], 65535);
            }
        }
        _ => overlap(noise, job),
    }
}

/// Moves a section so that it shares its first or last byte, or more, with another one. An empty section
/// has no byte to share; where only the board has one, the board is moved past the end instead.
fn overlap(noise: &mut Noise, job: &mut Encoded) {
    let mut filled: Vec<usize> = (0..3).filter(|&section| job.sections[section].1 > 0).collect();
    noise.shuffle(&mut filled);
    let [moved, other, ..] = filled[..] else {
        return job.set_number(SECTION_OFFSET[0], job.trailer_at() as u16 - 5);
    };
    let ((at, length), (_, own)) = (job.sections[other], job.sections[moved]);
    let wanted = match noise.below(3) {
        0 => at + length - 1,
        1 => (at + 1).saturating_sub(own),
        _ => at,
    };
    job.set_number(SECTION_OFFSET[moved], wanted as u16);
}

/// Flipped bits, noise bytes, cuts and additions anywhere; the reference says what they cause.
fn hit_at_random(noise: &mut Noise) -> Made {
    let (draft, arrangement) = fitting(noise, small_draft);
    let mut bytes = encode(&draft, &arrangement).bytes;
    for _ in 0..noise.pick(&[1, 1, 2, 3, 10]) {
        let at = noise.below(bytes.len());
        match noise.below(3) {
            0 => bytes[at] ^= 1 << noise.below(8),
            1 => bytes[at] = noise.byte(),
            _ => bytes[at] = bytes[at].wrapping_add(noise.pick(&[1, 255])),
        }
    }
    if noise.one_in(6) {
        bytes.truncate(noise.below(bytes.len()));
    } else if noise.one_in(6) {
        let count = noise.between(1, 30) as usize;
        bytes.extend(noise.bytes(count));
    }
    Made { bytes, margin: margins::any(noise), intended: None, reordered: None }
}
