//! The job's bytes, read into fixed arrays without a heap.

use crate::mistaken_cut;
use crate::mistaken_default;
use crate::mutant;

#[derive(Clone, Copy, Default, Debug)]
pub struct Part {
    pub corners: usize,
    pub x: [i32; 8],
    pub y: [i32; 8],
}

#[derive(Clone, Copy, Default, Debug)]
pub struct Kind {
    pub demand: usize,
    pub turns: u8,
    pub classes: u8,
    /// Its best-ranked class, as a mask of that one, if it is marked as common cut.
    pub cut: u8,
    pub gap: i32,
    pub part_count: usize,
    pub parts: [Part; 6],
}

#[derive(Clone, Copy, Default, Debug)]
pub struct Job {
    pub width: i32,
    pub length: i32,
    pub step: i32,
    pub rows: usize,
    pub columns: usize,
    pub class_count: usize,
    /// Id, rank and gap, by rising id.
    pub classes: [[u8; 3]; 8],
    /// The ids of those that are marked as common cut, as a mask.
    pub cuts: u8,
    /// The largest of all gaps, which types in no class take.
    pub largest_gap: i32,
    pub kind_count: usize,
    pub kinds: [Kind; 8],
    pub pieces: usize,
}

impl Job {
    pub fn words(&self) -> usize {
        (self.rows * self.columns).div_ceil(16)
    }
}

fn word(bytes: &[u8], at: usize) -> usize {
    usize::from(u16::from_le_bytes([bytes[at], bytes[at + 1]]))
}

/// Offset and length of the board, the class list and the type list, as the trailer states them.
pub fn sections(trailer: &[u8]) -> [(usize, usize); 3] {
    let t = trailer;
    [(word(t, 0), 6), (word(t, 2), 3 * t[8] as usize), (word(t, 4), word(t, 6))]
}

pub fn read(bytes: &[u8]) -> Result<Job, u8> {
    let mut job = Job::default();
    read_records(&mut job, bytes)?;
    for kind in &job.kinds[..job.kind_count] {
        for part in &kind.parts[..kind.part_count] {
            if !part.good() {
                return Err(7);
            }
        }
    }
    Ok(job)
}

/// All but the soundness of parts.
pub fn read_records(job: &mut Job, bytes: &[u8]) -> Result<(), u8> {
    if bytes.len() < 14 || bytes.len() > 1024 {
        return Err(1);
    }
    let end = bytes.len() - 14;
    let t = &bytes[end..];
    if t[12] != 0x44 || t[13] != 0x42 || word(t, 10) != bytes.len() {
        return Err(2);
    }
    let sections = sections(t);
    check_sections(&sections, end)?;
    let [board, classes, list] = sections.map(|(at, length)| &bytes[at..at + length]);
    read_board(job, board)?;
    read_classes(job, classes)?;
    if mutant::is("seven_before_six") {
        // Judges each part as it comes.
        read_kinds(job, list, t[9] as usize, true)?;
    }
    read_kinds(job, list, t[9] as usize, false)?;
    if !mutant::none() {
        mistaken_default::spoil(job, classes);
    }
    Ok(())
}

fn check_sections(sections: &[(usize, usize); 3], end: usize) -> Result<(), u8> {
    for &(at, length) in sections {
        let stop = if mutant::is("offset_wraps") { (at + length) % 65_536 } else { at + length };
        if stop > end {
            return Err(3);
        }
        if at + length > end {
            // Only the mutant comes here; it must not read past the job.
            return Err(4);
        }
    }
    for i in 0..3 {
        for j in 0..i {
            let ((a, m), (b, n)) = (sections[i], sections[j]);
            let empty = m == 0 || n == 0;
            let skip = empty && !mutant::is("empty_section_shares");
            if !skip && a < b + n.max(1) && b < a + m.max(1) {
                return Err(3);
            }
        }
    }
    Ok(())
}

fn read_board(job: &mut Job, bytes: &[u8]) -> Result<(), u8> {
    let (w, l, g) = (word(bytes, 0), word(bytes, 2), word(bytes, 4));
    let good = |n: usize| (1..=1000).contains(&n);
    if !good(w) || !good(l) || !good(g) {
        return Err(4);
    }
    (job.width, job.length, job.step) = (w as i32, l as i32, g as i32);
    (job.rows, job.columns) = (w / g + 1, l / g + 1);
    let most = if mutant::is("dots_not_limited") { 1025 } else { 1024 };
    if job.rows * job.columns > most {
        return Err(4);
    }
    Ok(())
}

fn read_classes(job: &mut Job, list: &[u8]) -> Result<(), u8> {
    if list.len() > 24 {
        return Err(5);
    }
    let (mut ids, mut ranks) = (0u8, [0u64; 4]);
    for record in list.chunks_exact(3) {
        let [id, rank, byte] = [record[0], record[1], record[2]];
        let good = id <= 7 && good_gap(byte);
        if !good || ids >> id & 1 == 1 || ranks[rank as usize / 64] >> (rank % 64) & 1 == 1 {
            return Err(5);
        }
        ids |= 1 << id;
        ranks[rank as usize / 64] |= 1 << (rank % 64);
        let (gap, mark) = gap_and_mark(byte);
        job.classes[job.class_count] = [id, rank, gap];
        job.largest_gap = job.largest_gap.max(gap.into());
        // A mistake: the place in the list in the place of the id.
        job.cuts |= mark << if mutant::is("marked_by_place") { job.class_count } else { id.into() };
        job.class_count += 1;
    }
    if !mutant::is("last_gap") && !mutant::is("classes_in_file_order") {
        job.classes[..job.class_count].sort_unstable();
    }
    Ok(())
}

/// A gap byte of 0 to 63 or of 128 to 191. The mistakes: a limit is off by one.
fn good_gap(byte: u8) -> bool {
    let limits = [
        ("gap_byte_63_refused", 63),
        ("gap_byte_64_accepted", 64),
        ("gap_byte_127_accepted", 127),
        ("gap_byte_128_refused", 128),
        ("gap_byte_191_refused", 191),
        ("gap_byte_192_accepted", 192),
    ];
    let off_by_one = limits.iter().any(|&(mistake, limit)| byte == limit && mutant::is(mistake));
    (byte & 64 == 0) != off_by_one
}

/// What a gap byte means. The mistakes: a marked class has 1 more, or its mark is lost where its gap is 0.
fn gap_and_mark(byte: u8) -> (u8, u8) {
    let (gap, mark) = (byte & 127, byte >> 7);
    let more = mark * u8::from(mutant::is("gap_byte_minus_127"));
    let lost = gap == 0 && mutant::is("mark_of_gap_0_lost");
    (gap + more, if lost { 0 } else { mark })
}

/// A type of these four fields, with its parts still to be read.
fn kind_of(job: &Job, head: &[u8]) -> Kind {
    let (best, gap) = if head[2] == 0 { (0, job.largest_gap) } else { best_ranked(job, head[2]) };
    Kind {
        demand: head[0] as usize,
        turns: head[1],
        classes: head[2],
        cut: if mutant::none() { job.cuts & best } else { mistaken_cut::of_type(job, head[2], best) },
        gap,
        part_count: head[3] as usize,
        ..Kind::default()
    }
}

fn read_kinds(job: &mut Job, list: &[u8], count: usize, soundness_at_once: bool) -> Result<(), u8> {
    if count == 0 || count > 8 {
        return Err(6);
    }
    let there = job.classes[..job.class_count].iter().fold(0u8, |ids, c| ids | 1 << c[0]);
    let mut at = 0;
    job.pieces = 0;
    job.kind_count = count;
    for k in 0..count {
        let head = list.get(at..at + 4).ok_or(6u8)?;
        at += 4;
        let mut kind = kind_of(job, head);
        let good = (1..=12).contains(&kind.demand) && (1..=15).contains(&kind.turns);
        if !good || head[2] & !there != 0 || !(1..=6).contains(&kind.part_count) {
            return Err(6);
        }
        for part in &mut kind.parts[..kind.part_count] {
            at += read_part(part, &list[at..])?;
            if soundness_at_once && !part.good() {
                return Err(7);
            }
        }
        job.pieces += kind.demand;
        job.kinds[k] = kind;
    }
    if job.pieces > 12 || at != list.len() {
        return Err(6);
    }
    Ok(())
}

fn read_part(part: &mut Part, bytes: &[u8]) -> Result<usize, u8> {
    let corners = *bytes.first().ok_or(6u8)? as usize;
    let corner_bytes = bytes.get(1..1 + 2 * corners).ok_or(6u8)?;
    if !(3..=8).contains(&corners) {
        return Err(6);
    }
    part.corners = corners;
    for i in 0..corners {
        part.x[i] = i32::from(corner_bytes[2 * i] as i8);
        part.y[i] = i32::from(corner_bytes[2 * i + 1] as i8);
    }
    Ok(1 + 2 * corners)
}

/// The best-ranked of the classes that the mask names, as a mask of that one, and its gap. The mistakes: by the gap, by
/// the place in the list, or marked classes are left out.
fn best_ranked(job: &Job, mask: u8) -> (u8, i32) {
    let (mut best_rank, mut best, mut gap) = (256, 0, 0);
    for &[id, rank, class_gap] in &job.classes[..job.class_count] {
        let marked = job.cuts >> id & 1 == 1;
        if mask >> id & 1 == 0 || marked && mutant::is("marked_class_not_ranked") {
            continue;
        }
        let (rank, class_gap) = (counted_rank(rank, marked), counted_gap(class_gap, marked));
        let better =
            if mutant::is("largest_gap") { class_gap > gap } else { mutant::is("last_gap") || rank < best_rank };
        if better {
            (best_rank, best, gap) = (rank, 1 << id, class_gap);
        }
    }
    (best, gap)
}

/// The smallest number is the best. The mistakes: the largest is, numbers above 127 are negative, the first or the last
/// one is none, or a mark comes before all ranks.
fn counted_rank(rank: u8, marked: bool) -> i32 {
    let worst = 256;
    if mutant::is("largest_rank") {
        -i32::from(rank)
    } else if mutant::is("rank_signed") {
        (rank as i8).into()
    } else if rank == 0 && mutant::is("rank_0_never_best") || rank == 255 && mutant::is("rank_255_never_best") {
        worst
    } else if marked && mutant::is("marked_class_ranked_first") {
        -1
    } else {
        rank.into()
    }
}

/// A mark changes nothing of its class's gap. The mistakes: it is a gap of 0, or its 128 stays in the gap.
fn counted_gap(gap: u8, marked: bool) -> i32 {
    if marked && mutant::is("mark_as_gap_0") {
        0
    } else if marked && mutant::is("marked_gap_kept_raw") {
        i32::from(gap) + 128
    } else {
        gap.into()
    }
}

impl Part {
    fn good(&self) -> bool {
        let n = self.corners;
        if self.x[..n].contains(&-128) || self.y[..n].contains(&-128) {
            return false;
        }
        for i in 0..n {
            let j = (i + 1) % n;
            let (dx, dy) = (self.x[j] - self.x[i], self.y[j] - self.y[i]);
            let others = if mutant::is("star_accepted") { 1 } else { n - 2 };
            for k in (j + 1..).take(others).map(|k| k % n) {
                if dx * (self.y[k] - self.y[i]) - dy * (self.x[k] - self.x[i]) <= 0 {
                    return false;
                }
            }
        }
        true
    }
}
