//! Jobs of another content: an accepted job with one thing changed, and still accepted.

use crate::noise::Noise;
use crate::reference::reader::{read_job, Class, Job};
use crate::reference::writer::saved;

/// What is changed, and how.
type Change = (&'static str, fn(&mut Noise, &mut Job));

pub const CHANGES: [Change; 15] = [
    ("jobs with another side or step", change_board),
    ("jobs with width and length exchanged", |_, job| std::mem::swap(&mut job.width, &mut job.length)),
    ("jobs with another class id", change_id),
    ("jobs with another rank", |noise, job| with_a_class(noise, job, |noise, class| class.rank = noise.byte())),
    ("jobs with another gap", |noise, job| with_a_class(noise, job, |noise, class| class.gap = noise.below(64) as u8)),
    ("jobs with another mark", |noise, job| with_a_class(noise, job, |_, class| class.marked = !class.marked)),
    ("jobs with a class more", add_class),
    ("jobs with a class fewer", drop_class),
    ("jobs with another demand", change_demand),
    ("jobs with another turn mask", |noise, job| job.types[0].turn_mask ^= 1 << noise.below(4)),
    ("jobs with another class mask", |noise, job| job.types[0].class_mask ^= 1 << noise.below(8)),
    ("jobs with another corner", change_corner),
    ("jobs with a part that begins at another corner", |_, job| job.types[0].parts[0].rotate_left(1)),
    ("jobs with types in another order", |_, job| job.types.rotate_left(1)),
    ("jobs with a type fewer", |_, job| drop(job.types.pop())),
];

/// A job of each change that can be made, as its bytes.
pub fn other_contents(noise: &mut Noise, job: &Job) -> Vec<(&'static str, Vec<u8>)> {
    let made = CHANGES.iter().filter_map(|&(what, change)| {
        let mut other = job.clone();
        change(noise, &mut other);
        let bytes = saved(&other);
        let accepted = read_job(&bytes).is_ok_and(|read| read == other);
        (accepted && other != *job).then_some((what, bytes))
    });
    made.collect()
}

fn change_board(noise: &mut Noise, job: &mut Job) {
    let field = noise.below(3);
    let number = [&mut job.width, &mut job.length, &mut job.step].into_iter().nth(field).expect("one of three");
    *number += noise.pick(&[1, 2, 256]);
}

fn with_a_class(noise: &mut Noise, job: &mut Job, change: fn(&mut Noise, &mut Class)) {
    if job.classes.is_empty() {
        return;
    }
    let hit = noise.below(job.classes.len());
    change(noise, &mut job.classes[hit]);
}

/// The types that name the class go on naming it.
fn change_id(_: &mut Noise, job: &mut Job) {
    let (Some(free), Some(class)) = (free_id(job), job.classes.first_mut()) else { return };
    let had = std::mem::replace(&mut class.id, free);
    job.classes.sort_by_key(|class| class.id);
    for kind in job.types.iter_mut().filter(|kind| kind.class_mask >> had & 1 == 1) {
        kind.class_mask ^= 1 << had | 1 << free;
    }
}

fn free_id(job: &Job) -> Option<u8> {
    (0..8).find(|&id| job.classes.iter().all(|class| class.id != id))
}

/// One that no type names.
fn add_class(noise: &mut Noise, job: &mut Job) {
    let Some(id) = free_id(job) else { return };
    put_class(job, Class { id, rank: noise.byte(), gap: 1, marked: noise.one_in(2) });
}

fn put_class(job: &mut Job, class: Class) {
    job.classes.push(class);
    job.classes.sort_by_key(|class| class.id);
}

/// The types in no class as fillers: in a class of gap 0 that is added for them, with the last rank that is free.
/// Nothing if there are no such types, or as many classes as may be.
pub fn with_fillers(job: &Job) -> Option<Job> {
    let rank = (0..=255).rev().find(|&rank| job.classes.iter().all(|class| class.rank != rank))?;
    let class = Class { id: free_id(job)?, rank, gap: 0, marked: false };
    let mut filled = job.clone();
    for kind in filled.types.iter_mut().filter(|kind| kind.class_mask == 0) {
        kind.class_mask = 1 << class.id;
    }
    put_class(&mut filled, class);
    (filled.types != job.types).then_some(filled)
}

/// One that no type names.
fn drop_class(_: &mut Noise, job: &mut Job) {
    let named = job.types.iter().fold(0, |mask, kind| mask | kind.class_mask);
    let unnamed = job.classes.iter().position(|class| named >> class.id & 1 == 0);
    unnamed.map(|place| job.classes.remove(place));
}

fn change_demand(noise: &mut Noise, job: &mut Job) {
    let hit = noise.below(job.types.len());
    let demand = &mut job.types[hit].demand;
    *demand = if noise.one_in(2) { *demand + 1 } else { *demand - 1 };
}

/// By one in one direction; parts that are no longer sound, and corners past 127, drop out.
fn change_corner(noise: &mut Noise, job: &mut Job) {
    let part = &mut job.types[0].parts[0];
    let hit = noise.below(part.len());
    let corner = &mut part[hit];
    let number = if noise.one_in(2) { &mut corner.x } else { &mut corner.y };
    *number += noise.pick(&[-1, 1]);
}
