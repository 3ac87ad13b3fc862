//! Compares the static library with the reference on random boards: `compare [COUNT] [--seed SEED] [--first]`.
//! Case number i of a run has the seed SEED + i, so `compare 1 --seed S` sees the case S alone again.
//! With `--first` it gives up at the first mismatch.

mod carried;
mod case;
mod common_cut;
mod covering;
mod cutting;
mod empties;
mod fillers;
mod given;
mod grids;
mod harness;
mod layouts;
mod lent;
mod margins;
#[path = "../../nest.rs"]
mod nest;
mod no_class;
mod outline_counts;
mod paper;
mod report;
mod round_gap;
mod saving;

use std::process::exit;

use case::Case;
use harness::Harness;
use nest_tests::generator::make;
use nest_tests::noise::Noise;
use report::Report;

const DEFAULT_COUNT: u64 = 4000;
/// From the default count on, each refusal and each thing counted of common cut, of types in no class, of the round gap,
/// of fillers, of saving, of given layouts and of outlines must have been seen this often.
const SEEN_AT_LEAST: u64 = 100;

fn main() {
    let Arguments { count, seed, first_only } = arguments().unwrap_or_else(|| {
        eprintln!("usage: compare [COUNT] [--seed SEED] [--first]");
        exit(2)
    });
    let mut report = Report::default();
    report.first_only = first_only;
    let mut noise = Noise::new(0);
    let mut harness = Harness { noise: &mut noise, report: &mut report };
    paper::small_board_cases(&mut harness);
    harness.small_outlines();
    empties::empty_buffers(&mut noise, &mut report);
    for case_seed in seed..seed + count {
        random_case(case_seed, &mut report);
    }
    Harness { noise: &mut noise, report: &mut report }.every_outline_on_grids();
    println!("{count} random jobs with their outlines from seed {seed}, the small boards and outlines, and the grids");
    report.print();
    let missed = rarely_seen(&report);
    if count >= DEFAULT_COUNT && !missed.is_empty() {
        println!("seen fewer than {SEEN_AT_LEAST} times: {}", missed.join(", "));
        exit(1);
    }
    if report.mismatches() > 0 {
        exit(1);
    }
}

/// What a run of the default count should have seen more often.
fn rarely_seen(report: &Report) -> Vec<String> {
    let refusals = (1..=14).filter(|&n| report.seen(n) < SEEN_AT_LEAST).map(|n| format!("refusal {n}"));
    let answers: [(&str, &[u8]); 3] =
        [("save", &[1, 2, 3, 4, 5, 6, 7, 9]), ("run", &[8, 9, 11, 13]), ("cut", &[0, 9, 14])];
    let of_services = answers.into_iter().flat_map(|(service, numbers)| {
        let rare = numbers.iter().filter(move |&&n| report.seen_of(service, n) < SEEN_AT_LEAST);
        rare.map(move |n| format!("answer {n} of {service}"))
    });
    let of_gaps = common_cut::COUNTED.into_iter().chain(no_class::counted_things()).chain(round_gap::COUNTED);
    let of_jobs = of_gaps.chain(fillers::COUNTED).chain(saving::counted_things()).chain(given::COUNTED);
    let counted = of_jobs.chain(outline_counts::counted_things());
    let things = counted.filter(|what| report.noted(what) < SEEN_AT_LEAST).map(str::to_string);
    refusals.chain(of_services).chain(things).collect()
}

struct Arguments {
    count: u64,
    seed: u64,
    first_only: bool,
}

fn arguments() -> Option<Arguments> {
    let mut given = Arguments { count: DEFAULT_COUNT, seed: 1, first_only: false };
    let mut words = std::env::args().skip(1);
    while let Some(word) = words.next() {
        match word.as_str() {
            "--seed" => given.seed = words.next()?.parse().ok()?,
            "--first" => given.first_only = true,
            _ => given.count = word.parse().ok()?,
        }
    }
    Some(given)
}

fn random_case(seed: u64, report: &mut Report) {
    report.origin = format!("seed {seed}");
    let mut noise = Noise::new(seed);
    let made = make(&mut noise);
    let case = Case::new(made.bytes, made.margin, made.reordered);
    let number = case.reading.as_ref().err().copied().unwrap_or(0);
    if made.intended.is_some_and(|intended| intended != number) {
        // A fault of the generator or of the reference, not of the library; no less a fault.
        let what = format!("made to be refused by {:?}, the reference says {number}", made.intended);
        report.mismatch(&what, &case.bytes, case.margin);
    }
    common_cut::count(&case, report);
    no_class::count(&case, report);
    round_gap::count_job(&case, report);
    saving::count(&case, report);
    let mut harness = Harness { noise: &mut noise, report };
    harness.every_service(&case);
    harness.random_outlines();
}
