//! The benchmark: the proved engine against an unverified Rust one, as ratios in one run. Not part of the
//! gate. Every figure is the best of a few short measurements, since other work may share the machine.

mod jobs;
mod measure;
#[path = "../../nest.rs"]
mod nest;

use std::hint::black_box;

use jobs::{bench_jobs, BenchJob};
use measure::best_time;
use nest_tests::answer::Answer;
use opponent::job::{read, Job};
use opponent::rows::{Board, Rows};
use opponent::save::save;
use opponent::walk::Walk;

const HEAD: &str = "\
The proved engine (nest) against an unverified Rust one with precomputed conflict rows (rust), same machine,
same jobs, both built for release. A ratio above 1 means that the proved engine is slower.
Buffers: allocated once and NOT cleared before a call; nest_run clears its work words itself, and that is in
its time. In run, nest's time is a whole call, reading and every conflict included. Rust's walk alone finds all
its conflict rows there; its set-up (candidates, conflict tables by offset) and the rows that the walk takes
come on top in the last column.";

fn main() {
    println!("{HEAD}\n");
    let jobs = bench_jobs();
    for bench in &jobs {
        check_agreement(bench);
        check_saved(bench);
    }
    calls("read", &jobs, nest::read, |job, _| read(job).is_ok());
    calls("save", &jobs, nest::save, |job, answer| save(job, answer).is_ok());
    rows(&jobs);
    runs(&jobs);
    budgets(&jobs);
}

/// The two have to agree on steps, length and layout before their speeds are compared.
fn check_agreement(bench: &BenchJob) {
    let budget = 100_000;
    let mut work = vec![0; 49_152];
    let mut answer = vec![0; 96];
    let got = nested(bench, budget, &mut work, &mut answer);
    let job = read(&bench.bytes).expect("an accepted job");
    let walked = whole_walk(bench, &job, budget.into());
    let length = walked.best.map_or(0, |(length, _)| length as u16);
    assert_eq!((u64::from(got.steps), got.count), (walked.steps, length), "{}", bench.name);
    let number = |i: usize| {
        let field = |k: usize| usize::from(u16::from_le_bytes([answer[8 * i + 2 * k], answer[8 * i + 2 * k + 1]]));
        (field(1) * job.rows + field(2)) * 4 + field(3)
    };
    if let Some((_, numbers)) = walked.best {
        (0..job.pieces).for_each(|i| assert_eq!(number(i), usize::from(numbers[i]), "{} piece {i}", bench.name));
    }
}

/// And on the bytes that the job is saved to.
fn check_saved(bench: &BenchJob) {
    let (mut proved, mut plain) = (vec![0; 1024], vec![0; 1024]);
    let count = save(&bench.bytes, &mut plain).expect("an accepted job");
    assert_eq!(usize::from(nest::save(&bench.bytes, &mut proved).count), count, "{}", bench.name);
    assert_eq!(proved, plain, "{}", bench.name);
}

/// The proved engine's run, under the margin that belongs to the job, begun from no layout.
fn nested(bench: &BenchJob, budget: u32, work: &mut [u8], answer: &mut [u8]) -> Answer {
    nest::run(&bench.bytes, bench.margin.into(), budget, &[], work, answer)
}

/// The other engine's board, under the same margin.
fn board_of<'a>(bench: &BenchJob, job: &'a Job) -> Board<'a> {
    Board::new(job, bench.margin.into())
}

fn whole_walk(bench: &BenchJob, job: &Job, budget: u64) -> opponent::walk::Outcome {
    let board = board_of(bench, job);
    let mut rows = Rows::new(&board);
    Walk::new(&board, &mut rows).run(budget)
}

/// A service that is handed a job and a buffer for its answer.
fn calls(name: &str, jobs: &[BenchJob], proved: fn(&[u8], &mut [u8]) -> Answer, plain: fn(&[u8], &mut [u8]) -> bool) {
    println!("{name}: microseconds a call");
    println!("{:<28} {:>6} {:>9} {:>9} {:>7}", "job", "bytes", "nest", "rust", "ratio");
    let mut answer = vec![0; 4096];
    for bench in jobs {
        let proved = best_time(|| proved(&bench.bytes, &mut answer));
        let plain = best_time(|| plain(&bench.bytes, &mut answer));
        let (length, ratio) = (bench.bytes.len(), proved / plain);
        println!("{:<28} {:>6} {:>9.3} {:>9.3} {:>7.2}", bench.name, length, proved * 1e6, plain * 1e6, ratio);
    }
    println!();
}

/// A row of the last type's middle candidate against the first type; one pair test for each candidate of that.
fn rows(jobs: &[BenchJob]) {
    println!("row: pair tests a second, in millions (nest reads the job in each call, rust once before)");
    println!("{:<28} {:>6} {:>9} {:>9} {:>7}", "job", "tests", "nest", "rust", "ratio");
    let mut bytes = vec![0; 512];
    let mut words = vec![0; 64];
    for bench in jobs {
        let job = read(&bench.bytes).expect("an accepted job");
        let board = board_of(bench, &job);
        let kind = job.kind_count - 1;
        let Some(number) = middle_candidate(&board, kind) else { continue };
        let tests = board.row(kind, number, 0, &mut words) as f64;
        let margin = bench.margin.into();
        let proved = best_time(|| nest::row(&bench.bytes, margin, kind as u64, number as u64, 0, &mut bytes));
        let plain = best_time(|| board.row(kind, number, 0, &mut words));
        let (fast, slow, ratio) = (tests / plain / 1e6, tests / proved / 1e6, proved / plain);
        println!("{:<28} {tests:>6} {slow:>9.2} {fast:>9.2} {ratio:>7.2}", bench.name);
    }
    println!();
}

fn middle_candidate(board: &Board, kind: usize) -> Option<usize> {
    let all = 4 * board.job.rows * board.job.columns;
    (all / 2..all).chain(0..all / 2).find(|&n| board.is_candidate(kind, n))
}

fn runs(jobs: &[BenchJob]) {
    println!("run: thousands of steps a second (ratio to rust's walk alone, and to rust with its set-up)");
    println!(
        "{:<28} {:>5} {:>3} {:>3} {:>8} {:>10} {:>10} {:>9} {:>8} {:>8}",
        "job", "dots", "T", "N", "steps", "nest", "rust walk", "set-up ms", "ratio", "with"
    );
    let costs: Vec<StepCost> = jobs.iter().map(run).collect();
    println!("\nrun: how the time of a step grows, the first job of each series being 1");
    for series in ["dots grow", "types grow", "pieces grow"] {
        growth(series, jobs, &costs);
    }
}

/// Seconds a step, of both engines.
struct StepCost {
    proved: f64,
    plain: f64,
}

fn growth(series: &str, jobs: &[BenchJob], costs: &[StepCost]) {
    let members: Vec<usize> = (0..jobs.len()).filter(|&i| jobs[i].name.starts_with(series)).collect();
    let first = &costs[members[0]];
    for &i in &members {
        let (proved, plain) = (costs[i].proved / first.proved, costs[i].plain / first.plain);
        println!("{:<28} nest {proved:>8.2}   rust walk {plain:>8.2}", jobs[i].name);
    }
}

fn run(bench: &BenchJob) -> StepCost {
    let job = read(&bench.bytes).expect("an accepted job");
    let mut work = vec![0xA5; 49_152];
    let mut answer = vec![0xA5; 96];
    let budget = affordable_budget(bench, &mut work, &mut answer);
    let steps = nested(bench, budget, &mut work, &mut answer).steps.max(1);
    let proved = best_time(|| nested(bench, budget, &mut work, &mut answer));
    let board = board_of(bench, &job);
    let mut rows = Rows::new(&board);
    let set_up = best_time(|| {
        let board = board_of(bench, &job);
        black_box(&Rows::new(&board));
    });
    let whole = best_time(|| whole_walk(bench, &job, budget.into()).steps);
    // The first call builds the rows, those that are timed find them.
    let walk = best_time(|| Walk::new(&board, &mut rows).run(budget.into()).steps);
    println!(
        "{:<28} {:>5} {:>3} {:>3} {:>8} {:>10.1} {:>10.1} {:>9.3} {:>8.2} {:>8.2}",
        bench.name,
        job.rows * job.columns,
        job.kind_count,
        job.pieces,
        steps,
        f64::from(steps) / proved / 1e3,
        f64::from(steps) / walk / 1e3,
        set_up * 1e3,
        proved / walk,
        proved / whole,
    );
    StepCost { proved: proved / f64::from(steps), plain: walk / f64::from(steps) }
}

/// What is computed before the first step weighs less the more steps there are.
fn budgets(jobs: &[BenchJob]) {
    let growing = [1, 16, 256, 4096, 65_536, 1 << 20];
    println!("\nrun: microseconds a step at growing budgets (a run that ends by itself is not run at larger ones)");
    print!("{:<28}", "job");
    growing.iter().for_each(|budget| print!(" {budget:>9}"));
    println!();
    let mut work = vec![0xA5; 49_152];
    let mut answer = vec![0xA5; 96];
    for bench in jobs {
        print!("{:<28}", bench.name);
        for budget in growing {
            let steps = nested(bench, budget, &mut work, &mut answer).steps;
            let time = best_time(|| nested(bench, budget, &mut work, &mut answer));
            print!(" {:>9.2}", time / f64::from(steps.max(1)) * 1e6);
            if steps < budget {
                break;
            }
        }
        println!();
    }
}

/// Doubled until the run ends by itself or takes a quarter of a second.
fn affordable_budget(bench: &BenchJob, work: &mut [u8], answer: &mut [u8]) -> u32 {
    let mut budget = 16;
    while budget < 1 << 20 {
        let start = std::time::Instant::now();
        let got = nested(bench, budget, work, answer);
        if got.steps < budget || start.elapsed().as_secs_f64() > 0.25 {
            break;
        }
        budget *= 2;
    }
    budget
}
