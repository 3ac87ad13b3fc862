//! What a run has seen, and every mismatch with all that is needed to see it again.

use std::collections::BTreeMap;
use std::fmt::Display;

use nest_tests::answer::{Answer, ENDED, STOPPED_WITH_LAYOUT};

#[derive(Default)]
pub struct Report {
    /// Where the present case comes from, e.g. its seed.
    pub origin: String,
    /// Give up at the first mismatch.
    pub first_only: bool,
    /// Calls by service and expected number.
    calls: BTreeMap<(&'static str, u8), u64>,
    verdicts: BTreeMap<&'static str, u64>,
    notes: BTreeMap<&'static str, u64>,
    mismatches: u64,
    shown: u64,
}

const SHOWN_AT_MOST: u64 = 5;

impl Report {
    pub fn call(&mut self, service: &'static str, expected: Answer) {
        *self.calls.entry((service, expected.number)).or_default() += 1;
        if service == "run" && matches!(expected.number, 0 | 10) {
            *self.verdicts.entry(verdict(expected)).or_default() += 1;
        }
    }

    pub fn note(&mut self, what: &'static str) {
        self.note_many(what, 1);
    }

    pub fn note_many(&mut self, what: &'static str, times: u64) {
        *self.notes.entry(what).or_default() += times;
    }

    pub fn mismatch(&mut self, what: &str, job: &[u8], margin: u64) {
        self.mismatch_of(what, &format!("margin {margin}, job {}", hexadecimal(job)));
    }

    /// Told with what is needed to see it again: the bytes of all that was handed over, or of what it was made from.
    pub fn mismatch_of(&mut self, what: &str, handed: &str) {
        self.mismatches += 1;
        if self.shown < SHOWN_AT_MOST {
            self.shown += 1;
            println!("MISMATCH {}\n  {what}\n  {handed}", self.origin);
        }
        if self.first_only {
            std::process::exit(1);
        }
    }

    /// How often a number was expected, whatever the service.
    pub fn seen(&self, number: u8) -> u64 {
        self.calls.iter().filter(|((_, n), _)| *n == number).map(|(_, count)| count).sum()
    }

    /// How often a number was expected of this service.
    pub fn seen_of(&self, service: &'static str, number: u8) -> u64 {
        self.calls.get(&(service, number)).copied().unwrap_or(0)
    }

    pub fn noted(&self, what: &str) -> u64 {
        self.notes.get(what).copied().unwrap_or(0)
    }

    pub fn mismatches(&self) -> u64 {
        self.mismatches
    }

    pub fn print(&self) {
        print_counts("calls", self.calls_by(|service, _| service).into_iter());
        print_counts("answers by refusal number (0: none)", self.calls_by(|_, number| number).into_iter());
        print_counts("runs by verdict", self.verdicts.iter().map(|(k, v)| (k, *v)));
        print_counts("also", self.notes.iter().map(|(k, v)| (k, *v)));
        println!("mismatches: {}", self.mismatches);
    }

    /// The calls summed up by their service or by their number.
    fn calls_by<K: Ord>(&self, key: fn(&'static str, u8) -> K) -> BTreeMap<K, u64> {
        let mut sums = BTreeMap::new();
        for (&(service, number), count) in &self.calls {
            *sums.entry(key(service, number)).or_default() += count;
        }
        sums
    }
}

fn verdict(answer: Answer) -> &'static str {
    match (answer.verdict, answer.number) {
        (ENDED, 10) => "none",
        (ENDED, _) => "shortest",
        (STOPPED_WITH_LAYOUT, _) => "stopped with a layout",
        _ => "stopped with nothing",
    }
}

fn print_counts<K: Display>(title: &str, counts: impl Iterator<Item = (K, u64)>) {
    let listed: Vec<String> = counts.map(|(name, count)| format!("{name}: {count}")).collect();
    println!("{title}: {}", listed.join(", "));
}

pub fn hexadecimal(bytes: &[u8]) -> String {
    bytes.iter().map(|b| format!("{b:02x}")).collect()
}
