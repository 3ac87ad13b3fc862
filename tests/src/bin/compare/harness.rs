//! Calls each service on a job and a margin with buffers of many sizes and compares answers and every byte lent
//! with what the reference gives.

use nest_tests::answer::Answer;
use nest_tests::noise::Noise;
use nest_tests::reference::board::{Board, Piece};
use nest_tests::reference::exhaustive;
use nest_tests::reference::layout::to_numbers;
use nest_tests::reference::reader::Job;
use nest_tests::reference::services::{self, bytes_of, content, work_words, Reading};
use nest_tests::reference::walk::Walked;

use crate::case::{Case, Twin};
use crate::given;
use crate::lent::{awkward_lengths, Lent};
use crate::nest;
use crate::report::{hexadecimal, Report};
use crate::round_gap;

/// A service that is handed a job and a buffer for its answer, and nothing else.
pub struct Writing {
    name: &'static str,
    expected: fn(&Reading, &mut [u8]) -> Answer,
    got: fn(&[u8], &mut [u8]) -> Answer,
}

const READ: Writing = Writing { name: "read", expected: services::read, got: nest::read };
pub const SAVE: Writing = Writing { name: "save", expected: services::save, got: nest::save };

/// How many bytes a run is lent to write into.
#[derive(Clone, Copy)]
pub struct Room {
    work: usize,
    answer: usize,
}

impl Room {
    /// As many as are needed.
    pub fn exact(job: &Job) -> Room {
        Room { work: 8 * work_words(job), answer: 8 * job.pieces() }
    }
}

pub struct Harness<'a> {
    pub noise: &'a mut Noise,
    pub report: &'a mut Report,
}

impl Harness<'_> {
    pub fn every_service(&mut self, case: &Case) {
        self.reads(case);
        self.saves(case);
        self.rows(case);
        self.checks(case);
        self.runs(case);
        self.exhaustive_search(case, None);
        self.given_layouts(case);
        self.carry_across(case);
        self.fillers(case);
        self.other_margins(case);
        self.refused_margins(case);
    }

    pub fn mismatch(&mut self, case: &Case, what: &str) {
        self.report.mismatch(what, &case.bytes, case.margin);
    }

    fn judge(&mut self, service: &'static str, case: &Case, call: &str, got: Answer, expected: Answer) {
        self.report.call(service, expected);
        if expected.number == 0 && !matches!(service, "read" | "save") && case.margin > 0 {
            self.report.note("answers that are no refusals under a margin above 0");
        }
        if got != expected {
            self.mismatch(case, &format!("{service} {call}: got {got:?}, expected {expected:?}"));
        }
    }

    fn compare_bytes(&mut self, service: &str, case: &Case, call: &str, buffer: &str, got: &Lent, expected: &Lent) {
        if let Some(difference) = got.difference(expected) {
            self.mismatch(case, &format!("{service} {call}: {buffer}: {difference}"));
        }
    }

    /// Buffers that a call only reads come back as they were, guards included.
    fn compare_read_only(&mut self, service: &str, case: &Case, call: &str, lent: &Lent, content: &Lent) {
        self.compare_bytes(service, case, call, "a buffer that is only read", lent, content);
    }

    /// A length of each kind that a refused job is called with.
    pub fn any_length(&mut self) -> usize {
        self.noise.pick(&[0, 1, 2, 7, 8, 9, 64, 500, 4000])
    }

    // Read, and what it has in common with save.

    fn reads(&mut self, case: &Case) {
        match &case.reading {
            Err(_) => {
                let length = self.any_length();
                self.write(&READ, case, length);
            }
            Ok(job) => {
                let needed = 2 * content(job).len();
                for length in awkward_lengths(needed, 2) {
                    self.write(&READ, case, length);
                }
                // One number a class too few: no room for the marks.
                self.write(&READ, case, needed - 2 * job.classes.len());
            }
        }
    }

    pub fn write(&mut self, service: &Writing, case: &Case, length: usize) {
        let name = service.name;
        let call = format!("with {length} answer bytes");
        let lent = Lent::noisy(self.noise, length);
        let job = Lent::holding(self.noise, &case.bytes);
        let kept_job = job.clone();
        let (mut got_bytes, mut expected_bytes) = (lent.clone(), lent.clone());
        let expected = (service.expected)(&case.reading, expected_bytes.bytes_mut());
        let got = (service.got)(job.bytes(), got_bytes.bytes_mut());
        self.judge(name, case, &call, got, expected);
        self.compare_bytes(name, case, &call, "answer", &got_bytes, &expected_bytes);
        self.compare_read_only(name, case, &call, &job, &kept_job);
        for twin in &case.twins {
            let mut other_bytes = lent.clone();
            let other_answer = (service.got)(&twin.bytes, other_bytes.bytes_mut());
            self.same_for(twin, name, case, &call, (got, other_answer), &[(&got_bytes, &other_bytes)]);
        }
    }

    fn same_for(
        &mut self,
        twin: &Twin,
        service: &str,
        case: &Case,
        call: &str,
        answers: (Answer, Answer),
        buffers: &[(&Lent, &Lent)],
    ) {
        self.report.note(twin.counted_as);
        let same_bytes = buffers.iter().all(|(one, other)| one.difference(other).is_none());
        if answers.0 != answers.1 || !same_bytes {
            self.mismatch(case, &format!("{service} {call}: another result of the job {}", twin.what));
        }
    }

    // Row.

    fn rows(&mut self, case: &Case) {
        let Ok(board) = &case.clamped else {
            let length = self.any_length();
            let (kind, number, other) = (self.noise.next() % 9, self.noise.next() % 4097, self.noise.next() % 9);
            return self.row(case, kind, number, other, length);
        };
        let needed = 8 * board.job.words();
        // Where candidates are few a row takes little time, and is the sooner one of those that a job was made for.
        let rows = if board.candidate_count() <= 100 { 6 } else { 3 };
        for _ in 0..rows {
            let Some((kind, number, other)) = self.good_row(board) else { break };
            let short = awkward_lengths(needed, 8);
            self.row(case, kind, number, other, needed);
            let length = self.noise.pick(&short);
            self.row(case, kind, number, other, length);
            // And the other way round, from the nearest that is free.
            if let Some(nearest) = round_gap::count_row(board, kind, number, other, self.report) {
                self.row(case, other, nearest, kind, needed);
                round_gap::count_row(board, other, nearest, kind, self.report);
            }
        }
        for _ in 0..4 {
            let (kind, number, other) = self.bad_row(board);
            let length = self.noise.pick(&awkward_lengths(needed, 8));
            self.row(case, kind, number, other, length);
        }
    }

    pub fn good_row(&mut self, board: &Board) -> Option<(u64, u64, u64)> {
        let kinds = board.job.types.len();
        let kind = self.noise.below(kinds);
        let list = &board.candidates[kind];
        if list.is_empty() {
            return None;
        }
        let number = list[self.noise.below(list.len())].number;
        Some((kind as u64, number as u64, self.noise.below(kinds) as u64))
    }

    /// Arguments that mostly name nothing: types past the last, numbers off the board or of no candidate.
    fn bad_row(&mut self, board: &Board) -> (u64, u64, u64) {
        let kinds = board.job.types.len() as u64;
        let (mut kind, mut number, mut other) = self.good_row(board).unwrap_or((0, 0, 0));
        let past = self.noise.pick(&[kinds, kinds + 1, 8, 255, 256, 1 << 16, 1 << 32, 1 << 63, u64::MAX]);
        let all = 4 * board.job.dots() as u64;
        match self.noise.below(6) {
            0 => kind = past.max(kinds),
            1 => other = past.max(kinds),
            2 => kind += self.noise.pick(&[1 << 8, 1 << 16, 1 << 32, 1 << 63]),
            3 => number = self.noise.next() % all,
            4 => number = self.noise.pick(&[all, all + 1, all + 3, 4095, 4096, 65_535, u64::MAX]),
            _ => number += self.noise.pick(&[1 << 12, 1 << 16, 1 << 32, 1 << 63]),
        }
        (kind, number, other)
    }

    /// Arguments that name a candidate, or do not.
    pub fn any_row(&mut self, board: &Board) -> (u64, u64, u64) {
        let good = self.good_row(board).filter(|_| self.noise.one_in(2));
        good.unwrap_or_else(|| self.bad_row(board))
    }

    pub fn row(&mut self, case: &Case, kind: u64, number: u64, other: u64, length: usize) {
        let call = format!("of type {kind} number {number} against {other} with {length} row bytes");
        let lent = Lent::noisy(self.noise, length);
        let job = Lent::holding(self.noise, &case.bytes);
        let kept_job = job.clone();
        let (mut got_bytes, mut expected_bytes) = (lent.clone(), lent.clone());
        let expected = services::row(&case.clamped, kind, number, other, expected_bytes.bytes_mut());
        let got = nest::row(job.bytes(), case.margin, kind, number, other, got_bytes.bytes_mut());
        self.judge("row", case, &call, got, expected);
        self.compare_bytes("row", case, &call, "row", &got_bytes, &expected_bytes);
        self.compare_read_only("row", case, &call, &job, &kept_job);
        for twin in &case.twins {
            let mut other_bytes = lent.clone();
            let other_answer = nest::row(&twin.bytes, case.margin, kind, number, other, other_bytes.bytes_mut());
            self.same_for(twin, "row", case, &call, (got, other_answer), &[(&got_bytes, &other_bytes)]);
        }
    }

    // Check.

    fn checks(&mut self, case: &Case) {
        let Ok(board) = &case.clamped else {
            let length = self.any_length();
            let layout = self.noise.bytes(length);
            return self.check(case, &layout);
        };
        for numbers in self.layouts(case, board) {
            self.check(case, &bytes_of(&numbers));
            for spoilt in self.spoilt_layouts(board, &numbers) {
                self.check(case, &spoilt);
            }
        }
        let needed = 8 * board.job.pieces();
        for length in awkward_lengths(needed, 2) {
            let layout = self.noise.bytes(length);
            self.check(case, &layout);
        }
        self.layout_within_job(case, board);
    }

    pub fn check(&mut self, case: &Case, layout: &[u8]) {
        let call = format!("of layout {}", hexadecimal(layout));
        let layout = Lent::holding(self.noise, layout);
        let job = Lent::holding(self.noise, &case.bytes);
        let expected = services::check(&case.clamped, layout.bytes());
        let (kept_job, kept_layout) = (job.clone(), layout.clone());
        let got = nest::check(job.bytes(), case.margin, layout.bytes());
        self.judge("check", case, &call, got, expected);
        self.compare_read_only("check", case, &call, &job, &kept_job);
        self.compare_read_only("check", case, &call, &layout, &kept_layout);
        for twin in &case.twins {
            let other_answer = nest::check(&twin.bytes, case.margin, layout.bytes());
            self.same_for(twin, "check", case, &call, (got, other_answer), &[]);
        }
    }

    /// Check and run change neither job nor layout, so the layout may lie among the job's own bytes: here in front of it
    /// all, in bytes of no section.
    fn layout_within_job(&mut self, case: &Case, board: &Board) {
        let Some(best) = case.best() else { return };
        let layout = bytes_of(&to_numbers(board, best));
        let Some(bytes) = put_in_front(&case.bytes, &layout) else { return };
        let held = Case::new(bytes, case.margin, None);
        let expected = services::check(&held.clamped, &layout);
        let job = Lent::holding(self.noise, &held.bytes);
        let within = &job.bytes()[..layout.len()];
        let got = nest::check(job.bytes(), held.margin, within);
        self.judge("check", &held, "of a layout within the job", got, expected);

        let lent = self.lent_to_run(Room::exact(&board.job));
        self.compared_run(&held, "with budget 1 from a layout within the job", 1, job.bytes(), within, &lent);
    }

    // Run.

    fn runs(&mut self, case: &Case) {
        let Ok(board) = &case.clamped else {
            let room = Room { work: self.any_length(), answer: self.any_length() };
            let (budget, length) = (self.noise.next() as u32, self.any_length());
            let layout = self.noise.bytes(length);
            return self.run(case, budget, &layout, room);
        };
        let walked = case.walked().expect("nothing is refused");
        for budget in self.budgets(walked) {
            let room = self.long_enough(&board.job);
            self.run(case, budget, &[], room);
        }
        let exact = Room::exact(&board.job);
        for work in awkward_lengths(exact.work, 8) {
            self.run(case, 1, &[], Room { work, ..exact });
        }
        for answer in awkward_lengths(exact.answer, 2) {
            self.run(case, 1, &[], Room { answer, ..exact });
        }
        let room = self.any_room(&board.job);
        self.run(case, 1, &[], room);
    }

    /// None, one, the needed steps and their neighbours, as many as there can be, and some on the way.
    pub fn budgets(&mut self, walked: &Walked) -> Vec<u32> {
        let taken = walked.steps as u32;
        let mut budgets = vec![0, 1];
        for _ in 0..2 {
            budgets.push(self.noise.below(taken as usize + 1) as u32);
        }
        if walked.stopped {
            budgets.push(taken);
        } else {
            budgets.extend([taken.saturating_sub(1), taken, taken + 1, u32::MAX]);
        }
        budgets
    }

    /// As much as is needed, or some more.
    pub fn long_enough(&mut self, job: &Job) -> Room {
        let exact = Room::exact(job);
        let work = exact.work + self.noise.pick(&[0, 0, 1, 7, 8, 100]);
        Room { work, answer: exact.answer + self.noise.pick(&[0, 0, 1, 2, 100]) }
    }

    /// About as much as is needed: both may be too short, or one of them.
    pub fn any_room(&mut self, job: &Job) -> Room {
        let exact = Room::exact(job);
        let work = self.noise.pick(&awkward_lengths(exact.work, 8));
        Room { work, answer: self.noise.pick(&awkward_lengths(exact.answer, 2)) }
    }

    /// Work and answer.
    pub fn lent_to_run(&mut self, room: Room) -> (Lent, Lent) {
        (Lent::noisy(self.noise, room.work), Lent::noisy(self.noise, room.answer))
    }

    /// From the layout of these bytes, if there are any.
    pub fn run(&mut self, case: &Case, budget: u32, layout: &[u8], room: Room) {
        let given = if layout.is_empty() { String::new() } else { format!(" from layout {}", hexadecimal(layout)) };
        let call = format!("with budget {budget}, {} work bytes, {} answer bytes{given}", room.work, room.answer);
        let lent = self.lent_to_run(room);
        let (job, layout) = (Lent::holding(self.noise, &case.bytes), Lent::holding(self.noise, layout));
        let (kept_job, kept_layout) = (job.clone(), layout.clone());
        let (got, got_work, got_answer) = self.compared_run(case, &call, budget, job.bytes(), layout.bytes(), &lent);
        self.compare_read_only("run", case, &call, &job, &kept_job);
        self.compare_read_only("run", case, &call, &layout, &kept_layout);
        // Runs take most of the time: one of the twins, as it falls.
        if let Some(twin) = case.twins.get(self.noise.below(case.twins.len().max(1))) {
            let (mut work, mut answer) = lent;
            let (to_work, to_answer) = (work.bytes_mut(), answer.bytes_mut());
            let result = nest::run(&twin.bytes, case.margin, budget, layout.bytes(), to_work, to_answer);
            let buffers = [(&got_work, &work), (&got_answer, &answer)];
            self.same_for(twin, "run", case, &call, (got, result), &buffers);
        }
    }

    /// A run on these bytes, with work and answer as they are lent. Gives the library's answer, and the two after it.
    fn compared_run(
        &mut self,
        case: &Case,
        call: &str,
        budget: u32,
        job: &[u8],
        layout: &[u8],
        lent: &(Lent, Lent),
    ) -> (Answer, Lent, Lent) {
        let (mut expected_work, mut expected_answer) = lent.clone();
        let (to_work, to_answer) = (expected_work.bytes_mut(), expected_answer.bytes_mut());
        let expected = services::run(&case.clamped, budget, layout, to_work, to_answer);
        let (mut work, mut answer) = lent.clone();
        let got = nest::run(job, case.margin, budget, layout, work.bytes_mut(), answer.bytes_mut());
        self.judge("run", case, call, got, expected);
        self.compare_bytes("run", case, call, "work", &work, &expected_work);
        self.compare_bytes("run", case, call, "answer", &answer, &expected_answer);
        given::count(case, layout, expected, expected_work.bytes(), expected_answer.bytes(), self.report);
        (got, work, answer)
    }

    /// On a board with few enough layouts, the engine's own answer against a search of all of them; begun from a given
    /// layout, or from none.
    pub fn exhaustive_search(&mut self, case: &Case, given: Option<&[Piece]>) {
        let (Ok(board), Some(passing)) = (&case.clamped, case.passing()) else { return };
        let held = exhaustive::held(board, passing, given);
        let (mut work, mut answer) = self.lent_to_run(Room::exact(&board.job));
        let untouched = answer.clone();
        let layout = given.map_or(vec![], |given| bytes_of(&to_numbers(board, given)));
        let got = nest::run(&case.bytes, case.margin, u32::MAX, &layout, work.bytes_mut(), answer.bytes_mut());
        self.report.note(if given.is_some() { given::SEARCHED } else { "boards searched exhaustively" });
        let agrees = match held {
            None => got.number == 10 && answer.difference(&untouched).is_none(),
            Some(layout) => {
                let bytes = bytes_of(&to_numbers(board, layout));
                got.number == 0 && i64::from(got.count) == board.length(layout) && answer.bytes() == bytes
            }
        };
        if !agrees {
            let expected = held.map_or("none".to_string(), |held| format!("{:?}", to_numbers(board, held)));
            let begun = given.map_or(String::new(), |given| format!(" from {:?}", to_numbers(board, given)));
            let bytes = hexadecimal(answer.bytes());
            let what = format!("run{begun} against all layouts: got {got:?} holding {bytes}, expected {expected}");
            self.mismatch(case, &what);
        }
    }
}

/// The job with bytes put before its first one: every offset and the stated length grow by their number.
fn put_in_front(job: &[u8], front: &[u8]) -> Option<Vec<u8>> {
    let mut bytes = [front, job].concat();
    if bytes.len() > 1024 {
        return None;
    }
    let trailer = bytes.len() - 14;
    for field in [0, 2, 4, 10] {
        let at = trailer + field;
        let number = u16::from_le_bytes([bytes[at], bytes[at + 1]]) + front.len() as u16;
        bytes[at..at + 2].copy_from_slice(&number.to_le_bytes());
    }
    Some(bytes)
}
