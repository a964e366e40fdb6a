//! The stack that each call of the archive touches, and the direct grid beside them: the most over answered and refused
//! questions, as lines of CSV. What goes by value lies above what is counted. With `--limits` it names instead each call that
//! touches more than docs/EMBEDDING.md says, and fails if there is one.
use parvusek_bench::bases::{Draft, damaged, files};
use parvusek_bench::compare::inputs;
use parvusek_bench::engine::form::{FORMS, Form};
use parvusek_bench::engine::roll;
use parvusek_bench::engine::sets::{GRID, Record};
use parvusek_bench::ffi::{Question, Questions, Records, raw::*};
use parvusek_bench::random::Random;
use parvusek_bench::stack::{Arguments, touched};
use std::env;
use std::process::ExitCode;

/// Everything that calls can be lent.
struct Lent {
    run: Vec<u8>,
    history: Vec<u8>,
    file: Vec<u8>,
    output: Vec<u8>,
    records: Vec<Record>,
    roll: Vec<u64>,
}

fn lent(random: &mut Random, run: Vec<u8>, history: Vec<u8>) -> Lent {
    let records = (0..GRID).map(|_| inputs::record(random, &run)).collect();
    let mut whole = run.clone();
    damaged::of_some_form(random, &mut whole);
    let roll = vec![0; roll::LENGTH];
    let output = vec![0; Form::Mpb2.file_length()];
    Lent { run, history, file: files::file_of(&whole), output, records, roll }
}

/// A record as it is passed by value.
fn words(record: &Record) -> [u64; 8] {
    let pair = |low: u32, high: u32| u64::from(low) | u64::from(high) << 32;
    let Record { age, deferment, year, refusal, results, first, second } = *record;
    let [one, two, three, four] = results;
    [pair(age, deferment), pair(year, refusal), one, two, three, four, first, second]
}

impl Lent {
    /// A call that is lent these bytes, and after them given the rest.
    fn touched(&self, function: *const (), lent: &[&[u8]], rest: &[u64], by_value: &[u64]) -> usize {
        // the place of an answer, the largest of which is a whole grid
        let mut answer = vec![0u64; size_of::<Records>() / size_of::<u64>()];
        let mut words = vec![answer.as_mut_ptr() as u64];
        words.extend(lent.iter().flat_map(|bytes| [bytes.as_ptr() as u64, bytes.len() as u64]));
        words.extend(rest);
        unsafe { touched(function, &Arguments::new(&words, by_value)) }
    }

    /// A call that is lent the run and the history.
    fn with(&self, function: *const (), rest: &[u64]) -> usize {
        self.touched(function, &[&self.run, &self.history], rest, &[])
    }

    fn file_calls(&mut self) -> [(&'static str, usize); 5] {
        let (out, length) = (self.output.as_mut_ptr() as u64, self.output.len() as u64);
        let (run, file): (&[u8], &[u8]) = (&self.run, &self.file);
        [
            ("check_basis", self.touched(parvusek_check_basis as *const (), &[run], &[], &[])),
            ("read_basis", self.touched(parvusek_read_basis as *const (), &[file], &[out, length], &[])),
            ("write_basis", self.touched(parvusek_write_basis as *const (), &[run], &[out, length], &[])),
            ("write_old_form", self.touched(parvusek_write_old_form as *const (), &[run], &[out, length], &[])),
            ("short_form", self.touched(parvusek_short_form as *const (), &[run], &[10_000_000, out, length], &[])),
        ]
    }

    fn grids(&mut self) -> [(&'static str, usize); 2] {
        let by_value: Vec<u64> = self.records.iter().flat_map(words).collect();
        let records = self.records.as_mut_ptr() as u64;
        let lent: [&[u8]; 2] = [&self.run, &self.history];
        [
            ("grid", self.with(parvusek_grid as *const (), &[records, GRID as u64])),
            ("direct_grid", self.touched(parvusek_direct_grid as *const (), &lent, &[], &by_value)),
        ]
    }

    fn cells(&self, question: Question) -> [(&'static str, usize); 4] {
        let Question { age, year, .. } = question;
        let (age, year) = (u64::from(age), u64::from(year));
        [
            ("improvement", self.with(parvusek_improvement as *const (), &[age, year])),
            ("factor", self.with(parvusek_factor as *const (), &[age, year])),
            ("rate", self.with(parvusek_rate as *const (), &[age, year])),
            ("lifeline_start", self.with(parvusek_lifeline_start as *const (), &[age, year])),
        ]
    }

    /// From a year that may be after 2130.
    fn lifeline_step(&self, (age, year): (u32, u32)) -> (&'static str, usize) {
        let rest = [u64::from(age), u64::from(year), 999_999_999];
        ("lifeline_step", self.with(parvusek_lifeline_step as *const (), &rest))
    }

    fn values(&self, question: Question) -> [(&'static str, usize); 6] {
        let Question { age, deferment, year } = question;
        let rest = [u64::from(age), u64::from(deferment), u64::from(year)];
        std::array::from_fn(|which| (VALUES[which], self.with(ENQUIRIES[which] as *const (), &rest)))
    }

    /// Opened for the question's year, joined at its age, and left again.
    fn roll_calls(&mut self, question: Question) -> [(&'static str, usize); 4] {
        let (roll, length) = (self.roll.as_mut_ptr() as u64, self.roll.len() as u64);
        let (number, age, pension) = (7, u64::from(question.age), 1_000_000);
        let alone = |function, rest: &[u64]| self.touched(function, &[], rest, &[]);
        [
            ("roll_open", alone(parvusek_roll_open as *const (), &[u64::from(question.year), roll, length])),
            ("roll_join", self.with(parvusek_roll_join as *const (), &[roll, length, number, age, pension])),
            ("roll_total", alone(parvusek_roll_total as *const (), &[roll, length])),
            ("roll_leave", alone(parvusek_roll_leave as *const (), &[roll, length, number])),
        ]
    }

    fn small_set(&self, questions: Questions) -> (&'static str, usize) {
        let numbers = questions.points.map(|point| [point.age, point.deferment, point.year]).concat();
        let by_value: [u64; 9] =
            std::array::from_fn(|word| u64::from(numbers[2 * word]) | u64::from(numbers[2 * word + 1]) << 32);
        ("small_set", self.touched(parvusek_small_set as *const (), &[&self.run, &self.history], &[], &by_value))
    }
}

const VALUES: [&str; 6] = [
    "period_survivorship",
    "cohort_survivorship",
    "period_expectation",
    "cohort_expectation",
    "period_annuity",
    "cohort_annuity",
];

/// The most that docs/EMBEDDING.md gives a host to reckon with. The direct grid is no part of the archive.
fn limit(name: &str) -> usize {
    match name {
        "grid" => 93_000,
        "read_basis" | "write_old_form" => 6_000,
        "direct_grid" => usize::MAX,
        _ => 2_000,
    }
}

fn main() -> ExitCode {
    let mut most: Vec<(&str, usize)> = Vec::new();
    let mut note = |(name, bytes): (&'static str, usize)| match most.iter_mut().find(|(known, _)| *known == name) {
        Some((_, sofar)) => *sofar = bytes.max(*sofar),
        None => most.push((name, bytes)),
    };
    let mut random = Random::new(1);
    for base in 0..60 {
        let mut lent = if let Some(&form) = FORMS.get(base) {
            lent(&mut random, Draft::benchmark().in_form(form).run, Vec::new())
        } else {
            let inputs::Basis { run, history, .. } = inputs::basis(&mut random);
            lent(&mut random, run, history)
        };
        lent.file_calls().into_iter().for_each(&mut note);
        lent.grids().into_iter().for_each(&mut note);
        for _ in 0..20 {
            let question = inputs::question(&mut random, &lent.run);
            lent.cells(question).into_iter().for_each(&mut note);
            note(lent.lifeline_step(inputs::position(&mut random, &lent.run)));
            lent.values(question).into_iter().for_each(&mut note);
            lent.roll_calls(question).into_iter().for_each(&mut note);
        }
        note(lent.small_set(inputs::questions(&mut random, &lent.run)));
    }
    if env::args().any(|argument| argument == "--limits") {
        let beyond: Vec<_> = most.iter().filter(|(name, bytes)| *bytes >= limit(name)).collect();
        for (name, bytes) in &beyond {
            println!("stack: FAILED: parvusek_{name} touches {bytes} bytes, and less than {} is promised", limit(name));
        }
        return if beyond.is_empty() { ExitCode::SUCCESS } else { ExitCode::FAILURE };
    }
    println!("function,bytes");
    for (name, bytes) in most {
        println!("parvusek_{name},{bytes}");
    }
    ExitCode::SUCCESS
}
