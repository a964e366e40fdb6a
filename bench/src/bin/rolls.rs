//! What a call on a roll costs: beside one cohort annuity of the same age and year, and in the proved archive beside the
//! Rust engine. Both are taken alternately in one run, with nothing cleared.
//! rolls [--rounds N] [--markdown]
use parvusek_bench::bases::Draft;
use parvusek_bench::engine::enquiries;
use parvusek_bench::engine::roll::{self, COUNT, Joiner, LENGTH, MEMBERS, NUMBERS};
use parvusek_bench::engine::valuation::Kind;
use parvusek_bench::ffi::{self, Question};
use parvusek_bench::timing::{Settings, Timing, race, settings};
use std::hint::black_box;
use std::time::Duration;

const MEASURE: Duration = Duration::from_micros(400);
const YEAR: u32 = 2010;
const NO_HISTORY: &[u8] = &[];
const COHORT_ANNUITY: usize = 5;

/// A number that no member has; theirs are 1 and so on.
const NEW: u32 = 1_000_000;

/// A roll with so many members, all of 150, whose annuities are soon worked out.
fn with_members(run: &[u8], count: usize) -> Vec<u64> {
    let mut numbers = vec![0; LENGTH];
    roll::open(YEAR, &mut numbers).expect("long enough");
    for number in 1..=count as u32 {
        let joiner = Joiner { number, age: 150, pension: 1_000_000 };
        roll::join(run, NO_HISTORY, &mut numbers, joiner).expect("there is room");
    }
    numbers
}

/// One of the calls, on a roll of so many members; what it changed is put back, by one number, so that each finds the
/// same roll.
#[derive(Clone, Copy)]
enum Work {
    /// Of a member of this age, answered or refused by the roll.
    Join {
        number: u32,
        age: u32,
        members: usize,
    },
    LeaveFirst,
    LeaveLast,
    Total,
}

impl Work {
    fn members(self) -> usize {
        if let Work::Join { members, .. } = self { members } else { MEMBERS }
    }

    fn is_answered_join(self) -> bool {
        matches!(self, Work::Join { members, .. } if members < MEMBERS)
    }

    fn age(self) -> u32 {
        if let Work::Join { age, .. } = self { age } else { 65 }
    }

    /// By the archive, or by the Rust engine.
    fn done<'a>(self, run: &'a [u8], proved: bool) -> impl FnMut() + 'a {
        let mut numbers = with_members(run, self.members());
        move || {
            let (run, numbers) = (black_box(run), black_box(&mut numbers));
            if proved {
                self.by_archive(run, numbers)
            } else {
                self.by_rust(run, numbers)
            }
            // the numbers of one who joined or left stay behind the count
            numbers[COUNT] = self.members() as u64;
        }
    }

    /// Who leaves: whoever stands first, or last.
    fn leaver(self, numbers: &[u64]) -> u32 {
        numbers[if matches!(self, Work::LeaveFirst) { NUMBERS } else { NUMBERS + MEMBERS - 1 }] as u32
    }

    fn by_archive(self, run: &[u8], numbers: &mut [u64]) {
        black_box(match self {
            Work::Join { number, age, .. } => ffi::roll_join(run, NO_HISTORY, numbers, joiner(number, age)),
            Work::Total => ffi::roll_total(numbers),
            _ => ffi::roll_leave(numbers, self.leaver(numbers)),
        });
    }

    fn by_rust(self, run: &[u8], numbers: &mut [u64]) {
        let _ = black_box(match self {
            Work::Join { number, age, .. } => roll::join(run, NO_HISTORY, numbers, joiner(number, age)),
            Work::Total => roll::total(numbers),
            _ => roll::leave(numbers, self.leaver(numbers)),
        });
    }
}

fn joiner(number: u32, age: u32) -> Joiner {
    black_box(Joiner { number, age, pension: 1_234_567 })
}

fn annuity(run: &[u8], age: u32, proved: bool) -> impl FnMut() + '_ {
    let question = Question { age, deferment: 0, year: YEAR };
    move || {
        let run = black_box(run);
        let Question { age, deferment, year } = black_box(question);
        if proved {
            black_box(ffi::enquiry(COHORT_ANNUITY, run, NO_HISTORY, black_box(question)));
        } else {
            let _ = black_box(enquiries::annuity(run, NO_HISTORY, Kind::Cohort, age, deferment, year));
        }
    }
}

const LAST: u32 = MEMBERS as u32;

/// The most that an answered join can find on a roll is one less than it holds.
const WORKS: [(&str, Work); 9] = [
    ("join at 65, empty roll", Work::Join { number: NEW, age: 65, members: 0 }),
    ("join at 65, 499 on the roll", Work::Join { number: NEW, age: 65, members: MEMBERS - 1 }),
    ("join at 150, empty roll", Work::Join { number: NEW, age: 150, members: 0 }),
    ("join at 150, 499 on the roll", Work::Join { number: NEW, age: 150, members: MEMBERS - 1 }),
    ("join refused by 14, 500 on it", Work::Join { number: NEW, age: 65, members: MEMBERS }),
    ("join of the last refused by 16", Work::Join { number: LAST, age: 65, members: MEMBERS }),
    ("leave of the first of 500", Work::LeaveFirst),
    ("leave of the last of 500", Work::LeaveLast),
    ("total of 500", Work::Total),
];

/// Beside the annuity, and what the roll takes: all of the call, or what is beyond the annuity that it works out.
fn print_beside_annuity(settings: &Settings, name: &str, work: Work, timing: &Timing) {
    let Timing { first, second, ratio, lower, upper, difference } = timing;
    let of_roll = if work.is_answered_join() { difference } else { first } / 1000.0;
    if settings.markdown {
        println!("| {name} | {ratio:.3} | {lower:.3} to {upper:.3} | {of_roll:.2} |");
    } else {
        let quartiles = format!("({lower:.3} to {upper:.3})");
        println!("{name:<32}{ratio:>8.3}  {quartiles:<18}  {of_roll:>6.2} us for the roll   annuity {second:>8.0} ns");
    }
}

fn print_two(settings: &Settings, names: [&str; 2], name: &str, timing: &Timing) {
    let (Timing { first, second, ratio, lower, upper, .. }, [one, other]) = (timing, names);
    if settings.markdown {
        println!("| {name} | {ratio:.2} | {lower:.2} to {upper:.2} |");
    } else {
        let quartiles = format!("({lower:.2} to {upper:.2})");
        println!("{name:<32}{ratio:>8.2}  {quartiles:<18}  {one} {first:>8.0} ns   {other} {second:>8.0} ns");
    }
}

fn title(settings: &Settings, text: &str, columns: &str) {
    println!("\n{text}");
    if settings.markdown {
        println!("\n| work | {columns} |\n|---|{}", "---|".repeat(columns.matches('|').count() + 1));
    }
}

fn main() {
    let settings = settings();
    let run = Draft::benchmark().run;
    println!("rolls: {} rounds, the two in turn in one process; medians, and quartiles of the ratios", settings.rounds);
    for (proved, whose) in [(true, "proved archive"), (false, "Rust engine")] {
        let text = format!("Beside one cohort annuity of the same age and year, both by the {whose}:");
        title(&settings, &text, "call / annuity | quartiles | µs for the roll");
        for (name, work) in WORKS {
            let (mut call, mut annuity) = (work.done(&run, proved), annuity(&run, work.age(), proved));
            let timing = race(settings.rounds, MEASURE, &mut call, &mut annuity);
            print_beside_annuity(&settings, name, work, &timing);
        }
    }
    title(&settings, "The proved archive beside the Rust engine:", "proved / Rust | quartiles");
    for (name, work) in WORKS {
        let (mut proved, mut rust) = (work.done(&run, true), work.done(&run, false));
        let timing = race(settings.rounds, MEASURE, &mut proved, &mut rust);
        print_two(&settings, ["proved", "Rust"], name, &timing);
    }
    title(&settings, "What the search and the sum cost, by the proved archive:", "499 on the roll / empty | quartiles");
    for age in [65, 150] {
        let join = |members| Work::Join { number: NEW, age, members };
        let (mut many, mut none) = (join(MEMBERS - 1).done(&run, true), join(0).done(&run, true));
        let timing = race(settings.rounds, MEASURE, &mut many, &mut none);
        print_two(&settings, ["499", "empty"], &format!("join at {age}"), &timing);
    }
}
