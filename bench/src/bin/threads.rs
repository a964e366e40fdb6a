//! Two threads ask the archive on the same lent run and history, in different orders at the same time, and get the
//! answers that one thread got before: there is no state to share.
use parvusek_bench::bases::{Draft, histories};
use parvusek_bench::compare::inputs;
use parvusek_bench::engine::form::FORMS;
use parvusek_bench::engine::roll::{Joiner, LENGTH};
use parvusek_bench::ffi::{self, Answer, Lifeline, Question, Refusal, SignedAnswer, SmallSet};
use parvusek_bench::random::Random;
use std::process::ExitCode;
use std::sync::Barrier;
use std::thread;

#[derive(Debug, PartialEq)]
struct Answers {
    check: Refusal,
    improvement: SignedAnswer,
    cells: [Answer; 2],
    enquiries: [Answer; 6],
    lifeline: [Lifeline; 2],
    roll: (Refusal, [Answer; 3]),
    set: Option<SmallSet>,
}

/// A roll of its own for this question's year, joined at its age and left.
fn roll(run: &[u8], history: &[u8], question: Question) -> (Refusal, [Answer; 3]) {
    let (mut numbers, number) = (vec![0; LENGTH], 7);
    let opened = ffi::roll_open(question.year, &mut numbers);
    let joiner = Joiner { number, age: question.age, pension: 1_234_567 };
    let joined = ffi::roll_join(run, history, &mut numbers, joiner);
    (opened, [joined, ffi::roll_total(&numbers), ffi::roll_leave(&mut numbers, number)])
}

/// Everything about one question; the small set for one in eight, as it costs the most.
fn ask(run: &[u8], history: &[u8], index: usize, question: Question) -> Answers {
    let Question { age, year, .. } = question;
    let set = index.is_multiple_of(8).then(|| ffi::small_set(run, history, ffi::Questions { points: [question; 6] }));
    Answers {
        check: ffi::check_basis(run),
        improvement: ffi::improvement(run, history, age, year),
        cells: [ffi::factor(run, history, age, year), ffi::rate(run, history, age, year)],
        enquiries: std::array::from_fn(|which| ffi::enquiry(which, run, history, question)),
        lifeline: [
            ffi::lifeline_start(run, history, age, year),
            ffi::lifeline_step(run, history, age, year, 987_654_321),
        ],
        roll: roll(run, history, question),
        set,
    }
}

/// The questions that two threads, one of them backwards, got another answer to than one thread.
fn differing(run: &[u8], history: &[u8], questions: &[Question]) -> Vec<Option<usize>> {
    let asked = |index: usize| ask(run, history, index, questions[index]);
    let alone: Vec<Answers> = (0..questions.len()).map(asked).collect();
    let together = Barrier::new(2);
    let compare = |backwards: bool| {
        together.wait();
        (0..questions.len()).find(|&index| {
            let index = if backwards { questions.len() - 1 - index } else { index };
            asked(index) != alone[index]
        })
    };
    thread::scope(|scope| {
        let threads = [scope.spawn(|| compare(false)), scope.spawn(|| compare(true))];
        threads.into_iter().map(|thread| thread.join().expect("a thread panicked")).collect()
    })
}

fn main() -> ExitCode {
    let history = histories::benchmark(6);
    let mut random = Random::new(1);
    for form in FORMS {
        let run = Draft::benchmark_from(2006, 2000).in_form(form).run;
        let questions: Vec<Question> = (0..400).map(|_| inputs::question(&mut random, &run)).collect();
        let found = differing(&run, &history, &questions);
        if found.iter().any(Option::is_some) {
            println!(
                "threads: FAILED: two threads on one {form} run and history got other answers than one, at {found:?}"
            );
            return ExitCode::FAILURE;
        }
    }
    println!("threads: 2 threads on one run and history of either form got the answers of one, 400 questions each");
    ExitCode::SUCCESS
}
