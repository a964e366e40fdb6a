//! One basis in both forms: a run of the old form and the run of the new form with the same fields, each P times 100.
//! Every call answers alike.
use super::basis::Basis;
use super::enquiries::*;
use super::file::{read_basis, write_basis, write_old_form};
use super::form::Form;
use super::lifeline::{self, Position, Step};
use super::refusal::Refusal;
use super::roll::{self, Joiner};
use super::sets::{self, GRID, Record};
use super::short_form::short_form;
use super::sweep::Sweep;
use super::units::UNIT;
use super::valuation::Kind;
use crate::bases::forms::in_hundredths;
use crate::bases::{Draft, histories, valid};
use crate::compare::inputs;
use crate::random::Random;
use std::fmt::Debug;

/// An old run, its twin of the new form, and the history that belongs to either.
struct Twins {
    old: Vec<u8>,
    new: Vec<u8>,
    history: Vec<u8>,
}

impl Twins {
    fn new(draft: Draft, history: Vec<u8>) -> Self {
        assert_eq!(draft.form(), Form::Mpb1);
        Twins { new: in_hundredths(&draft.run), old: draft.run, history }
    }

    /// What this call answers on both, which is the same.
    fn both<T: PartialEq + Debug>(&self, call: impl Fn(&[u8], &[u8]) -> T) -> T {
        let old = call(&self.old, &self.history);
        assert_eq!(call(&self.new, &self.history), old);
        old
    }

    fn alike<T: PartialEq + Debug>(&self, call: impl Fn(&[u8], &[u8]) -> T) {
        self.both(call);
    }
}

/// Runs of every kind, with histories of the years that they need.
fn of_every_kind(seed: u64, each: usize, mut ask: impl FnMut(&mut Random, &Twins)) {
    let mut random = Random::new(seed);
    let kinds = [
        valid::modest,
        valid::anywhere,
        valid::extreme,
        valid::brink,
        valid::edge,
        valid::fourfold,
        valid::uneven,
        valid::slow,
        valid::at_limits,
    ];
    for kind in kinds {
        for _ in 0..each {
            let draft = kind(&mut random);
            let history = histories::modest(&mut random, draft.history_years());
            ask(&mut random, &Twins::new(draft, history));
        }
    }
}

#[test]
fn enquiries_answer_alike() {
    let mut met = [0; 18];
    of_every_kind(1, 12, |random, twins| {
        assert_eq!(twins.both(|run, _| check_basis(run)), Ok(()));
        for _ in 0..40 {
            let question = inputs::question(random, &twins.old);
            let (age, deferment, year) = (question.age, question.deferment, question.year);
            let improved = twins.both(|run, history| improvement(run, history, age, year)).map(|_| 0);
            let mut outcomes = vec![improved];
            outcomes.extend([factor, rate].map(|ask| twins.both(|run, history| ask(run, history, age, year))));
            for kind in [Kind::Period, Kind::Cohort] {
                outcomes.extend(
                    [survivorship, expectation, annuity]
                        .map(|ask| twins.both(|run, history| ask(run, history, kind, age, deferment, year))),
                );
            }
            for outcome in outcomes {
                met[outcome.map_or_else(|refusal| refusal.number, |_| 0) as usize] += 1;
            }
        }
    });
    assert!([0, 6, 7, 8, 9, 10].iter().all(|&outcome| met[outcome] > 0), "{met:?}");
}

#[test]
fn sets_and_sweeps_answer_alike() {
    of_every_kind(2, 2, |random, twins| {
        let questions = inputs::questions(random, &twins.old).points.map(sets::Question::from);
        twins.alike(|run, history| sets::small_set(run, history, &questions));
        let records: [Record; GRID] = std::array::from_fn(|_| inputs::record(random, &twins.old));
        for fill in [sets::grid, sets::direct_grid] {
            twins.alike(|run, history| {
                let mut records = records;
                (fill(run, history, &mut records), records)
            });
        }
        let [mut old, mut new] =
            [&twins.old, &twins.new].map(|run| Sweep::start(Basis::accept(run, &twins.history).unwrap()));
        while old.year() < 2260 {
            old.step();
            new.step();
            assert!((20..=150).all(|age| old.factor(age) == new.factor(age)));
        }
    });
}

#[test]
fn lifelines_answer_alike_but_for_the_place_of_survivors() {
    let mut refused_survivors = 0;
    of_every_kind(3, 12, |random, twins| {
        for _ in 0..40 {
            let (age, year) = inputs::position(random, &twins.old);
            twins.alike(|run, history| lifeline::start(run, history, age, year));
            let position = Position { age, year, survivors: inputs::survivors(random) };
            let [old, new]: [Result<Step, Refusal>; 2] =
                [&twins.old, &twins.new].map(|run| lifeline::step(run, &twins.history, position));
            if old == Err(Refusal::field(4554)) {
                assert!(position.survivors > UNIT && new == Err(Refusal::field(5060)));
                refused_survivors += 1;
            } else {
                assert_eq!(old, new);
            }
        }
    });
    assert!(refused_survivors > 10);
}

#[test]
fn rolls_answer_alike() {
    of_every_kind(4, 6, |random, twins| {
        let year = inputs::year(random, &twins.old);
        let joiners: Vec<Joiner> = (0..8)
            .map(|number| Joiner { number, age: inputs::age(random), pension: random.below(10_000_001) as u32 })
            .collect();
        twins.alike(|run, history| {
            let mut numbers = vec![0; roll::LENGTH];
            let opened = roll::open(year, &mut numbers);
            let joined: Vec<_> = joiners.iter().map(|&joiner| roll::join(run, history, &mut numbers, joiner)).collect();
            (opened, joined, roll::leave(&mut numbers, 3), numbers)
        });
    });
}

/// The short forms are twins too, and in the old form both are one file.
#[test]
fn outputs_are_alike() {
    of_every_kind(5, 12, |random, twins| {
        let Twins { old, new, .. } = twins;
        let rate = inputs::long_term_rate(random);
        let (mut of_old, mut of_new) = (old.clone(), new.clone());
        assert_eq!(short_form(old, rate, &mut of_old), short_form(new, rate, &mut of_new));
        assert_eq!(in_hundredths(&of_old), of_new);
        let mut files = [[0; 4608]; 3];
        let [file, from_old, from_new] = &mut files;
        assert_eq!(write_basis(old, file), Ok(()));
        assert_eq!([write_old_form(old, from_old), write_old_form(new, from_new)], [Ok(()); 2]);
        assert!(from_old == file && from_new == file);
        let mut back = [0; 4554];
        assert_eq!(read_basis(from_new, &mut back), Ok(()));
        assert_eq!(back, old.as_slice());
    });
}
