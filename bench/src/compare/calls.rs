//! One call of each function to both engines, compared in every field and in every byte of the lent output.
use super::form_report::Seen;
use super::inputs;
use super::report::{Difference, FUNCTIONS, Function, Tally};
use crate::bases::damaged;
use crate::engine::basis::Basis;
use crate::engine::enquiries;
use crate::engine::form::Form;
use crate::engine::lifeline::{self, Position};
use crate::engine::sets::{self, GRID, Record};
use crate::engine::valuation::Kind;
use crate::ffi::{self, Answer, Lifeline, Question, Records, Refusal, SignedAnswer, SmallSet};
use crate::guard::{Edge, Guarded};
use crate::random::Random;
use std::fmt::Debug;

/// The buffers that are lent, and the count of what was seen.
pub struct Calls {
    /// The kind of the basis that is lent.
    pub kind: &'static str,
    pub(super) run: Guarded,
    pub(super) history: Guarded,
    part: HistoryPart,
    /// The run of the new form with the same fields as the one of the old form that is lent.
    pub(super) twin: Guarded,
    pub(super) file: Guarded,
    pub(super) output: Guarded,
    records: Guarded,
    pub(super) roll: Guarded,
    pub tally: Tally,
}

/// What the history that is lent has to do with the answers.
#[derive(Clone, Copy, PartialEq, Eq)]
enum HistoryPart {
    /// The run is refused, or needs no history and gets none.
    None,
    Used,
    Refused,
}

pub(super) type Compared = Result<(), Difference>;

impl Default for Calls {
    fn default() -> Self {
        let room = Guarded::new;
        Calls {
            kind: "none",
            run: room(2),
            // a year more than the longest has
            history: room(23),
            part: HistoryPart::None,
            twin: room(2),
            file: room(2),
            output: room(3),
            records: room(2),
            roll: room(5),
            tally: Tally::default(),
        }
    }
}

impl Calls {
    /// Lends this run and its history to the calls that follow.
    pub fn lend(&mut self, random: &mut Random, basis: inputs::Basis) {
        let inputs::Basis { kind, run, history } = basis;
        self.kind = kind;
        self.run.lend(&run, edge(random));
        self.history.lend(&history, edge(random));
        self.part = match (enquiries::check_basis(&run), Basis::accept(&run, &history)) {
            (Ok(()), Err(_)) => HistoryPart::Refused,
            (Ok(()), Ok(_)) if !history.is_empty() => HistoryPart::Used,
            _ => HistoryPart::None,
        };
    }

    /// The data run and the history.
    pub fn lent(&self) -> (&[u8], &[u8]) {
        (self.run.bytes(), self.history.bytes())
    }

    /// Whether this outcome of a call is an answer by means of the history, or the history's own refusal.
    pub(super) fn by_history(&self, function: Function, refusal: u32) -> bool {
        function.lends_history()
            && match self.part {
                HistoryPart::None => false,
                HistoryPart::Used => refusal == 0,
                HistoryPart::Refused => refusal != 11,
            }
    }

    /// The form of what is lent to this function, if it has one.
    pub(super) fn form(&self, function: Function) -> Option<Form> {
        match function {
            Function::ReadBasis => Form::of_file(self.file.bytes().len()),
            Function::RollOpen | Function::RollLeave | Function::RollTotal => None,
            _ => Form::of_run(self.run.bytes().len()),
        }
    }

    pub(super) fn same<T: PartialEq + Debug>(
        &mut self,
        function: Function,
        refusal: Refusal,
        asked: &dyn Fn() -> String,
        rust: &T,
        proved: &T,
    ) -> Compared {
        let number = refusal.number;
        self.tally.call();
        self.tally.outcome(function, number, self.form(function));
        self.tally.forms.note(&Seen { function, run: self.run.bytes(), refusal });
        if self.by_history(function, number) {
            self.tally.by_history(function, number);
        }
        Self::compared(function, asked, rust, proved)
    }

    /// No difference, or the one of these two answers.
    pub(super) fn compared<T: PartialEq + Debug>(
        function: Function,
        asked: &dyn Fn() -> String,
        rust: &T,
        proved: &T,
    ) -> Compared {
        Self::differing(function, asked, [("Rust", rust), ("proved", proved)])
    }

    /// The same of two who have a name.
    pub(super) fn differing<T: PartialEq + Debug>(
        function: Function,
        asked: &dyn Fn() -> String,
        answers: [(&'static str, &T); 2],
    ) -> Compared {
        let [(_, one), (_, other)] = answers;
        if one == other {
            return Ok(());
        }
        let answers = answers.map(|(who, answer)| (who, format!("{answer:?}")));
        Err(Difference { function, asked: asked(), answers })
    }

    pub fn check_basis(&mut self) -> Compared {
        let proved = ffi::check_basis(self.run.bytes());
        let rust = Refusal::from(enquiries::check_basis(self.run.bytes()));
        self.same(Function::CheckBasis, rust, &|| "the run".into(), &rust, &proved)
    }

    /// Lends copies of the run that is lent, each damaged in a way of its own, and then the run again.
    pub fn damaged_copies(&mut self, random: &mut Random) -> Compared {
        let (kind, (run, history)) = (self.kind, self.lent());
        let (run, history) = (run.to_vec(), history.to_vec());
        for _ in 0..4 {
            let mut copy = run.clone();
            damaged::damage(random, &mut copy);
            self.lend(random, inputs::Basis { kind: "damaged", run: copy, history: history.clone() });
            self.check_basis()?;
            self.write_old_form(random)?;
        }
        self.lend(random, inputs::Basis { kind, run, history });
        Ok(())
    }

    pub fn improvement(&mut self, random: &mut Random) -> Compared {
        let (run, history) = self.lent();
        let (age, year) = (inputs::age(random), inputs::year(random, run));
        let proved = ffi::improvement(run, history, age, year);
        let rust = SignedAnswer::from(enquiries::improvement(run, history, age, year));
        let asked = || format!("age {age} year {year}");
        self.tally.later.note(Function::Improvement, Question { age, deferment: 0, year }, rust.refusal);
        self.same(Function::Improvement, rust.refusal, &asked, &rust, &proved)
    }

    pub fn factor_or_rate(&mut self, random: &mut Random) -> Compared {
        let (run, history) = self.lent();
        let (age, year) = (inputs::age(random), inputs::year(random, run));
        let (function, proved, rust) = if random.one_in(2) {
            (Function::Factor, ffi::factor(run, history, age, year), enquiries::factor(run, history, age, year))
        } else {
            (Function::Rate, ffi::rate(run, history, age, year), enquiries::rate(run, history, age, year))
        };
        let rust = Answer::from(rust);
        self.tally.later.note(function, Question { age, deferment: 0, year }, rust.refusal);
        self.same(function, rust.refusal, &|| format!("age {age} year {year}"), &rust, &proved)
    }

    /// Survivorship, expectation or annuity, period or cohort.
    pub fn enquiry(&mut self, random: &mut Random) -> Compared {
        let which = random.below(6) as usize;
        let (run, history) = self.lent();
        let question = inputs::question(random, run);
        let Question { age, deferment, year } = question;
        let kind = if which.is_multiple_of(2) { Kind::Period } else { Kind::Cohort };
        let ask = [enquiries::survivorship, enquiries::expectation, enquiries::annuity][which / 2];
        let proved = ffi::enquiry(which, run, history, question);
        let rust = Answer::from(ask(run, history, kind, age, deferment, year));
        let function = FUNCTIONS[Function::PeriodSurvivorship as usize + which];
        self.tally.later.note(function, question, rust.refusal);
        self.same(function, rust.refusal, &|| format!("{question:?}"), &rust, &proved)
    }

    pub fn small_set(&mut self, random: &mut Random) -> Compared {
        let (run, history) = self.lent();
        let questions = inputs::questions(random, run);
        let proved = ffi::small_set(run, history, questions);
        let rust = SmallSet::from(sets::small_set(run, history, &questions.points.map(sets::Question::from)));
        if rust.refusal.number == 0 {
            let form = self.form(Function::SmallSet);
            for (point, question) in rust.points.iter().zip(questions.points) {
                self.tally.outcome(Function::SmallSet, point.refusal.number, form);
                self.tally.later.note(Function::SmallSet, question, point.refusal);
            }
        }
        self.same(Function::SmallSet, rust.refusal, &|| format!("{questions:?}"), &rust, &proved)
    }

    /// The grid, with the same promise about its records as an output has about its bytes.
    pub fn grid(&mut self, random: &mut Random) -> Compared {
        let (run, history) = (self.run.bytes(), self.history.bytes());
        let count = inputs::records_count(random);
        let mut rust_records: Vec<Record> = (0..count).map(|_| inputs::record(random, run)).collect();
        self.records.place(count * size_of::<Record>(), edge(random));
        // a record is whole numbers without gaps
        let lent = unsafe { self.records.values_mut::<Record>() };
        lent.copy_from_slice(&rust_records);
        let before = rust_records.clone();
        let proved = ffi::grid(run, history, lent);
        let rust = Refusal::from(sets::grid(run, history, &mut rust_records));
        let kept = proved.number == 0 || lent == before;
        let differing = lent.iter().zip(&rust_records).position(|(found, wanted)| found != wanted);
        let found = differing.map(|place| (place, before[place], rust_records[place], lent[place]));
        if let (Some(before), Some(filled)) = (before.first_chunk(), lent.first_chunk()) {
            same_directly(run, history, before, filled)?;
            self.tally.direct_grid();
        }
        if rust.number == 0 {
            let form = self.form(Function::Grid);
            self.tally.filled_grid(&rust_records[..GRID], form);
        }
        let asked = || format!("{count} records; place, before, Rust, proved of the first that differs: {found:?}");
        self.same(Function::Grid, rust, &asked, &(rust, true, true), &(proved, kept, found.is_none()))
    }

    pub fn lifeline_start(&mut self, random: &mut Random) -> Compared {
        let (run, history) = self.lent();
        let (age, year) = (inputs::age(random), inputs::year(random, run));
        let proved = ffi::lifeline_start(run, history, age, year);
        let rust = Lifeline::of_start(lifeline::start(run, history, age, year));
        self.same(Function::LifelineStart, rust.refusal, &|| format!("age {age} year {year}"), &rust, &proved)
    }

    pub fn lifeline_step(&mut self, random: &mut Random) -> Compared {
        let (run, history) = self.lent();
        let (age, year) = inputs::position(random, run);
        let position = Position { age, year, survivors: inputs::survivors(random) };
        let proved = ffi::lifeline_step(run, history, age, year, position.survivors);
        let rust = Lifeline::of_step(position, lifeline::step(run, history, position));
        self.tally.later.note(Function::LifelineStep, Question { age, deferment: 0, year }, rust.refusal);
        self.same(Function::LifelineStep, rust.refusal, &|| format!("{position:?}"), &rust, &proved)
    }
}

/// The archive against itself: what its grid made of these records, filled or kept, its direct grid makes of them too.
fn same_directly(run: &[u8], history: &[u8], before: &[Record; GRID], filled: &[Record; GRID]) -> Compared {
    let direct = ffi::direct_grid(run, history, Records { points: *before }).points;
    match (0..GRID).find(|&place| direct[place] != filled[place]) {
        Some(place) => Err(Difference {
            function: Function::Grid,
            asked: format!("record {place}, in which the archive's grid and its own direct grid differ"),
            answers: [("grid", format!("{:?}", filled[place])), ("direct", format!("{:?}", direct[place]))],
        }),
        None => Ok(()),
    }
}

pub fn edge(random: &mut Random) -> Edge {
    random.pick(&[Edge::Front, Edge::Back])
}
