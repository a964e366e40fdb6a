//! What was compared, and the first difference.
use super::form_report::Forms;
use super::later_report::Later;
use super::roll_report::Rolls;
use crate::engine::form::{FORMS, Form};
use crate::engine::sets::Record;
use crate::ffi::{Question, Refusal};
use std::fmt;

/// The functions of the header, in its order.
#[derive(Clone, Copy, Debug, PartialEq, Eq)]
pub enum Function {
    CheckBasis,
    ReadBasis,
    WriteBasis,
    WriteOldForm,
    ShortForm,
    Improvement,
    Factor,
    Rate,
    PeriodSurvivorship,
    CohortSurvivorship,
    PeriodExpectation,
    CohortExpectation,
    PeriodAnnuity,
    CohortAnnuity,
    SmallSet,
    Grid,
    LifelineStart,
    LifelineStep,
    RollOpen,
    RollJoin,
    RollLeave,
    RollTotal,
}

pub const FUNCTIONS: [Function; 22] = [
    Function::CheckBasis,
    Function::ReadBasis,
    Function::WriteBasis,
    Function::WriteOldForm,
    Function::ShortForm,
    Function::Improvement,
    Function::Factor,
    Function::Rate,
    Function::PeriodSurvivorship,
    Function::CohortSurvivorship,
    Function::PeriodExpectation,
    Function::CohortExpectation,
    Function::PeriodAnnuity,
    Function::CohortAnnuity,
    Function::SmallSet,
    Function::Grid,
    Function::LifelineStart,
    Function::LifelineStep,
    Function::RollOpen,
    Function::RollJoin,
    Function::RollLeave,
    Function::RollTotal,
];

impl Function {
    /// All but those that ask about the data run alone, or about a roll alone.
    pub fn lends_history(self) -> bool {
        use Function::*;
        !matches!(self, CheckBasis | ReadBasis | WriteBasis | WriteOldForm | ShortForm) && self.has_form()
    }

    /// All but those that ask about a roll alone are lent a run or a file, which may be of either form.
    fn has_form(self) -> bool {
        !matches!(self, Function::RollOpen | Function::RollLeave | Function::RollTotal)
    }
}

/// 0 for an answer, and the refusals 1 to 17; 12 belongs to lines of text, and no call of the archive gives it.
const OUTCOMES: usize = 18;

const EVERY_OUTCOME: [usize; OUTCOMES] = [0, 1, 2, 3, 4, 5, 6, 7, 8, 9, 10, 11, 12, 13, 14, 15, 16, 17];

/// What a history leads to: an answer by means of it, and its own refusals in their order.
const HISTORY_OUTCOMES: [usize; 6] = [0, 13, 2, 3, 4, 5];

type Counts = [[u64; OUTCOMES]; FUNCTIONS.len()];

/// Calls by function and by refusal, 0 for an answer. A point of a set is counted under its set.
#[derive(Clone, Default)]
pub struct Tally {
    calls: u64,
    outcomes: Counts,
    /// Of these, the answers on a run whose history is needed, and what the history itself refused.
    by_history: Counts,
    /// Of all outcomes, those on a run or a file of each form.
    by_form: [Counts; FORMS.len()],
    grids: Grids,
    pub rolls: Rolls,
    pub forms: Forms,
    pub later: Later,
}

/// Grids as a whole.
#[derive(Clone, Default)]
struct Grids {
    /// Filled or refused, and the same in the archive's own direct grid.
    direct: u64,
    /// Filled, on an accepted basis.
    filled: u64,
    /// Of these, by what is to be met in one grid.
    mixed: [u64; MIXTURES.len()],
}

/// Where a year sweep could mistake one record for another, or one age's refusal for another's.
const MIXTURES: [(&str, fn(&[Record]) -> bool); 4] = [
    ("answers beside 9", |records| has(records, 0) && has(records, 9)),
    ("answers beside 10", |records| has(records, 0) && has(records, 10)),
    ("9 or 10 at several ages and in several years", |records| {
        let refused: Vec<_> = records.iter().filter(|record| record.refusal > 8).collect();
        refused.iter().any(|other| other.first != refused[0].first && other.second != refused[0].second)
    }),
    ("answers of several years and deferments", |records| {
        let answered: Vec<_> = records.iter().filter(|record| record.refusal == 0).collect();
        answered.iter().any(|other| other.year != answered[0].year && other.deferment != answered[0].deferment)
    }),
];

fn has(records: &[Record], refusal: u32) -> bool {
    records.iter().any(|record| record.refusal == refusal)
}

impl Tally {
    pub fn call(&mut self) {
        self.calls += 1;
    }

    pub fn outcome(&mut self, function: Function, refusal: u32, form: Option<Form>) {
        let place = (refusal as usize).min(OUTCOMES - 1);
        self.outcomes[function as usize][place] += 1;
        if let Some(form) = form {
            self.by_form[form as usize][function as usize][place] += 1;
        }
    }

    pub fn by_history(&mut self, function: Function, refusal: u32) {
        self.by_history[function as usize][(refusal as usize).min(OUTCOMES - 1)] += 1;
    }

    /// A grid that the archive's own direct grid has the same.
    pub fn direct_grid(&mut self) {
        self.calls += 1;
        self.grids.direct += 1;
    }

    /// So many answers of the archive that are the same on both forms of a basis.
    pub fn alike(&mut self, answers: u64) {
        self.calls += answers;
        self.forms.alike(answers);
    }

    /// The records of a grid on an accepted basis, as they were filled.
    pub fn filled_grid(&mut self, records: &[Record], form: Option<Form>) {
        self.grids.filled += 1;
        for (count, (_, is_met)) in self.grids.mixed.iter_mut().zip(MIXTURES) {
            *count += u64::from(is_met(records));
        }
        for &Record { age, deferment, year, refusal: number, first, second, .. } in records {
            self.outcome(Function::Grid, number, form);
            self.later.note(Function::Grid, Question { age, deferment, year }, Refusal { number, first, second });
        }
    }

    pub fn calls(&self) -> u64 {
        self.calls
    }

    pub fn add(&mut self, other: &Tally) {
        self.calls += other.calls;
        let counts = [&mut self.outcomes, &mut self.by_history].into_iter().chain(&mut self.by_form);
        let more = [&other.outcomes, &other.by_history].into_iter().chain(&other.by_form);
        for (counts, more) in counts.zip(more) {
            counts.as_flattened_mut().iter_mut().zip(more.as_flattened()).for_each(|(sum, count)| *sum += count);
        }
        self.grids.add(&other.grids);
        self.rolls.add(&other.rolls);
        self.forms.add(&other.forms);
        self.later.add(&other.later);
    }

    /// Answers and refusals that can be given and that were never met.
    pub fn missing(&self) -> Vec<String> {
        let mut missing = Vec::new();
        for function in FUNCTIONS {
            for &refusal in possible(function) {
                if self.outcomes[function as usize][refusal] == 0 {
                    missing.push(format!("{function:?} {refusal}"));
                }
                let never = |form: &Form| self.by_form[*form as usize][function as usize][refusal] == 0;
                for form in FORMS.iter().filter(|&form| in_form(function, refusal, *form) && never(form)) {
                    missing.push(format!("{function:?} {refusal} of {form}"));
                }
            }
            for refusal in HISTORY_OUTCOMES {
                if function.lends_history() && self.by_history[function as usize][refusal] == 0 {
                    missing.push(format!("{function:?} {refusal} by the history"));
                }
            }
        }
        missing.extend(self.grids.missing());
        missing.extend(self.rolls.missing());
        missing.extend(self.forms.missing());
        missing.extend(self.later.missing());
        missing
    }

    /// Outcomes that no basis can lead to and that were met, by both engines alike.
    pub fn impossible(&self) -> Vec<String> {
        self.later.impossible().collect()
    }
}

impl Grids {
    fn add(&mut self, other: &Grids) {
        self.direct += other.direct;
        self.filled += other.filled;
        self.mixed.iter_mut().zip(other.mixed).for_each(|(sum, count)| *sum += count);
    }

    fn missing(&self) -> impl Iterator<Item = String> {
        let never = self.mixed.iter().zip(MIXTURES).filter(|(count, _)| **count == 0);
        let none_direct = (self.direct == 0).then(|| "the direct grid".to_string());
        never.map(|(_, (what, _))| format!("a grid with {what}")).chain(none_direct)
    }
}

impl fmt::Display for Grids {
    fn fmt(&self, f: &mut fmt::Formatter) -> fmt::Result {
        writeln!(f, "{} grids filled or refused as the archive's own direct grid has it", self.direct)?;
        write!(f, "{} grids filled", self.filled)?;
        for (count, (what, _)) in self.mixed.iter().zip(MIXTURES) {
            write!(f, "; {count} with {what}")?;
        }
        writeln!(f)
    }
}

/// 0 and the refusals that 01 names for each function, without those of a history.
fn possible(function: Function) -> &'static [usize] {
    use Function::*;
    match function {
        CheckBasis => &[0, 1, 4, 5],
        ReadBasis => &[0, 1, 2, 3, 4, 5, 11],
        WriteBasis | ShortForm => &[0, 1, 4, 5, 11],
        WriteOldForm => &[0, 1, 4, 5, 11, 17],
        Improvement => &[0, 1, 4, 5, 6, 7, 9],
        Factor | Rate => &[0, 1, 4, 5, 6, 7, 9, 10],
        SmallSet => &[0, 1, 4, 5, 6, 7, 8, 9, 10],
        Grid => &[0, 1, 4, 5, 6, 7, 8, 9, 10, 11],
        LifelineStart => &[0, 1, 4, 5, 6, 7],
        LifelineStep => &[0, 1, 4, 5, 6, 7, 9, 10],
        RollOpen | RollTotal => &[0, 11],
        RollJoin => &[0, 1, 4, 5, 6, 7, 9, 10, 11, 14, 16],
        RollLeave => &[0, 11, 15],
        _ => &[0, 1, 4, 5, 6, 7, 8, 9, 10],
    }
}

/// Whether a run or a file of this form can lead to this outcome: 1 is for those of none, and 17 for the new form.
fn in_form(function: Function, refusal: usize, form: Form) -> bool {
    function.has_form() && refusal != 1 && (refusal != 17 || form == Form::Mpb2)
}

impl fmt::Display for Tally {
    fn fmt(&self, f: &mut fmt::Formatter) -> fmt::Result {
        table(f, "", &FUNCTIONS, &EVERY_OUTCOME, &self.outcomes)?;
        let lending: Vec<Function> = FUNCTIONS.into_iter().filter(|function| function.lends_history()).collect();
        table(f, "by the history", &lending, &HISTORY_OUTCOMES, &self.by_history)?;
        let formed: Vec<Function> = FUNCTIONS.into_iter().filter(|function| function.has_form()).collect();
        let new = Form::Mpb2;
        table(f, &format!("of {new}"), &formed, &EVERY_OUTCOME, &self.by_form[new as usize])?;
        write!(f, "{}{}{}{}", self.later, self.grids, self.rolls, self.forms)
    }
}

/// A row for each function, a column for each outcome, and their sums.
fn table(f: &mut fmt::Formatter, title: &str, rows: &[Function], columns: &[usize], counts: &Counts) -> fmt::Result {
    write!(f, "{title:<20}")?;
    for &outcome in columns {
        if outcome == 0 { write!(f, "{:>10}", "answered")? } else { write!(f, "{outcome:>8}")? }
    }
    writeln!(f)?;
    let mut line = |name: String, count: &dyn Fn(usize) -> u64| {
        write!(f, "{name:<20}")?;
        for &outcome in columns {
            write!(f, "{:>1$}", count(outcome), if outcome == 0 { 10 } else { 8 })?;
        }
        writeln!(f)
    };
    for &function in rows {
        line(format!("{function:?}"), &|outcome| counts[function as usize][outcome])?;
    }
    line("all".into(), &|outcome| rows.iter().map(|&function| counts[function as usize][outcome]).sum())
}

/// A call on which two engines differ, or that broke the header's promise about a lent output.
#[derive(Debug)]
pub struct Difference {
    pub function: Function,
    pub asked: String,
    /// Who answered, and what.
    pub answers: [(&'static str, String); 2],
}

impl fmt::Display for Difference {
    fn fmt(&self, f: &mut fmt::Formatter) -> fmt::Result {
        write!(f, "{:?} of {}", self.function, self.asked)?;
        self.answers.iter().try_for_each(|(who, answer)| write!(f, "\n  {:<8}{answer}", format!("{who}:")))
    }
}
