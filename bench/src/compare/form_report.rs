//! What came up of the two forms, besides each call's answers and refusals.
use super::report::Function;
use crate::engine::form::{Form, Table::*};
use crate::engine::layout::short;
use crate::ffi::Refusal;
use std::fmt;

/// A call on a run, and its outcome.
pub struct Seen<'lent> {
    pub function: Function,
    pub run: &'lent [u8],
    pub refusal: Refusal,
}

impl Seen<'_> {
    fn is(&self, function: Function, form: Form, number: u32) -> bool {
        self.function == function && self.run.len() == form.run_length() && self.refusal.number == number
    }

    /// The old form refused by this number at this place, of a run of the new form.
    fn old_form(&self, number: u32, place: u64) -> bool {
        self.is(Function::WriteOldForm, Form::Mpb2, number) && self.refusal.first == place
    }

    /// A run of the new form refused at this place.
    fn checked(&self, number: u32, place: u64) -> bool {
        self.is(Function::CheckBasis, Form::Mpb2, number) && self.refusal.first == place
    }

    fn zero_bytes_on_both_sides(&self) -> bool {
        (16..30).any(|place| self.checked(4, place)) && self.run[Form::Mpb2.tail()].iter().any(|&byte| byte != 0)
    }

    /// A run of this form refused for its mark, which is the other's.
    fn has_mark(&self, form: Form, mark: &[u8]) -> bool {
        self.is(Function::CheckBasis, form, 4) && self.run.starts_with(mark)
    }

    fn survivors(&self, form: Form, place: u64) -> bool {
        self.is(Function::LifelineStep, form, 5) && self.refusal.first == place
    }

    /// This outcome, on a run of the new form with a P that is no whole per cent.
    fn fraction_and(&self, function: Function, number: u32) -> bool {
        let has_fraction =
            |table| Form::Mpb2.stretch(table).step_by(2).any(|place| !short(self.run, place).is_multiple_of(100));
        self.is(function, Form::Mpb2, number) && [AgeProportions, BirthProportions].into_iter().any(has_fraction)
    }
}

type Event = (&'static str, fn(&Seen) -> bool);

const EVENTS: [Event; 20] = [
    ("MPB1 runs written in the old form", |seen| seen.is(Function::WriteOldForm, Form::Mpb1, 0)),
    ("MPB2 runs written in the old form", |seen| seen.is(Function::WriteOldForm, Form::Mpb2, 0)),
    ("refused by 17 at the first age", |seen| seen.old_form(17, 1733)),
    ("by 17 at the last age", |seen| seen.old_form(17, 1993)),
    ("by 17 at the first birth year", |seen| seen.old_form(17, 4416)),
    ("by 17 at the last birth year", |seen| seen.old_form(17, 4952)),
    ("by 5 with a P that is no whole per cent", |seen| seen.fraction_and(Function::WriteOldForm, 5)),
    ("by 4 with such a P", |seen| seen.fraction_and(Function::WriteOldForm, 4)),
    ("MPB2 runs accepted with such a P", |seen| seen.fraction_and(Function::CheckBasis, 0)),
    ("refused for P of the first age", |seen| seen.checked(5, 1733)),
    ("for P of the last age", |seen| seen.checked(5, 1993)),
    ("for P of the first birth year", |seen| seen.checked(5, 4416)),
    ("for P of the last birth year", |seen| seen.checked(5, 4952)),
    ("for the first byte behind the tables", |seen| seen.checked(4, 4954)),
    ("for the last byte behind the tables", |seen| seen.checked(4, 5059)),
    ("for a byte before the tables with others behind them", |seen| seen.zero_bytes_on_both_sides()),
    ("marks MPB2 at the length of MPB1", |seen| seen.has_mark(Form::Mpb1, b"MPB2")),
    ("marks MPB1 at the length of MPB2", |seen| seen.has_mark(Form::Mpb2, b"MPB1")),
    ("survivors refused at 4554", |seen| seen.survivors(Form::Mpb1, 4554)),
    ("survivors refused at 5060", |seen| seen.survivors(Form::Mpb2, 5060)),
];

/// How often each came up, and how many answers of the archive were the same on both forms of one basis.
#[derive(Clone, Default)]
pub struct Forms {
    counts: [u64; EVENTS.len()],
    alike: u64,
}

impl Forms {
    pub fn note(&mut self, seen: &Seen) {
        for (count, (_, is_met)) in self.counts.iter_mut().zip(EVENTS) {
            *count += u64::from(is_met(seen));
        }
    }

    pub fn alike(&mut self, answers: u64) {
        self.alike += answers;
    }

    pub fn add(&mut self, other: &Forms) {
        self.counts.iter_mut().zip(other.counts).for_each(|(sum, count)| *sum += count);
        self.alike += other.alike;
    }

    pub fn missing(&self) -> impl Iterator<Item = String> {
        let never = self.counts.iter().zip(EVENTS).filter(|(count, _)| **count == 0);
        let none_alike = (self.alike == 0).then(|| "forms: one basis in both".to_string());
        never.map(|(_, (what, _))| format!("forms: {what}")).chain(none_alike)
    }
}

impl fmt::Display for Forms {
    fn fmt(&self, f: &mut fmt::Formatter) -> fmt::Result {
        let parts: Vec<String> =
            self.counts.iter().zip(EVENTS).map(|(count, (what, _))| format!("{count} {what}")).collect();
        writeln!(f, "forms: {}", parts.join("; "))?;
        writeln!(f, "{} answers of the archive that are the same on both forms of one basis", self.alike)
    }
}
