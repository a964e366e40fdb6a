//! One basis in both forms: a run of the old form, and the run of the new form with the same fields, each P times 100.
//! What the archive answers on the one it answers on the other.
use super::calls::{Calls, Compared, edge};
use super::inputs;
use super::report::{Difference, FUNCTIONS, Function};
use crate::bases::forms::in_hundredths;
use crate::engine::form::Form;
use crate::engine::roll::{Joiner, LENGTH};
use crate::engine::sets::{GRID, Record};
use crate::ffi::{self, Lifeline, Records, Refusal};
use crate::guard::Guarded;
use crate::random::Random;
use std::fmt::Debug;

/// The two runs, both accepted, and the history that belongs to either.
struct Twins<'lent> {
    old: &'lent [u8],
    new: &'lent [u8],
    history: &'lent [u8],
}

/// How many answers were the same.
type Counted = Result<u64, Difference>;

impl Calls {
    /// Where the accepted run that is lent is of the old form, asks about it and about its twin.
    pub fn both_forms(&mut self, random: &mut Random) -> Compared {
        let mut twin = std::mem::replace(&mut self.twin, Guarded::new(0));
        let (old, history) = self.lent();
        let counted = if Form::of_run(old.len()) == Some(Form::Mpb1) {
            let new = twin.lend(&in_hundredths(old), edge(random));
            Twins { old, new, history }.ask(random)
        } else {
            Ok(0)
        };
        self.twin = twin;
        self.tally.alike(counted?);
        Ok(())
    }
}

fn alike<T: PartialEq + Debug>(function: Function, asked: &dyn Debug, old: &T, new: &T) -> Counted {
    let asked = || format!("both forms of one basis, {asked:?}");
    Calls::differing(function, &asked, [("MPB1", old), ("MPB2", new)]).map(|()| 1)
}

impl Twins<'_> {
    fn ask(&self, random: &mut Random) -> Counted {
        let mut count = 0;
        for _ in 0..4 {
            count += self.cells(random)? + self.lifeline(random)?;
        }
        count += self.values(random)? + self.outputs(random)? + self.join(random)?;
        if random.one_in(4) {
            count += self.sets(random)?;
        }
        Ok(count)
    }

    fn cells(&self, random: &mut Random) -> Counted {
        let (age, year) = (inputs::age(random), inputs::year(random, self.old));
        let cell = |ask: fn(&[u8], &[u8], u32, u32) -> ffi::Answer, function| {
            let [old, new] = [self.old, self.new].map(|run| ask(run, self.history, age, year));
            alike(function, &(age, year), &old, &new)
        };
        let [old, new] = [self.old, self.new].map(|run| ffi::improvement(run, self.history, age, year));
        let improvement = alike(Function::Improvement, &(age, year), &old, &new)?;
        Ok(improvement + cell(ffi::factor, Function::Factor)? + cell(ffi::rate, Function::Rate)?)
    }

    /// The place of too many survivors is the run's length, which is all that may differ.
    fn lifeline(&self, random: &mut Random) -> Counted {
        let (age, year) = inputs::position(random, self.old);
        let [old, new] = [self.old, self.new].map(|run| ffi::lifeline_start(run, self.history, age, year));
        let start = alike(Function::LifelineStart, &(age, year), &old, &new)?;
        let survivors = inputs::survivors(random);
        let [old, new] = [self.old, self.new].map(|run| ffi::lifeline_step(run, self.history, age, year, survivors));
        let place = |number, first| Refusal { number, first, second: 0 };
        let refusal = if old.refusal == place(5, 4554) { place(5, 5060) } else { old.refusal };
        Ok(start + alike(Function::LifelineStep, &(age, year, survivors), &Lifeline { refusal, ..old }, &new)?)
    }

    fn values(&self, random: &mut Random) -> Counted {
        let question = inputs::question(random, self.old);
        (0..6).try_fold(0, |count, which| {
            let [old, new] = [self.old, self.new].map(|run| ffi::enquiry(which, run, self.history, question));
            let function = FUNCTIONS[Function::PeriodSurvivorship as usize + which];
            Ok(count + alike(function, &question, &old, &new)?)
        })
    }

    /// The short forms are twins too; in the old form both are one file; and each is read back from its own.
    fn outputs(&self, random: &mut Random) -> Counted {
        let rate = inputs::long_term_rate(random);
        let (old, short) = written(4554, |out| ffi::short_form(self.old, rate, out));
        let short = short.map(|run| in_hundredths(&run));
        let new = written(5060, |out| ffi::short_form(self.new, rate, out));
        let short = alike(Function::ShortForm, &rate, &(old, short), &new)?;
        let file = written(4608, |out| ffi::write_basis(self.old, out));
        let [old, new] = [self.old, self.new].map(|run| written(4608, |out| ffi::write_old_form(run, out)));
        let written_alike = alike(Function::WriteOldForm, &"its file", &file, &new)?
            + alike(Function::WriteOldForm, &"its file", &old, &new)?;
        Ok(short + written_alike + read_back(self.old)? + read_back(self.new)?)
    }

    fn join(&self, random: &mut Random) -> Counted {
        let year = inputs::year(random, self.old);
        let joiner =
            Joiner { number: random.word() as u32, age: inputs::age(random), pension: random.below(10_000_001) as u32 };
        let [old, new] = [self.old, self.new].map(|run| {
            let mut roll = vec![0; LENGTH];
            let opened = ffi::roll_open(year, &mut roll);
            (opened, ffi::roll_join(run, self.history, &mut roll, joiner), roll)
        });
        alike(Function::RollJoin, &(year, joiner), &old, &new)
    }

    fn sets(&self, random: &mut Random) -> Counted {
        let questions = inputs::questions(random, self.old);
        let [old, new] = [self.old, self.new].map(|run| ffi::small_set(run, self.history, questions));
        let small_set = alike(Function::SmallSet, &questions, &old, &new)?;
        let points: [Record; GRID] = std::array::from_fn(|_| inputs::record(random, self.old));
        let [old, new] = [self.old, self.new].map(|run| {
            let mut records = points;
            let refusal = ffi::grid(run, self.history, &mut records);
            (refusal, records, ffi::direct_grid(run, self.history, Records { points }).points)
        });
        Ok(small_set + alike(Function::Grid, &"119 records", &old, &new)?)
    }
}

/// The outcome of a call with an output of so many bytes, and what it wrote if it was not refused.
fn written(length: usize, call: impl FnOnce(&mut [u8]) -> Refusal) -> (Refusal, Option<Vec<u8>>) {
    let mut output = vec![0; length];
    let refusal = call(&mut output);
    (refusal, (refusal.number == 0).then_some(output))
}

/// A run comes back from the file that is written of it in its own form.
fn read_back(run: &[u8]) -> Counted {
    let (_, file) = written(run.len() / 506 * 512, |out| ffi::write_basis(run, out));
    let back = written(run.len(), |out| ffi::read_basis(&file.unwrap_or_default(), out));
    alike(Function::ReadBasis, &"its own form", &(Refusal::default(), Some(run.to_vec())), &back)
}
