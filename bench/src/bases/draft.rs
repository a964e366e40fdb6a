//! A data run in the making, every field of which can be set.
use super::forms::in_hundredths;
use crate::engine::form::{BY_AGE, BY_BIRTH_YEAR, Form, Table};
use crate::engine::layout::*;

#[derive(Clone)]
pub struct Draft {
    pub run: Vec<u8>,
}

/// The four tables of one component.
#[derive(Clone, Copy, Debug, PartialEq, Eq)]
pub enum Component {
    Age,
    BirthYear,
}

impl Component {
    pub fn entries(self) -> usize {
        match self {
            Component::Age => AGES,
            Component::BirthYear => BIRTH_YEARS,
        }
    }

    /// Its I, L, T and P.
    fn tables(self) -> [Table; 4] {
        match self {
            Component::Age => BY_AGE,
            Component::BirthYear => BY_BIRTH_YEAR,
        }
    }
}

impl Draft {
    /// Every rate 0, T 20, P 50, in the old form: accepted as it is.
    pub fn plain(foundation_year: u16, base_year: u16) -> Self {
        let form = Form::Mpb1;
        let mut draft = Draft { run: vec![0; form.run_length()] };
        draft.run[..4].copy_from_slice(&form.mark());
        draft.set_years(foundation_year, base_year);
        for component in [Component::Age, Component::BirthYear] {
            for index in 0..component.entries() {
                draft.set_component(component, index, [0, 0], 20, 50);
            }
        }
        draft
    }

    /// The same fields in this form; a draft of the new form is there already.
    pub fn in_form(self, form: Form) -> Self {
        if form == self.form() { self } else { Draft { run: in_hundredths(&self.run) } }
    }

    pub fn form(&self) -> Form {
        Form::of_run(self.run.len()).expect("a draft has one of the two lengths")
    }

    pub fn set_years(&mut self, foundation_year: u16, base_year: u16) {
        self.run[FOUNDATION_YEAR..][..2].copy_from_slice(&foundation_year.to_le_bytes());
        self.run[BASE_YEAR..][..2].copy_from_slice(&base_year.to_le_bytes());
    }

    /// The years that its history must have: those after the base year up to the foundation year.
    pub fn history_years(&self) -> usize {
        let year = |offset| usize::from(u16::from_le_bytes([self.run[offset], self.run[offset + 1]]));
        year(FOUNDATION_YEAR).saturating_sub(year(BASE_YEAR))
    }

    pub fn set_number(&mut self, offset: usize, value: i32) {
        self.run[offset..][..4].copy_from_slice(&value.to_le_bytes());
    }

    pub fn set_addition(&mut self, addition: i32) {
        self.set_number(CONSTANT_ADDITION, addition);
    }

    pub fn set_discount_rate(&mut self, rate: i32) {
        self.set_number(DISCOUNT_RATE, rate);
    }

    fn set_rate(&mut self, table: Table, index: usize, rate: i32) {
        self.set_number(self.form().offset(table) + 4 * index, rate);
    }

    pub fn set_base_rate(&mut self, index: usize, rate: i32) {
        self.set_rate(Table::BaseRates, index, rate);
    }

    /// The initial and the long-term rate, T and P in per cents of one age or birth year, counted from the first.
    pub fn set_component(&mut self, component: Component, index: usize, rates: [i32; 2], period: u8, per_cents: u8) {
        let [initial, long_term, periods, _] = component.tables();
        self.set_rate(initial, index, rates[0]);
        self.set_rate(long_term, index, rates[1]);
        let periods = self.form().offset(periods);
        self.run[periods + index] = period;
        self.set_proportion(component, index, 100 * u16::from(per_cents));
    }

    /// P in hundredths of a per cent, whole per cents in the old form.
    pub fn set_proportion(&mut self, component: Component, index: usize, hundredths: u16) {
        let form = self.form();
        let [.., proportions] = component.tables();
        let offset = form.offset(proportions);
        match form {
            Form::Mpb1 => {
                assert!(hundredths.is_multiple_of(100), "{hundredths} hundredths are no whole per cents");
                self.run[offset + index] = (hundredths / 100) as u8;
            }
            Form::Mpb2 => self.run[offset + 2 * index..][..2].copy_from_slice(&hundredths.to_le_bytes()),
        }
    }

    /// P in hundredths of a per cent.
    pub fn proportion(&self, component: Component, index: usize) -> u16 {
        let form = self.form();
        let [.., proportions] = component.tables();
        let offset = form.offset(proportions);
        match form {
            Form::Mpb1 => 100 * u16::from(self.run[offset + index]),
            Form::Mpb2 => u16::from_le_bytes([self.run[offset + 2 * index], self.run[offset + 2 * index + 1]]),
        }
    }

    /// The benchmark's basis with other years.
    pub fn benchmark_from(foundation_year: u16, base_year: u16) -> Self {
        let mut draft = Draft::benchmark();
        draft.set_years(foundation_year, base_year);
        draft
    }

    /// As the basis that the benchmark values: 2006, rates that double every ten years of age, improvements of 2.5 per
    /// cent by age and 1 by birth year that run to 1 and 0 over 10 to 40 years, discount 3 per cent.
    pub fn benchmark() -> Self {
        let mut draft = Draft::plain(2006, 2006);
        draft.set_discount_rate(30_000_000);
        let mut rate = 400_000.0f64;
        for index in 0..AGES {
            draft.set_base_rate(index, rate.min(1e9) as i32);
            rate *= 1.0718;
            let long_term = 10_000_000 * 120i32.saturating_sub(20 + index as i32).clamp(0, 30) / 30;
            let period = 10 + (index % 31) as u8;
            draft.set_component(Component::Age, index, [25_000_000 - 150_000 * index as i32, long_term], period, 50);
        }
        for index in 0..BIRTH_YEARS {
            let period = 10 + (index % 31) as u8;
            draft.set_component(Component::BirthYear, index, [10_000_000 - 50_000 * index as i32, 0], period, 50);
        }
        draft
    }
}
