//! The two forms of a data run, MPB1 and MPB2. Both have the same fields in the same order. A proportion is one byte in
//! the one and counts per cents, two bytes in the other and counts hundredths of a per cent. The length of a run or of a
//! file tells its form.
use super::layout::*;
use std::fmt;
use std::ops::Range;

#[derive(Clone, Copy, Debug, PartialEq, Eq)]
pub enum Form {
    Mpb1,
    Mpb2,
}

pub const FORMS: [Form; 2] = [Form::Mpb1, Form::Mpb2];

/// The tables of a data run.
#[derive(Clone, Copy, Debug, PartialEq, Eq)]
pub enum Table {
    BaseRates,
    AgeInitial,
    AgeLongTerm,
    AgePeriods,
    AgeProportions,
    BirthInitial,
    BirthLongTerm,
    BirthPeriods,
    BirthProportions,
}

use Table::*;

/// In the order in which they follow each other.
pub const TABLES: [Table; 9] = [
    BaseRates,
    AgeInitial,
    AgeLongTerm,
    AgePeriods,
    AgeProportions,
    BirthInitial,
    BirthLongTerm,
    BirthPeriods,
    BirthProportions,
];

/// I, L, T and P of each component.
pub const BY_AGE: [Table; 4] = [AgeInitial, AgeLongTerm, AgePeriods, AgeProportions];
pub const BY_BIRTH_YEAR: [Table; 4] = [BirthInitial, BirthLongTerm, BirthPeriods, BirthProportions];

impl Table {
    pub const fn entries(self) -> usize {
        match self {
            BaseRates | AgeInitial | AgeLongTerm | AgePeriods | AgeProportions => AGES,
            BirthInitial | BirthLongTerm | BirthPeriods | BirthProportions => BIRTH_YEARS,
        }
    }
}

/// Where each table begins, and behind the last the place where they all end.
type Offsets = [usize; TABLES.len() + 1];

const OFFSETS: [Offsets; 2] = [offsets(Form::Mpb1), offsets(Form::Mpb2)];

const fn offsets(form: Form) -> Offsets {
    let mut offsets = [FIRST_TABLE; TABLES.len() + 1];
    let mut place = 0;
    while place < TABLES.len() {
        let table = TABLES[place];
        offsets[place + 1] = offsets[place] + form.width(table) * table.entries();
        place += 1;
    }
    offsets
}

impl Form {
    pub fn of_run(length: usize) -> Option<Self> {
        FORMS.into_iter().find(|form| length == form.run_length())
    }

    pub fn of_file(length: usize) -> Option<Self> {
        FORMS.into_iter().find(|form| length == form.file_length())
    }

    pub const fn mark(self) -> [u8; 4] {
        match self {
            Form::Mpb1 => *b"MPB1",
            Form::Mpb2 => *b"MPB2",
        }
    }

    const fn blocks(self) -> usize {
        match self {
            Form::Mpb1 => 9,
            Form::Mpb2 => 10,
        }
    }

    pub const fn run_length(self) -> usize {
        self.blocks() * BLOCK_DATA
    }

    pub const fn file_length(self) -> usize {
        self.blocks() * BLOCK_LENGTH
    }

    /// The bytes of a table's entry.
    pub const fn width(self, table: Table) -> usize {
        match (table, self) {
            (AgePeriods | BirthPeriods, _) | (AgeProportions | BirthProportions, Form::Mpb1) => 1,
            (AgeProportions | BirthProportions, Form::Mpb2) => 2,
            _ => 4,
        }
    }

    #[inline]
    pub const fn offset(self, table: Table) -> usize {
        OFFSETS[self as usize][table as usize]
    }

    pub const fn stretch(self, table: Table) -> Range<usize> {
        self.offset(table)..OFFSETS[self as usize][table as usize + 1]
    }

    /// The bytes behind the tables, which are zero.
    pub const fn tail(self) -> Range<usize> {
        OFFSETS[self as usize][TABLES.len()]..self.run_length()
    }
}

/// By its mark.
impl fmt::Display for Form {
    fn fmt(&self, f: &mut fmt::Formatter) -> fmt::Result {
        f.write_str(&String::from_utf8_lossy(&self.mark()))
    }
}

#[cfg(test)]
mod tests {
    use super::*;

    /// As 01 prints them.
    #[test]
    fn offsets_of_mpb1() {
        assert_eq!(TABLES.map(|table| Form::Mpb1.offset(table)), [30, 554, 1078, 1602, 1733, 1864, 2940, 4016, 4285]);
        assert_eq!((Form::Mpb1.run_length(), Form::Mpb1.file_length()), (4554, 4608));
        assert!(Form::Mpb1.tail().is_empty());
    }

    #[test]
    fn offsets_of_mpb2() {
        assert_eq!(TABLES.map(|table| Form::Mpb2.offset(table)), [30, 554, 1078, 1602, 1733, 1995, 3071, 4147, 4416]);
        assert_eq!((Form::Mpb2.run_length(), Form::Mpb2.file_length()), (5060, 5120));
        assert_eq!(
            (Form::Mpb2.stretch(AgeProportions), Form::Mpb2.stretch(BirthProportions)),
            (1733..1995, 4416..4954)
        );
        assert_eq!(Form::Mpb2.tail(), 4954..5060);
    }

    #[test]
    fn each_length_has_one_form_or_none() {
        for length in 0..=5200 {
            let form = |mpb1, mpb2| match length {
                _ if length == mpb1 => Some(Form::Mpb1),
                _ if length == mpb2 => Some(Form::Mpb2),
                _ => None,
            };
            assert_eq!((Form::of_run(length), Form::of_file(length)), (form(4554, 5060), form(4608, 5120)));
        }
    }
}
