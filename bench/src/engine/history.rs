//! A history file: the actual improvements of each year after the base year up to the foundation year, two blocks a
//! year. Its checks: 13, then block by block 2 before 3, then every 4, then every 5, by offset in its joined data.
use super::file::check_block;
use super::layout::*;
use super::refusal::Refusal;
use super::table::{first_bad_number, first_non_zero};

/// An accepted history; empty where none is needed.
#[derive(Clone, Copy)]
pub struct History<'file> {
    file: &'file [u8],
}

/// The data of one block: where it begins in the joined data, its numbers, and the bytes that must be zero.
struct Part<'file> {
    start: usize,
    numbers: &'file [u8],
    rest: &'file [u8],
}

impl<'file> History<'file> {
    /// Checks a lent file afresh, which must hold so many years.
    pub fn accept(file: &'file [u8], years: usize) -> Result<Self, Refusal> {
        let needed = years * HISTORY_YEAR;
        if file.len() != needed {
            return Err(Refusal::history_length(needed));
        }
        let history = History { file };
        history.check_blocks()?;
        history.parts().try_for_each(|part| part.check_zero_bytes())?;
        history.parts().try_for_each(|part| part.check_improvements())?;
        Ok(history)
    }

    fn blocks(&self) -> impl Iterator<Item = (usize, &'file [u8; BLOCK_LENGTH])> {
        self.file.as_chunks().0.iter().enumerate()
    }

    fn check_blocks(&self) -> Result<(), Refusal> {
        self.blocks().try_for_each(|(number, block)| check_block(number, block))
    }

    fn parts(&self) -> impl Iterator<Item = Part<'file>> {
        self.blocks().map(|(number, block)| {
            let ages = HISTORY_PARTS[number % HISTORY_PARTS.len()];
            let (numbers, rest) = block[2..2 + BLOCK_DATA].split_at(4 * ages);
            Part { start: BLOCK_DATA * number, numbers, rest }
        })
    }

    /// The actual improvement at an age of 20 to 150 in a year of the file, counted from its first.
    #[inline]
    pub fn improvement(&self, age: u32, year: u32) -> i64 {
        let index = (age - FIRST_AGE) as usize;
        let [younger, _] = HISTORY_PARTS;
        let (part, place) = if index < younger { (0, index) } else { (1, index - younger) };
        let block = HISTORY_YEAR * year as usize + BLOCK_LENGTH * part;
        i64::from(signed(self.file, block + 2 + 4 * place))
    }
}

impl Part<'_> {
    #[inline]
    fn check_zero_bytes(&self) -> Result<(), Refusal> {
        match first_non_zero(self.rest) {
            Some(place) => Err(Refusal::mark(self.start + self.numbers.len() + place)),
            None => Ok(()),
        }
    }

    #[inline]
    fn check_improvements(&self) -> Result<(), Refusal> {
        match first_bad_number(self.numbers, &ACTUAL_IMPROVEMENTS) {
            Some(place) => Err(Refusal::field(self.start + 4 * place)),
            None => Ok(()),
        }
    }
}
