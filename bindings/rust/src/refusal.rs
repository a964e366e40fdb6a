//! Refusals: a number and two places, with the sentences of docs/REFUSALS.md.

use std::error::Error;
use std::fmt;

use crate::GREATEST_PENSION;

/// Why the engine gives no value: a number and two places.
///
/// ```
/// let refusal = parvusek::Refusal { number: 8, first: 148, second: 3 };
/// assert_eq!(refusal.sentence(), "age + deferment above 150");
/// assert_eq!(refusal.to_string(), "refused 8: age + deferment above 150 (age 148, deferment 3)");
/// ```
#[repr(C)]
#[derive(Clone, Copy, Debug, PartialEq, Eq, Hash)]
pub struct Refusal {
    /// Above 0; what each number says is in docs/REFUSALS.md.
    pub number: u32,
    /// The first place: a block, an offset, an age, a year, a member number, as the number has it.
    pub first: u64,
    /// The second place; 0 where the number has none.
    pub second: u64,
}

impl Refusal {
    /// What the refusal says.
    pub fn sentence(&self) -> &'static str {
        match self.number {
            // made by tools/make_refusals: sentences
            1 => "file not 4,608 or 5,120 bytes, or data run not 4,554 or 5,060",
            2 => "a block's check is wrong",
            3 => "a block's number is not its place",
            4 => "mark or zero bytes wrong",
            5 => "a field outside its limits",
            6 => "age outside 20 to 150",
            7 => "year after 2130, or before B (before both F and B + 1 for an improvement)",
            8 => "age + deferment above 150",
            9 => "an improvement needed is beyond ±500,000,000",
            10 => "a factor needed is above 4 × U",
            11 => "lent output too short",
            12 => "a line is not of the form asked",
            13 => "history not 1,024 bytes for each year from B + 1 to F",
            14 => "the roll is full",
            15 => "the member number is not on the roll",
            16 => "the member number is on the roll already",
            17 => "a proportion is no whole per cent",
            // end of what tools/make_refusals makes
            _ => "no such refusal",
        }
    }

    /// What its two places are; those that are always 0 have no name.
    fn places(&self) -> (Option<&'static str>, Option<&'static str>) {
        match self.number {
            // made by tools/make_refusals: places
            2 => (Some("block"), None),
            3 => (Some("block"), None),
            4 => (Some("offset"), None),
            5 => (Some("offset"), None),
            6 => (Some("age"), None),
            7 => (Some("year"), None),
            8 => (Some("age"), Some("deferment")),
            9 => (Some("age"), Some("year")),
            10 => (Some("age"), Some("year")),
            11 => (Some("needed"), None),
            12 => (Some("line"), None),
            13 => (Some("needed"), None),
            14 => (Some("member"), None),
            15 => (Some("member"), None),
            16 => (Some("member"), None),
            17 => (Some("offset"), None),
            // end of what tools/make_refusals makes
            _ => (None, None),
        }
    }

    /// Number 0, which only the C interface has, says that nothing was refused.
    pub(crate) fn unless_none(self) -> Result<(), Refusal> {
        match self.number {
            0 => Ok(()),
            _ => Err(self),
        }
    }
}

impl fmt::Display for Refusal {
    fn fmt(&self, f: &mut fmt::Formatter<'_>) -> fmt::Result {
        write!(f, "refused {}: {}", self.number, self.sentence())?;
        match self.places() {
            (Some(first), Some(second)) => write!(f, " ({first} {}, {second} {})", self.first, self.second),
            (Some(first), None) => write!(f, " ({first} {})", self.first),
            _ => Ok(()),
        }
    }
}

impl Error for Refusal {}

/// Why a member does not join a [`Roll`](crate::Roll). The 5 of a pension above its limit has the member number for its
/// first place, where every other 5 has an offset; a [`Refusal`] alone does not say which it is.
///
/// ```
/// use parvusek::{JoinRefusal, Refusal};
///
/// let refusal = Refusal { number: 5, first: 1004, second: 0 };
/// assert_eq!(refusal.to_string(), "refused 5: a field outside its limits (offset 1004)");
/// let refusal = JoinRefusal { refusal, is_of_pension: true };
/// assert_eq!(refusal.to_string(), "refused 5: a field outside its limits: the pension is above 10,000,000 pence (member 1004)");
/// ```
#[derive(Clone, Copy, Debug, PartialEq, Eq, Hash)]
pub struct JoinRefusal {
    /// The number and the two places.
    pub refusal: Refusal,
    /// Whether it is the 5 of the pension, and its first place the member number.
    pub is_of_pension: bool,
}

impl JoinRefusal {
    /// The pension's 5 comes before every other 5, so that it is the one wherever the pension is above its limit.
    pub(crate) fn of(refusal: Refusal, pension: u32) -> JoinRefusal {
        JoinRefusal { refusal, is_of_pension: refusal.number == 5 && pension > GREATEST_PENSION }
    }
}

impl fmt::Display for JoinRefusal {
    fn fmt(&self, f: &mut fmt::Formatter<'_>) -> fmt::Result {
        let Refusal { number, first, .. } = self.refusal;
        match self.is_of_pension {
            true => {
                let sentence = self.refusal.sentence();
                write!(f, "refused {number}: {sentence}: the pension is above 10,000,000 pence (member {first})")
            }
            false => self.refusal.fmt(f),
        }
    }
}

impl Error for JoinRefusal {}

impl From<JoinRefusal> for Refusal {
    fn from(refused: JoinRefusal) -> Refusal {
        refused.refusal
    }
}
