//! The roll: up to 500 pensions in payment for one valuation year, and what they come to.

use std::collections::HashSet;
use std::error::Error;
use std::fmt;

use crate::ffi;
use crate::version::check_linked_version;
use crate::{Basis, JoinRefusal, Refusal};

/// Members that a roll holds.
pub const ROLL_MEMBERS: usize = 500;

/// The 8-byte numbers of a roll.
pub const ROLL_LENGTH: usize = 2_002;

/// The greatest yearly pension of a member, in pence.
pub const GREATEST_PENSION: u32 = 10_000_000;

// Where the parts of a roll begin, after its year and its count.
const NUMBERS: usize = 2;
const AGES: usize = NUMBERS + ROLL_MEMBERS;
const PENSIONS: usize = AGES + ROLL_MEMBERS;
const LIABILITIES: usize = PENSIONS + ROLL_MEMBERS;

/// A member of a roll.
#[derive(Clone, Copy, Debug, PartialEq, Eq, Hash)]
pub struct Member {
    /// The member number.
    pub number: u32,
    /// The age in the valuation year.
    pub age: u32,
    /// The yearly pension, in pence.
    pub pension: u32,
    /// Pension times cohort annuity, rounded to whole pence, as it was set at the join.
    pub liability: u64,
}

/// A roll of pensions in payment. Members join and leave in any order; the total is the sum of the liabilities of those
/// who are on it. A liability is set at the join, from the basis lent there, and not worked out again. A refused call
/// leaves the roll as it was.
///
/// ```
/// use parvusek::{Basis, Roll};
///
/// let basis = Basis::open("../../samples/basis.bin")?;
/// let mut roll = Roll::open(2010);
/// // 12,000 pounds a year at 65, at 15.698927802 to one.
/// assert_eq!(roll.join(&basis, 1001, 65, 1_200_000)?, 18_838_713);
/// assert_eq!(roll.join(&basis, 1002, 70, 640_050)?, 27_491_036);
///
/// let refusal = roll.join(&basis, 1001, 65, 1_200_000).unwrap_err();
/// assert_eq!(refusal.to_string(), "refused 16: the member number is on the roll already (member 1001)");
/// assert_eq!(roll.leave(1001)?, 8_652_323);
/// assert_eq!(roll.members().map(|member| member.number).collect::<Vec<_>>(), [1002]);
/// # Ok::<(), Box<dyn std::error::Error>>(())
/// ```
#[derive(Clone)]
pub struct Roll {
    numbers: Box<[u64; ROLL_LENGTH]>,
}

// ---- calls

impl Roll {
    /// A roll without members. The valuation year is not checked: where it is wrong, each join is refused by 7.
    pub fn open(year: u32) -> Roll {
        check_linked_version();
        let mut numbers: Box<[u64; ROLL_LENGTH]> = vec![0; ROLL_LENGTH].try_into().expect("it has this length");
        // SAFETY: the pointer and the length are those of an array.
        let refusal = unsafe { ffi::parvusek_roll_open(year, numbers.as_mut_ptr(), numbers.len()) };
        refusal.unless_none().expect("the list is long enough");
        Roll { numbers }
    }

    /// A member joins with a yearly pension in pence; the answer is the total after it. Refused by 16 (the number is on
    /// the roll), 14 (500 members are on it), 5 (a pension above 10,000,000), then as the cohort annuity of this age in
    /// the roll's year with deferment 0.
    ///
    /// ```
    /// # use parvusek::{Basis, Roll};
    /// # let basis = Basis::open("../../samples/basis.bin")?;
    /// let mut roll = Roll::open(2010);
    /// let refused = roll.join(&basis, 1004, 65, 10_000_001).unwrap_err();
    /// assert_eq!(refused.to_string(), "refused 5: a field outside its limits: the pension is above 10,000,000 pence (member 1004)");
    /// assert_eq!(roll.join(&basis, 1004, 19, 100).unwrap_err().refusal.number, 6);
    /// assert_eq!(roll.join(&basis, 1004, 65, 10_000_000)?, 156_989_278);
    /// # Ok::<(), Box<dyn std::error::Error>>(())
    /// ```
    pub fn join(&mut self, basis: &Basis, number: u32, age: u32, pension: u32) -> Result<u64, JoinRefusal> {
        let (run, run_len, history, history_len) = basis.lent();
        let (roll, len) = (self.numbers.as_mut_ptr(), self.numbers.len());
        // SAFETY: the pointers and lengths are those of the run, the history and the roll's own numbers, which do not
        // overlap; every number may be asked.
        let answer =
            unsafe { ffi::parvusek_roll_join(run, run_len, history, history_len, roll, len, number, age, pension) };
        answer.refusal.unless_none().map_err(|refusal| JoinRefusal::of(refusal, pension))?;
        Ok(answer.value)
    }

    /// A member leaves, and those who joined later move up; the answer is the total after it. Refused by 15 (the number
    /// is not on the roll).
    pub fn leave(&mut self, number: u32) -> Result<u64, Refusal> {
        // SAFETY: the pointer and the length are those of an array; every number may be asked.
        let answer = unsafe { ffi::parvusek_roll_leave(self.numbers.as_mut_ptr(), self.numbers.len(), number) };
        answer.refusal.unless_none().map(|()| answer.value)
    }

    /// The sum of the members' liabilities, in pence.
    pub fn total(&self) -> u64 {
        // SAFETY: the pointer and the length are those of an array.
        let answer = unsafe { ffi::parvusek_roll_total(self.numbers.as_ptr(), self.numbers.len()) };
        answer.refusal.unless_none().expect("the list is long enough");
        answer.value
    }
}

// ---- what is on it

impl Roll {
    /// The valuation year.
    pub fn year(&self) -> u32 {
        self.narrow(0)
    }

    /// How many members are on it.
    pub fn len(&self) -> usize {
        self.narrow(1) as usize
    }

    /// Whether nobody is on it.
    pub fn is_empty(&self) -> bool {
        self.len() == 0
    }

    /// Whether the member with this number is on it.
    pub fn contains(&self, number: u32) -> bool {
        self.numbers[NUMBERS..][..self.len()].contains(&number.into())
    }

    /// The members, in the order in which they joined.
    pub fn members(&self) -> impl ExactSizeIterator<Item = Member> + '_ {
        (0..self.len()).map(|place| Member {
            number: self.narrow(NUMBERS + place),
            age: self.narrow(AGES + place),
            pension: self.narrow(PENSIONS + place),
            liability: self.numbers[LIABILITIES + place],
        })
    }

    /// A number that has 32 bits in a roll that the engine's calls made, and so in each that is one of this type.
    fn narrow(&self, place: usize) -> u32 {
        self.numbers[place].try_into().expect("a roll of these calls has 32 bits here")
    }
}

/// Two rolls are the same if they are of one year and have the same members in the same order.
impl PartialEq for Roll {
    fn eq(&self, other: &Roll) -> bool {
        self.year() == other.year() && self.members().eq(other.members())
    }
}

impl Eq for Roll {}

impl fmt::Debug for Roll {
    fn fmt(&self, f: &mut fmt::Formatter<'_>) -> fmt::Result {
        f.debug_struct("Roll")
            .field("year", &self.year())
            .field("len", &self.len())
            .field("total", &self.total())
            .finish_non_exhaustive()
    }
}

// ---- keeping it

impl Roll {
    /// The numbers of the roll, to be kept as they are: year, count, then 500 each of member numbers, ages, pensions and
    /// liabilities. Behind the last member stands what an earlier one left.
    pub fn as_numbers(&self) -> &[u64; ROLL_LENGTH] {
        &self.numbers
    }

    /// The roll of numbers that were kept. What the total is, is promised of rolls that these calls made, and no list
    /// shows who made it; numbers that no call leaves on a roll are an error, and nothing is put right.
    ///
    /// ```
    /// # use parvusek::{Basis, NotARoll, Roll};
    /// # let basis = Basis::open("../../samples/basis.bin")?;
    /// # let mut roll = Roll::open(2010);
    /// roll.join(&basis, 1001, 65, 1_200_000)?;
    /// let mut kept = roll.as_numbers().to_vec();
    /// assert_eq!(Roll::from_numbers(&kept)?, roll);
    ///
    /// kept[1] = 501;
    /// assert_eq!(Roll::from_numbers(&kept), Err(NotARoll::Count(501)));
    /// # Ok::<(), Box<dyn std::error::Error>>(())
    /// ```
    pub fn from_numbers(numbers: &[u64]) -> Result<Roll, NotARoll> {
        check_linked_version();
        let numbers: Box<[u64; ROLL_LENGTH]> =
            numbers.to_vec().try_into().map_err(|kept: Vec<u64>| NotARoll::Length(kept.len()))?;
        if u32::try_from(numbers[0]).is_err() {
            return Err(NotARoll::Year(numbers[0]));
        }
        let count = usize::try_from(numbers[1]).ok().filter(|count| *count <= ROLL_MEMBERS);
        let mut seen = HashSet::new();
        for place in 0..count.ok_or(NotARoll::Count(numbers[1]))? {
            check_member(&numbers, place)?;
            if !seen.insert(numbers[NUMBERS + place]) {
                return Err(NotARoll::Repeated(place));
            }
        }
        Ok(Roll { numbers })
    }
}

/// Whether a join leaves such a member. An annuity is at least one, which is paid at once, and at most 131 payments of
/// 4 to one.
fn check_member(numbers: &[u64; ROLL_LENGTH], place: usize) -> Result<(), NotARoll> {
    let [number, age, pension, liability] = [NUMBERS, AGES, PENSIONS, LIABILITIES].map(|part| numbers[part + place]);
    if u32::try_from(number).is_err() {
        return Err(NotARoll::Number(place));
    }
    if !(20..=150).contains(&age) {
        return Err(NotARoll::Age(place));
    }
    if pension > GREATEST_PENSION.into() {
        return Err(NotARoll::Pension(place));
    }
    if !(pension..=131 * 4 * pension).contains(&liability) {
        return Err(NotARoll::Liability(place));
    }
    Ok(())
}

/// Why [`Roll::from_numbers`] has no roll. A place is counted from 0, in the order of joining.
#[derive(Clone, Copy, Debug, PartialEq, Eq, Hash)]
pub enum NotARoll {
    /// Not 2,002 numbers, but so many.
    Length(usize),
    /// A year of more than 32 bits.
    Year(u64),
    /// More members than a roll holds.
    Count(u64),
    /// The number of the member in this place has more than 32 bits.
    Number(usize),
    /// It is that of an earlier place.
    Repeated(usize),
    /// The age in this place is outside 20 to 150.
    Age(usize),
    /// The pension in this place is above its limit.
    Pension(usize),
    /// The liability in this place is none of its pension's.
    Liability(usize),
}

impl fmt::Display for NotARoll {
    fn fmt(&self, f: &mut fmt::Formatter<'_>) -> fmt::Result {
        f.write_str("not a roll: ")?;
        match self {
            NotARoll::Length(length) => write!(f, "{length} numbers, and a roll has {ROLL_LENGTH}"),
            NotARoll::Year(year) => write!(f, "the year {year} has more than 32 bits"),
            NotARoll::Count(count) => write!(f, "{count} members, and a roll holds {ROLL_MEMBERS}"),
            NotARoll::Number(place) => write!(f, "the member number in place {place} has more than 32 bits"),
            NotARoll::Repeated(place) => write!(f, "the member number in place {place} is an earlier one's"),
            NotARoll::Age(place) => write!(f, "the age in place {place} is outside 20 to 150"),
            NotARoll::Pension(place) => write!(f, "the pension in place {place} is above {GREATEST_PENSION}"),
            NotARoll::Liability(place) => write!(f, "no pension such as that in place {place} has its liability"),
        }
    }
}

impl Error for NotARoll {}
