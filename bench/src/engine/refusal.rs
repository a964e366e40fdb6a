//! A refusal: its number in 01 and two places.

#[derive(Clone, Copy, Debug, PartialEq, Eq, Hash)]
pub struct Refusal {
    pub number: u32,
    pub first: u64,
    pub second: u64,
}

impl Refusal {
    const fn new(number: u32, first: u64, second: u64) -> Self {
        Refusal { number, first, second }
    }

    /// 1: a file or a data run of another length.
    pub const fn length() -> Self {
        Self::new(1, 0, 0)
    }

    /// 2: the check of a block.
    pub const fn block_check(block: usize) -> Self {
        Self::new(2, block as u64, 0)
    }

    /// 3: the number of a block.
    pub const fn block_number(block: usize) -> Self {
        Self::new(3, block as u64, 0)
    }

    /// 4: the mark, or a byte that must be zero.
    pub const fn mark(offset: usize) -> Self {
        Self::new(4, offset as u64, 0)
    }

    /// 5: a field outside its limits.
    pub const fn field(offset: usize) -> Self {
        Self::new(5, offset as u64, 0)
    }

    /// 6: an age outside 20 to 150.
    pub const fn age(age: u32) -> Self {
        Self::new(6, age as u64, 0)
    }

    /// 7: a year outside what may be asked.
    pub const fn year(year: u32) -> Self {
        Self::new(7, year as u64, 0)
    }

    /// 8: the age after the deferment is above 150.
    pub const fn deferment(age: u32, deferment: u32) -> Self {
        Self::new(8, age as u64, deferment as u64)
    }

    /// 9: an improvement that is needed is beyond its limits.
    pub const fn improvement(age: u32, year: u32) -> Self {
        Self::new(9, age as u64, year as u64)
    }

    /// 10: a factor that is needed is above 4 U.
    pub const fn factor(age: u32, year: u32) -> Self {
        Self::new(10, age as u64, year as u64)
    }

    /// 11: a lent output that is too short.
    pub const fn output(needed: usize) -> Self {
        Self::new(11, needed as u64, 0)
    }

    /// 12: a line of the points program that is not of the form asked, counted from 1.
    pub const fn line(number: u64) -> Self {
        Self::new(12, number, 0)
    }

    /// 13: a history of another length than its years need.
    pub const fn history_length(needed: usize) -> Self {
        Self::new(13, needed as u64, 0)
    }

    /// 5 again: a pension above its limit, with the number of the member.
    pub const fn pension(member: u32) -> Self {
        Self::new(5, member as u64, 0)
    }

    /// 14: the roll is full.
    pub const fn full_roll(member: u32) -> Self {
        Self::new(14, member as u64, 0)
    }

    /// 15: the member is not on the roll.
    pub const fn not_on_roll(member: u32) -> Self {
        Self::new(15, member as u64, 0)
    }

    /// 16: the member is on the roll already.
    pub const fn on_roll(member: u32) -> Self {
        Self::new(16, member as u64, 0)
    }

    /// 17: a proportion that is no whole per cent, and so has no place in the old form.
    pub const fn proportion(offset: usize) -> Self {
        Self::new(17, offset as u64, 0)
    }
}
