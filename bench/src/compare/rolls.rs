//! Lists of calls on one roll: opened or never, of a few members or full, on one basis after another. Every call goes to
//! both engines, and after it the answers and all the numbers are compared.
use super::calls::{Calls, Compared, edge};
use super::inputs;
use super::report::Function;
use super::roll_report::Event;
use crate::engine::Refusal as EngineRefusal;
use crate::engine::basis::Basis;
use crate::engine::layout::LAST_YEAR;
use crate::engine::roll::{self, COUNT, GREATEST_PENSION, Joiner, LENGTH, LIABILITIES, MEMBERS, NUMBERS, YEAR};
use crate::ffi::{self, Answer, Question, Refusal};
use crate::random::Random;

#[derive(Clone, Copy, Debug)]
enum Call {
    Open(u32),
    Join(Joiner),
    Leave(u32),
    Total,
}

/// The Rust engine's numbers, and what tells who has been on the roll.
struct Walk {
    own: Vec<u64>,
    pool: Vec<u32>,
    left: Vec<u32>,
    opened: bool,
    /// How many bases were lent before this one, and the same at the last join.
    basis: u32,
    joined_on: Option<u32>,
    full_before: bool,
}

impl Calls {
    /// A list of calls on one roll. Other bases may be lent after it than before.
    pub fn roll(&mut self, random: &mut Random) -> Compared {
        let (kind, further) = (random.below(16), random.pick(&[0, 0, 1, 300]));
        let less = random.below(LENGTH as u64) as usize;
        let length = if kind == 0 { random.pick(&[0, 1, LENGTH - 1, less]) } else { LENGTH + further };
        let mut walk = self.walk(random, 8, length);
        match kind {
            0 => self.tally.rolls.note(Event::TooShort),
            1..=5 => self.tally.rolls.note(Event::NeverOpened),
            _ => {}
        }
        if !(1..=5).contains(&kind) {
            self.open_roll(random, &mut walk)?;
        }
        self.mixed(random, &mut walk, if kind == 0 { 8 } else { 30 })
    }

    /// A roll that is opened, and one who would join it on the basis that is lent.
    pub fn one_join(&mut self, random: &mut Random) -> Compared {
        let mut walk = self.walk(random, 8, LENGTH);
        self.open_roll(random, &mut walk)?;
        let joiner = walk.joiner(random);
        self.call(&mut walk, Call::Join(joiner))
    }

    /// A roll that fills up, by high ages whose annuities are soon worked out, and stays about full.
    pub fn full_roll(&mut self, random: &mut Random) -> Compared {
        let mut walk = self.walk(random, MEMBERS + 60, LENGTH);
        // which every accepted basis allows
        self.call(&mut walk, Call::Open(LAST_YEAR))?;
        // a basis that refuses these ages is soon another one, so that this ends long before
        for turn in 0..4 * MEMBERS {
            if walk.count() == MEMBERS {
                break;
            }
            let number = walk.pool[turn % walk.pool.len()];
            let joiner = Joiner { number, age: 140 + random.below(11) as u32, pension: pension(random) };
            let before = walk.count();
            self.call(&mut walk, Call::Join(joiner))?;
            if walk.count() == before && random.one_in(4) {
                self.other_basis(random, &mut walk, true);
            }
        }
        for _ in 0..8 {
            self.leave_and_join(random, &mut walk)?;
        }
        self.mixed(random, &mut walk, 60)
    }

    /// One who may be refused by several at once, a leave, and one who takes the place.
    fn leave_and_join(&mut self, random: &mut Random, walk: &mut Walk) -> Compared {
        let mut joiner = walk.joiner(random);
        joiner.pension = random.pick(&[joiner.pension, GREATEST_PENSION + 1]);
        self.call(walk, Call::Join(joiner))?;
        let leaver = walk.leaver(random);
        self.call(walk, Call::Leave(leaver))?;
        let number = if random.one_in(2) { leaver } else { walk.absent(random) };
        self.call(walk, Call::Join(Joiner { number, age: 150, pension: pension(random).min(GREATEST_PENSION) }))
    }

    /// Numbers of any kind, lent and the Rust engine's own alike.
    fn walk(&mut self, random: &mut Random, members: usize, length: usize) -> Walk {
        // an odd step leads to no number twice
        let (first, step) = (random.word() as u32, inputs::any_number(random) | 1);
        let mut pool: Vec<u32> =
            (0..members as u32).map(|index| first.wrapping_add(step.wrapping_mul(index))).collect();
        pool[..2].copy_from_slice(&[0, u32::MAX]);
        let own = any_numbers(random, &pool, length);
        self.roll.place(length * size_of::<u64>(), edge(random));
        // any bytes are numbers
        unsafe { self.roll.values_mut::<u64>() }.copy_from_slice(&own);
        Walk { own, pool, left: Vec::new(), opened: false, basis: 0, joined_on: None, full_before: false }
    }

    /// For a year of this run, for the last that any run allows, or for any at all.
    fn open_roll(&mut self, random: &mut Random, walk: &mut Walk) -> Compared {
        let (run, _) = self.lent();
        let year = if random.one_in(2) { LAST_YEAR } else { inputs::year(random, run) };
        self.call(walk, Call::Open(year))
    }

    fn mixed(&mut self, random: &mut Random, walk: &mut Walk, calls: u32) -> Compared {
        for _ in 0..calls {
            if random.one_in(10) {
                self.other_basis(random, walk, false);
            }
            let call = match random.below(32) {
                0..=17 => Call::Join(walk.joiner(random)),
                18..=29 => Call::Leave(walk.leaver(random)),
                30 => Call::Total,
                _ if walk.opened && random.one_in(2) => Call::Open(walk.own[YEAR] as u32),
                _ => Call::Total,
            };
            self.call(walk, call)?;
        }
        Ok(())
    }

    fn other_basis(&mut self, random: &mut Random, walk: &mut Walk, accepted: bool) {
        let mut basis = inputs::basis(random);
        while accepted && Basis::accept(&basis.run, &basis.history).is_err() {
            basis = inputs::basis(random);
        }
        self.lend(random, basis);
        walk.basis += 1;
    }

    /// One call to both engines; a refused one must leave every number as it was.
    fn call(&mut self, walk: &mut Walk, call: Call) -> Compared {
        let before = walk.own.clone();
        let (run, history) = (self.run.bytes(), self.history.bytes());
        let lent = unsafe { self.roll.values_mut::<u64>() };
        let own = &mut walk.own;
        let (proved, rust) = match call {
            Call::Open(year) => (opened(ffi::roll_open(year, lent)), roll::open(year, own).map(|()| 0)),
            Call::Join(joiner) => (ffi::roll_join(run, history, lent, joiner), roll::join(run, history, own, joiner)),
            Call::Leave(number) => (ffi::roll_leave(lent, number), roll::leave(own, number)),
            Call::Total => (ffi::roll_total(lent), roll::total(own)),
        };
        let kept = proved.refusal.number == 0 || lent == before;
        let differing = lent.iter().zip(&*own).position(|(found, wanted)| found != wanted);
        let found = differing.map(|place| (place, before[place], own[place], lent[place]));
        let asked = || {
            let of =
                format!("{call:?} on {} numbers, year {:?}, count {:?}", before.len(), before.first(), before.get(1));
            format!("{of}; place, before, Rust, proved of the first number that differs: {found:?}")
        };
        self.count_roll_call(call, rust);
        let rust = Answer::from(rust);
        if let (Call::Join(Joiner { age, .. }), Some(&year)) = (call, before.first()) {
            self.tally.later.note(Function::RollJoin, Question { age, deferment: 0, year: year as u32 }, rust.refusal);
        }
        Calls::compared(function(call), &asked, &(rust, true, true), &(proved, kept, found.is_none()))?;
        self.note(walk, call, rust.refusal.number, &before);
        Ok(())
    }

    /// Counts the call by its outcome; the roll's own refusals are not the basis's or the history's.
    fn count_roll_call(&mut self, call: Call, rust: Result<u64, EngineRefusal>) {
        let (function, number) = (function(call), rust.map_or_else(|refusal| refusal.number, |_| 0));
        self.tally.call();
        match call {
            Call::Join(joiner)
                if rust == Err(EngineRefusal::pension(joiner.number)) && joiner.pension > GREATEST_PENSION =>
            {
                self.tally.rolls.note(Event::Pension);
            }
            _ => {
                self.tally.outcome(function, number, self.form(function));
                if !matches!(number, 14 | 16) && self.by_history(function, number) {
                    self.tally.by_history(function, number);
                }
            }
        }
    }

    /// What this call, of this outcome, shows on a roll that had these numbers before.
    fn note(&mut self, walk: &mut Walk, call: Call, refusal: u32, before: &[u64]) {
        let rolls = &mut self.tally.rolls;
        if let (Some(sum), 0) = (exact_sum(&walk.own), refusal) {
            (sum > u128::from(u64::MAX)).then(|| rolls.note(Event::TooLarge));
        }
        match (call, refusal) {
            (Call::Open(_), 0) => {
                rolls.note(Event::Opened);
                (walk.opened, walk.left, walk.joined_on, walk.full_before) = (true, Vec::new(), None, false);
            }
            (Call::Leave(number), 0) => {
                let numbers = &before[NUMBERS..][..count(before)];
                let place = numbers.iter().position(|&member| member == u64::from(number)).unwrap_or(0);
                let is_last = place + 1 == numbers.len();
                rolls.note(if is_last {
                    Event::LastLeft
                } else if place == 0 {
                    Event::FirstLeft
                } else {
                    Event::BetweenLeft
                });
                walk.left.push(number);
            }
            (Call::Join(joiner), 0) => {
                let filled = walk.opened && walk.count() == MEMBERS;
                filled.then(|| rolls.note(if walk.full_before { Event::FullAgain } else { Event::Full }));
                walk.full_before |= filled;
                walk.left.contains(&joiner.number).then(|| rolls.note(Event::CameBack));
                walk.joined_on.is_some_and(|basis| basis != walk.basis).then(|| rolls.note(Event::OtherBasis));
                walk.joined_on = Some(walk.basis);
            }
            (Call::Join(Joiner { pension: 0, .. }), 9 | 10) => rolls.note(Event::PensionOfNothing),
            (Call::Join(_), 16) if count(before) == MEMBERS => rolls.note(Event::OnFullRoll),
            _ => {}
        }
    }
}

impl Walk {
    fn count(&self) -> usize {
        count(&self.own)
    }

    fn joiner(&self, random: &mut Random) -> Joiner {
        let number = if random.one_in(4) { inputs::any_number(random) } else { random.pick(&self.pool) };
        Joiner { number, age: inputs::age(random), pension: pension(random) }
    }

    /// One of the pool who is not on the roll, if any is not.
    fn absent(&self, random: &mut Random) -> u32 {
        let numbers = &self.own[NUMBERS..][..self.count()];
        let drawn = random.pick(&self.pool);
        self.pool.iter().copied().find(|&number| !numbers.contains(&u64::from(number))).unwrap_or(drawn)
    }

    /// The first, the last or any on the roll; now and then a number that may not be there.
    fn leaver(&self, random: &mut Random) -> u32 {
        let count = self.count();
        if count == 0 || random.one_in(5) {
            return random.pick(&self.pool);
        }
        let any = random.below(count as u64) as usize;
        let place = random.pick(&[0, count - 1, any]);
        self.own[NUMBERS + place] as u32
    }
}

fn function(call: Call) -> Function {
    match call {
        Call::Open(_) => Function::RollOpen,
        Call::Join(_) => Function::RollJoin,
        Call::Leave(_) => Function::RollLeave,
        Call::Total => Function::RollTotal,
    }
}

/// The outcome of an opening, which has no value.
fn opened(refusal: Refusal) -> Answer {
    Answer { refusal, value: 0 }
}

/// How many are on a roll; a list that is too short has none.
fn count(numbers: &[u64]) -> usize {
    if numbers.len() < LENGTH { 0 } else { numbers[COUNT].min(MEMBERS as u64) as usize }
}

fn exact_sum(numbers: &[u64]) -> Option<u128> {
    let liabilities = numbers.get(LIABILITIES..LENGTH)?;
    Some(liabilities[..count(numbers)].iter().map(|&liability| u128::from(liability)).sum())
}

/// The limit and its half make a tie of one annuity in a hundred, and of one in two hundred.
fn pension(random: &mut Random) -> u32 {
    match random.below(16) {
        0 => inputs::any_number(random),
        1 => random.pick(&[GREATEST_PENSION + 1, u32::MAX]),
        2..=5 => random.pick(&[0, 1, 5, GREATEST_PENSION / 2, GREATEST_PENSION, GREATEST_PENSION]),
        _ => random.below(u64::from(GREATEST_PENSION) + 1) as u32,
    }
}

/// Numbers of all sizes; those of members are now and then in the pool, alone or with a bit above 32 set.
fn any_numbers(random: &mut Random, pool: &[u32], length: usize) -> Vec<u64> {
    let mut numbers: Vec<u64> = (0..length).map(|_| random.word() >> random.below(64)).collect();
    if length < LENGTH {
        return numbers;
    }
    numbers[COUNT] = random.pick(&[0, 1, 2, 7, 60, 499, 500, 501, 1 << 32, (1 << 32) + 3, u64::MAX]);
    if random.one_in(2) {
        numbers[YEAR] = u64::from(LAST_YEAR) + (random.below(3) << 32);
    }
    for number in &mut numbers[NUMBERS..][..MEMBERS] {
        if random.one_in(2) {
            *number = u64::from(random.pick(pool)) + random.pick(&[0, 0, 1 << 32, 1 << 63]);
        }
    }
    numbers
}
