//! A stretch of the comparison: bases by number, each from a stream of its own, and the calls on each.
use super::calls::Calls;
use super::inputs;
use super::report::{Difference, Tally};
use crate::engine::basis::Basis;
use crate::engine::form::Form;
use crate::random::Random;

/// A difference, with what is needed to see it again.
#[derive(Debug)]
pub struct Found {
    pub base: u64,
    pub kind: &'static str,
    pub run: Vec<u8>,
    pub history: Vec<u8>,
    pub difference: Difference,
}

/// Compares on the bases `first`, `first + every`, .. until `enough` says so of the tally.
pub fn compare(seed: u64, first: u64, every: u64, enough: impl Fn(&Tally) -> bool) -> Result<Tally, Box<Found>> {
    let mut calls = Calls::default();
    let mut base = first;
    while !enough(&calls.tally) {
        compare_base(&mut calls, seed, base)?;
        base += every;
    }
    Ok(calls.tally)
}

/// All that is asked of one base.
pub fn compare_base(calls: &mut Calls, seed: u64, base: u64) -> Result<(), Box<Found>> {
    let mut random = Random::case(seed, base);
    let basis = inputs::basis(&mut random);
    calls.lend(&mut random, basis);
    ask(calls, &mut random).map_err(|difference| found(calls, base, difference))
}

/// A roll goes on from one basis to another: the one that was lent when they differed.
pub(super) fn found(calls: &Calls, base: u64, difference: Difference) -> Box<Found> {
    let (run, history) = calls.lent();
    Box::new(Found { base, kind: calls.kind, run: run.to_vec(), history: history.to_vec(), difference })
}

fn ask(calls: &mut Calls, random: &mut Random) -> Result<(), Difference> {
    calls.check_basis()?;
    let (run, history) = calls.lent();
    // the sets cost the most, unless the basis is refused
    let refused = Basis::accept(run, history).is_err();
    let rounds = if Form::of_run(run.len()).is_some() { 10 } else { 2 };
    for round in 0..rounds {
        calls.lifeline_start(random)?;
        if round % 4 == 0 {
            calls.read_basis(random)?;
            calls.write_basis(random)?;
            calls.write_old_form(random)?;
            calls.short_form(random)?;
        }
        for _ in 0..3 {
            calls.improvement(random)?;
            calls.factor_or_rate(random)?;
            calls.enquiry(random)?;
            calls.lifeline_step(random)?;
        }
    }
    if !refused {
        calls.damaged_copies(random)?;
        calls.both_forms(random)?;
    }
    if refused || random.one_in(4) {
        calls.small_set(random)?;
    }
    if refused || random.one_in(4) {
        calls.grid(random)?;
    }
    if random.one_in(48) {
        calls.full_roll(random)?;
    }
    calls.roll(random)
}
