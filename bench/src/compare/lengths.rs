//! Runs and files of every length, which begin like those of either form, and outputs of every length that could be
//! taken for another.
use super::calls::Calls;
use super::inputs::{self, LENGTHS};
use super::report::{Difference, Tally};
use super::worker::{Found, found};
use crate::bases::forms::fraction_somewhere;
use crate::bases::{Draft, files, histories};
use crate::engine::file::run_needed;
use crate::engine::form::{FORMS, Form};
use crate::random::Random;

/// The last length that is tried, a little longer than any file.
pub const LAST_LENGTH: usize = 5200;

/// Asks about every length, each with a stream of its own.
pub fn compare_lengths(seed: u64) -> Result<Tally, Box<Found>> {
    let mut calls = Calls::default();
    for length in 0..=LAST_LENGTH {
        let mut random = Random::case(seed, length as u64);
        for form in FORMS {
            at_length(&mut calls, &mut random, form, length)
                .map_err(|difference| found(&calls, length as u64, difference))?;
        }
    }
    let mut random = Random::new(seed);
    every_output(&mut calls, &mut random).map_err(|difference| found(&calls, 0, difference))?;
    Ok(calls.tally)
}

/// An older basis of this form, with its history; in the new form one P is no whole per cent.
fn sound(random: &mut Random, form: Form) -> (Vec<u8>, Vec<u8>) {
    let mut draft = Draft::benchmark_from(2006, 2004).in_form(form);
    if form == Form::Mpb2 && random.one_in(2) {
        fraction_somewhere(random, &mut draft);
    }
    (draft.run, histories::benchmark(2))
}

/// The run and its file cut off or filled up, as often as not by other bytes than zero.
fn at_length(calls: &mut Calls, random: &mut Random, form: Form, length: usize) -> Result<(), Difference> {
    let (mut run, history) = sound(random, form);
    let mut file = files::file_of(&run);
    let filling = random.pick(&[0, 1]);
    run.resize(length, filling);
    file.resize(length, filling);
    calls.lend(random, inputs::Basis { kind: "of any length", run, history });
    calls.check_basis()?;
    let output = inputs::output_length(random, run_needed(length));
    calls.read_file(random, &file, output)?;
    calls.write_basis(random)?;
    calls.write_old_form(random)?;
    calls.short_form(random)?;
    calls.improvement(random)?;
    calls.factor_or_rate(random)?;
    calls.enquiry(random)?;
    calls.small_set(random)?;
    calls.grid(random)?;
    calls.lifeline_start(random)?;
    calls.lifeline_step(random)?;
    calls.one_join(random)
}

/// A run and a file of each form, and of none, with outputs of each of these lengths.
fn every_output(calls: &mut Calls, random: &mut Random) -> Result<(), Difference> {
    for form in FORMS {
        for less in [0, 1] {
            let (run, history) = sound(random, form);
            let file = files::file_of(&run);
            let run = run[less..].to_vec();
            calls.lend(random, inputs::Basis { kind: "with any output", run, history });
            for length in [0, 1].into_iter().chain(LENGTHS) {
                calls.read_file(random, &file[less..], length)?;
                calls.write_file(random, length)?;
                calls.write_old_file(random, length)?;
                calls.shorten(random, length)?;
            }
        }
    }
    Ok(())
}
