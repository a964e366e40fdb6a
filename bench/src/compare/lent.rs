//! What is lent at its oddest: nothing, at a pointer that cannot be read, and the proof that guards are noticed.
use crate::bases::Draft;
use crate::engine::form::Form;
use crate::engine::roll;
use crate::engine::sets::{GRID, Record};
use crate::ffi::raw::*;
use crate::ffi::{Questions, Refusal};
use crate::guard::{Edge, Guarded};
use std::ptr;

/// Reads beyond a lent buffer; the caller wants to see this end the program.
pub fn trespass(front: bool) {
    let mut lent = Guarded::new(2);
    lent.place(Form::Mpb2.run_length(), if front { Edge::Front } else { Edge::Back });
    lent.trespass(if front { Edge::Front } else { Edge::Back });
}

/// Length 0 with any pointer: null, not aligned, and directly at a guard.
pub fn empty_lendings() -> Result<(), String> {
    let mut guarded = Guarded::new(1);
    let at_guard = guarded.place(0, Edge::Back).as_mut_ptr();
    for pointer in [ptr::null_mut(), ptr::without_provenance_mut(1), at_guard] {
        let answered = refusals_without_history(pointer);
        if answered.iter().any(|refusal| *refusal != Refusal::default()) {
            return Err(format!("a history of length 0 at {pointer:?}: {answered:?}"));
        }
        let refusals = refusals_of_nothing(pointer);
        let wanted = |number, first| Refusal { number, first, second: 0 };
        let outputs = [4554, 4608, 4608, 4554, 119, 16_016, 16_016, 16_016, 16_016];
        let mut expected = outputs.map(|needed| wanted(11, needed)).to_vec();
        expected.resize(refusals.len(), wanted(1, 0));
        if refusals != expected {
            return Err(format!("empty lendings at {pointer:?}: {refusals:?}"));
        }
    }
    println!(
        "compare: a length of 0 with a null pointer, one out of line and one that cannot be read is refused as 1 or 11, \
         and for a history that is not needed it is no fault"
    );
    Ok(())
}

/// Every call that is lent a history, on a run that needs none.
fn refusals_without_history(nothing: *mut u8) -> Vec<Refusal> {
    let run = Draft::benchmark().run;
    let (lent, length) = (run.as_ptr(), run.len());
    let mut records =
        [Record { age: 150, deferment: 0, year: 2010, refusal: 0, results: [0; 4], first: 0, second: 0 }; GRID];
    let mut empty = [0; roll::LENGTH];
    empty[roll::YEAR] = 2010;
    unsafe {
        let mut refusals = vec![
            parvusek_grid(lent, length, nothing, 0, records.as_mut_ptr(), GRID),
            parvusek_roll_join(lent, length, nothing, 0, empty.as_mut_ptr(), roll::LENGTH, 1, 60, 100).refusal,
            parvusek_improvement(lent, length, nothing, 0, 60, 2010).refusal,
            parvusek_factor(lent, length, nothing, 0, 60, 2010).refusal,
            parvusek_rate(lent, length, nothing, 0, 60, 2010).refusal,
            parvusek_small_set(lent, length, nothing, 0, Questions::default()).refusal,
            parvusek_lifeline_start(lent, length, nothing, 0, 60, 2010).refusal,
            parvusek_lifeline_step(lent, length, nothing, 0, 60, 2010, 0).refusal,
        ];
        refusals.extend(ENQUIRIES.map(|enquiry| enquiry(lent, length, nothing, 0, 60, 0, 2010).refusal));
        refusals
    }
}

/// First every call with an output, for which 11 comes first, then those that the run is refused to.
fn refusals_of_nothing(nothing: *mut u8) -> Vec<Refusal> {
    let mut empty = [0; roll::LENGTH];
    unsafe {
        let mut refusals = vec![
            parvusek_read_basis(nothing, 0, nothing, 0),
            parvusek_write_basis(nothing, 0, nothing, 0),
            parvusek_write_old_form(nothing, 0, nothing, 0),
            parvusek_short_form(nothing, 0, 0, nothing, 0),
            parvusek_grid(nothing, 0, nothing, 0, nothing.cast(), 0),
            parvusek_roll_open(2010, nothing.cast(), 0),
            parvusek_roll_join(nothing, 0, nothing, 0, nothing.cast(), 0, 1, 60, 100).refusal,
            parvusek_roll_leave(nothing.cast(), 0, 1).refusal,
            parvusek_roll_total(nothing.cast(), 0).refusal,
            parvusek_roll_join(nothing, 0, nothing, 0, empty.as_mut_ptr(), roll::LENGTH, 1, 60, 100).refusal,
            parvusek_check_basis(nothing, 0),
            parvusek_improvement(nothing, 0, nothing, 0, 60, 2010).refusal,
            parvusek_factor(nothing, 0, nothing, 0, 60, 2010).refusal,
            parvusek_rate(nothing, 0, nothing, 0, 60, 2010).refusal,
            parvusek_small_set(nothing, 0, nothing, 0, Questions::default()).refusal,
            parvusek_lifeline_start(nothing, 0, nothing, 0, 60, 2010).refusal,
            parvusek_lifeline_step(nothing, 0, nothing, 0, 60, 2010, 0).refusal,
        ];
        refusals.extend(ENQUIRIES.map(|enquiry| enquiry(nothing, 0, nothing, 0, 60, 0, 2010).refusal));
        refusals
    }
}
