//! The rules of 01 as the changes leave them, written once more from the papers alone. No call keeps anything for a later
//! one: the data run and the history are checked once in each call, and the terms of an age are read once where its
//! factor is worked out. The grid is answered from a year sweep; all else, and a second grid, from each factor by itself.
pub mod basis;
pub mod enquiries;
pub mod file;
pub mod form;
pub mod history;
pub mod layout;
pub mod lifeline;
pub mod projection;
pub mod refusal;
pub mod roll;
pub mod run;
pub mod sets;
pub mod short_form;
pub mod sweep;
pub mod table;
pub mod terms;
pub mod units;
pub mod valuation;

#[cfg(test)]
mod figures;
#[cfg(test)]
mod forms;
#[cfg(test)]
mod histories;
#[cfg(test)]
mod later_years;
#[cfg(test)]
mod orders;
#[cfg(test)]
mod rolls;
#[cfg(test)]
mod rounding;
#[cfg(test)]
mod sweeps;
#[cfg(test)]
mod two_forms;

pub use refusal::Refusal;
