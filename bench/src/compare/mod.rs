//! The Rust engine against the archive on random inputs, every lent buffer between guard pages.
pub mod calls;
pub mod form_report;
pub mod forms;
pub mod inputs;
pub mod later_report;
pub mod lengths;
pub mod lent;
pub mod outputs;
pub mod report;
pub mod roll_report;
pub mod rolls;
pub mod worker;
