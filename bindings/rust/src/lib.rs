//! Parvusek: mortality improvements, reduction factors, rates, survivorship, expectations of life and annuities, from an
//! engine whose functions are proved. This crate is a safe surface over its C interface and adds no arithmetic.
//!
//! ```
//! use parvusek::{decimal, Basis, Kind};
//!
//! let basis = Basis::open("../../samples/basis.bin")?;
//! match basis.annuity(Kind::Cohort, 65, 0, 2010) {
//!     Ok(annuity) => println!("one a year for life from 65: {}", decimal(annuity)),
//!     Err(refusal) => println!("{refusal}"),
//! }
//! # Ok::<(), parvusek::OpenError>(())
//! ```
//!
//! Values are whole units, [`UNIT`] of them to one. What is refused is a [`Refusal`]: a number and two places. The
//! engine has no state and allocates nothing: a [`Basis`] may be shared by any number of threads. A basis whose base
//! year is before its foundation year is opened with its history, [`Basis::open_with_history`]. It has one of two forms,
//! told by its length, and is used alike in both, [`Form`]. A [`Roll`] holds pensions in payment and their total.
//!
//! The archive is linked from the folder that `PARVUSEK_LIB_DIR` names when this crate is built, or else from the
//! repository's `target/staticlib`. An archive of another minor version may answer otherwise: where [`linked_version`]
//! differs from [`VERSION`] in more than the patch, making a [`Basis`] or a [`Roll`] panics and says so.

mod basis;
mod enquiries;
mod ffi;
mod form;
mod lifeline;
mod points;
mod refusal;
mod roll;
mod units;
mod version;

pub use basis::{Basis, OpenError, HISTORY_YEAR};
pub use form::{Form, FILE_LENGTH, FILE_LENGTH_2, RUN_LENGTH, RUN_LENGTH_2};
pub use lifeline::{Lifeline, Standing};
pub use points::{Question, Record, Results, GRID, SMALL_SET};
pub use refusal::{JoinRefusal, Refusal};
pub use roll::{Member, NotARoll, Roll, GREATEST_PENSION, ROLL_LENGTH, ROLL_MEMBERS};
pub use units::{decimal, Decimal, UNIT};
pub use version::{linked_version, Version, VERSION};

/// Whose rates a life meets.
#[derive(Clone, Copy, Debug, PartialEq, Eq, Hash)]
pub enum Kind {
    /// Those of one year, at every age.
    Period,
    /// Those of the years that it reaches. After 2130 each year's improvement is the long-term rate by age plus that by
    /// birth year plus the constant addition.
    Cohort,
}

/// The Rust examples of the page for those who embed the engine are tests as well.
#[cfg(doctest)]
#[doc = include_str!("../../../docs/EMBEDDING.md")]
mod embedding {}
