//! Data runs, files and histories to ask about: plausible, anywhere in the limits, at the limits, and damaged.
pub mod damaged;
pub mod draft;
pub mod files;
pub mod forms;
pub mod histories;
pub mod valid;

pub use draft::Draft;
