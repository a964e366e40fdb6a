//! An independent engine of the rules of 01 in Rust, the proved archive behind safe calls, and what both are asked.
pub mod bases;
pub mod compare;
pub mod engine;
pub mod ffi;
pub mod guard;
pub mod points;
pub mod random;
pub mod stack;
pub mod timing;
