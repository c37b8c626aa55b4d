//! A second reading of the scheduler's rules (document 01), with the standard library alone.
//!
//! It is there to disagree: the proved code and this one are given the same input, and every answer is compared. So it
//! takes another road: rows are entries of vectors and maps, what a task is doing is an enum that carries what it holds,
//! and the sets are sets.

pub mod admission;
pub mod block;
pub mod choice;
pub mod event;
pub mod host;
pub mod image;
pub mod legal;
pub mod line;
pub mod plan;
pub mod read;
pub mod run;
pub mod sample;
pub mod state;
pub mod step;
pub mod text;
