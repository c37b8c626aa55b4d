//! What the tests on random input share.
#![allow(dead_code)] // Each test file uses its own part of it.

pub mod damage;
pub mod events;
pub mod laws;
pub mod plans;
pub mod random;
pub mod states;
pub mod vectors;
