//! Tests of errors, skipping and iteration.

mod callers;
mod errors;
mod skipping;
mod steps;
