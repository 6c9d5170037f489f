//! Tests of the PikeVM.

mod caches;
mod callers;
mod histories;
mod searches;
mod sets;
mod skips;
mod texts;
