//! Both engines side by side.

mod alike;
mod choice;
mod expected;
mod grid;
mod memory;
mod odd;
mod random;
mod samples;
mod shapes;
mod sums;
mod time;
