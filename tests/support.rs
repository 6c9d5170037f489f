//! What the crates of tests share: both engines over one NFA, NFAs that are written by hand or random, searches of each
//! span, and answers as text.

pub mod engines;
pub mod machine;
pub mod random;
pub mod samples;
pub mod searches;
pub mod text;

use std::alloc::AllocGlobal;
use std::process::Abort;

/// The runtime of a test, for helpers of tests: it fails the test, and gives the allocator.
pub trait TestRuntime: Abort + AllocGlobal {}

impl<R: Abort + AllocGlobal> TestRuntime for R {}
