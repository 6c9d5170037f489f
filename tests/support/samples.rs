//! NFAs and engines by the name of a sample.

use nfa_engines::backtrack::{self, BoundedBacktracker};
use nfa_engines::error::SearchError;
use nfa_engines::pikevm::{self, PikeVM};
use nfa_samples::sample;
use regex_search_core::{Anchored, Input, Match, MatchKind, Refused};
use std::alloc::{AllocError, AllocFailed, Global};
use thompson_nfa::{BuildError, NFA};

/// The names of all samples.
pub const NAMES: &[&str] = &[
    "abc",
    "ab_b",
    "ab_abc",
    "abc_ab",
    "abc_b",
    "foo_bar",
    "b_a",
    "abc_a",
    "a_or_empty",
    "empty_or_a",
    "empty",
    "empty_bytes",
    "empty_anchored",
    "a_star",
    "a_star_bytes",
    "groups",
    "loop",
    "a_bare",
    "a_pair",
    "backwards",
    "snowman",
    "three_digits",
    "alnum100",
    "words_numbers",
    "abcd_b",
    "foo_num",
    "date",
    "six",
];

/// Why a test lacks what it searches with.
#[derive(Clone, Copy, Debug, PartialEq, Eq)]
pub enum MakeError {
    /// Allocation failed.
    Memory,
    /// No sample has that name.
    UnknownName,
    /// A number of a state or a pattern, or of slots, is too large.
    TooLarge,
    /// The states make no NFA.
    Malformed(BuildError),
}

impl From<BuildError> for MakeError {
    fn from(error: BuildError) -> MakeError {
        match error {
            BuildError::Memory => MakeError::Memory,
            _ => MakeError::Malformed(error),
        }
    }
}

impl From<SearchError> for MakeError {
    // Making an engine or its cache fails only for memory.
    fn from(_: SearchError) -> MakeError {
        MakeError::Memory
    }
}

impl From<Refused> for MakeError {
    fn from(_: Refused) -> MakeError {
        MakeError::Memory
    }
}

impl From<AllocError> for MakeError {
    fn from(_: AllocError) -> MakeError {
        MakeError::Memory
    }
}

impl<T: Drop> From<AllocFailed<T>> for MakeError {
    fn from(_: AllocFailed<T>) -> MakeError {
        MakeError::Memory
    }
}

/// The sample of that name.
pub fn nfa_named(alloc: Global, name: &str) -> Result<NFA, MakeError> {
    sample(alloc, name)?.ok_or(MakeError::UnknownName)
}

/// A backtracker of the sample, with the default capacity.
pub fn backtracker(alloc: Global, name: &str) -> Result<BoundedBacktracker, MakeError> {
    Ok(BoundedBacktracker::new_from_nfa(nfa_named(alloc, name)?)?)
}

/// A backtracker of the sample with this visited capacity, in bytes.
pub fn with_capacity(
    alloc: Global,
    name: &str,
    bytes: usize,
) -> Result<BoundedBacktracker, MakeError> {
    let mut builder = BoundedBacktracker::builder();
    builder.configure(backtrack::Config::new().visited_capacity(bytes));
    Ok(builder.build_from_nfa(nfa_named(alloc, name)?)?)
}

/// A PikeVM of the sample.
pub fn pikevm(alloc: Global, name: &str) -> Result<PikeVM, MakeError> {
    Ok(PikeVM::new_from_nfa(nfa_named(alloc, name)?)?)
}

/// A PikeVM of the sample that searches by this kind.
pub fn of_kind(alloc: Global, name: &str, kind: MatchKind) -> Result<PikeVM, MakeError> {
    let mut builder = PikeVM::builder();
    builder.configure(pikevm::Config::new().match_kind(kind));
    Ok(builder.build_from_nfa(nfa_named(alloc, name)?)?)
}

/// A search of the span of the haystack from `start` to `end`, or none if the haystack has no such span.
pub fn input_in<'h>(
    haystack: &'h [u8],
    start: usize,
    end: usize,
    anchored: bool,
) -> Option<Input<'h>> {
    if start > end || end > haystack.len() {
        return None;
    }
    let mode = if anchored {
        Anchored::Yes
    } else {
        Anchored::No
    };
    Some(Input::new(haystack).range(start..end).anchored(mode))
}

/// The pattern, the start and the end of a match.
pub fn parts(found: Match) -> (usize, usize, usize) {
    (found.pattern().as_usize(), found.start(), found.end())
}
