//! Copies of a backtracker and of its cache, and a list of captures without a match: each makes a number of requests
//! that is known, so that nothing is copied twice.

use super::searches::found;
use super::{Seen, Wrong, engines, expect};
use nfa_engines::backtrack::{self, BoundedBacktracker};
use nfa_engines::error::SearchError;
use regex_search_core::Input;
use std::alloc::Global;
use test_support::samples::parts;

/// The stretches of a backtracker.
pub fn backtracked(alloc: Global, seen: &mut Seen) -> Result<(), Wrong> {
    let engine = engines::backtracker(alloc, seen, "groups")?;
    expect_copy(alloc, seen, &engine)?;
    expect_cache(alloc, seen, &engine)
}

// A copy of a backtracker copies its NFA.
fn expect_copy(alloc: Global, seen: &mut Seen, engine: &BoundedBacktracker) -> Result<(), Wrong> {
    seen.opens(alloc, "a copy of a backtracker");
    let copy = engine.clone();
    seen.closes(alloc, "a copy of a backtracker");
    match copy {
        Ok(copy) => expect(copy.pattern_len() == 1, "the patterns of a copy"),
        Err(error) => seen.note(error == SearchError::Memory),
    }
}

fn expect_cache(alloc: Global, seen: &mut Seen, engine: &BoundedBacktracker) -> Result<(), Wrong> {
    let mut cache = engine.create_cache(alloc);
    let first = found(seen, engine, &mut cache, b"ab ab")?;
    expect(first.map(parts) == Some((0, 0, 2)), "the first match")?;
    expect_cache_copy(alloc, seen, &cache)?;
    expect_no_captures(alloc, seen, engine, &mut cache)
}

// A copy of a cache copies its marks and its slots. Its stack is empty.
fn expect_cache_copy(
    alloc: Global,
    seen: &mut Seen,
    cache: &backtrack::Cache,
) -> Result<(), Wrong> {
    seen.opens(alloc, "a copy of the cache of a backtracker");
    let copy = cache.clone();
    seen.closes(alloc, "a copy of the cache of a backtracker");
    match copy {
        Ok(copy) => expect(
            copy.memory_usage() == cache.memory_usage(),
            "the memory of a copy",
        ),
        Err(error) => seen.note(error == SearchError::Memory),
    }
}

// Where there is no match, the captures that are searched with are all that takes memory.
fn expect_no_captures(
    alloc: Global,
    seen: &mut Seen,
    engine: &BoundedBacktracker,
    cache: &mut backtrack::Cache,
) -> Result<(), Wrong> {
    seen.opens(alloc, "all captures of no match of a backtracker");
    let made = engine.try_captures_all(alloc, cache, Input::new(b"..."));
    seen.closes(alloc, "all captures of no match of a backtracker");
    match made {
        Ok(none) => expect(none.is_empty(), "captures of no match"),
        Err(error) => seen.note(error == SearchError::Memory),
    }
}
