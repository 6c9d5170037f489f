//! The `Debug` texts of iterators.

use crate::tests::expect_shown;
use callers::pieces::next_piece;
use nfa_engines::backtrack::BoundedBacktracker;
use nfa_engines::error::SearchError;
use nfa_engines::iter::Searcher;
use regex_search_core::{HalfMatch, Input, Match};
use std::fmt::Debug;
use std::process::Abort;
use std::test::Fail;

const FRESH: &str =
    "Searcher { input: Input { haystack: [97, 98], span: Span { start: 0, end: 2 }, anchored: No, \
    earliest: false }, last_match_end: None }";

const AFTER_THE_LAST: &str =
    "Searcher { input: Input { haystack: [97, 98], span: Span { start: 3, end: 2 }, anchored: No, \
    earliest: false }, last_match_end: Some(2) }";

// An iterator over an engine that never matches, with a new cache.
const MATCHES: &str = "TryFindMatches { cache: Cache { scratch: Scratch { stack: [], \
    visited: Visited { blocks: [], used: 0, turns: Counter }, scans: Counter }, slots: [], answered: Counter, \
    refused: Counter, past_scans: Counter, past_turns: Counter }, steps: Steps { searcher: Searcher { input: Input { \
    haystack: [97, 98], span: Span { start: 0, end: 2 }, anchored: No, earliest: false }, last_match_end: None }, \
    backend: Finder { engine: BoundedBacktracker { config: Config { visited_capacity: None }, mark_limit: 2097152, \
    first: FirstBytes { .. }, nfa: NFA { states: [Fail], anchored: StateID(0), unanchored: StateID(0), patterns: [], \
    groups: GroupInfo { names: [], slot_len: 0 }, has_empty: false, utf8: false } }, known: None }, done: false } }";

#[test]
fn an_iterator_over_an_engine_is_shown(rt: HostRuntime) -> Result<(), Fail> {
    let engine = BoundedBacktracker::never_match(rt.alloc())?;
    let mut cache = engine.create_cache(rt.alloc());
    let matches = engine.try_find_iter(&mut cache, Input::new(b"ab"));
    expect_shown(&rt, &matches, MATCHES);
    Ok(())
}

// The next byte, or the empty rest of the span.
fn byte(input: &Input<'_>) -> Result<Option<Match>, SearchError> {
    Ok(next_piece(input, 1))
}

// Its end.
fn byte_end(input: &Input<'_>) -> Result<Option<HalfMatch>, SearchError> {
    let found = next_piece(input, 1);
    Ok(found.map(|found| HalfMatch::new(found.pattern(), found.end())))
}

// The state of the searcher, and whether the iterator is done: at first, and after three steps.
const FIRST: (&str, bool) = (FRESH, false);

const LAST: (&str, bool) = (AFTER_THE_LAST, true);

// An iterator that may err shows its searcher, and whether it is done.
fn expect_tries(
    rt: &(impl Abort + AllocGlobal),
    tries: &impl Debug,
    name: &str,
    (searcher, done): (&str, bool),
) -> Result<(), Fail> {
    let want = format!(in rt.alloc(); "{name} {{ searcher: {searcher}, done: {done}, .. }}")?;
    expect_shown(rt, tries, want.as_str());
    Ok(())
}

// An infallible iterator shows the one that it wraps, before its first step.
fn expect_sure(
    rt: &(impl Abort + AllocGlobal),
    sure: &impl Debug,
    name: &str,
    tries: &str,
) -> Result<(), Fail> {
    let (searcher, done) = FIRST;
    let want = format!(in rt.alloc();
        "{name} {{ tries: {tries} {{ searcher: {searcher}, done: {done}, .. }} }}"
    )?;
    expect_shown(rt, sure, want.as_str());
    Ok(())
}

#[test]
fn iterators_over_a_finder_are_shown(rt: HostRuntime) -> Result<(), Fail> {
    let mut tries = Searcher::new(Input::new(b"ab")).into_matches_iter(byte);
    expect_tries(&rt, &tries, "TryMatchesIter", FIRST)?;
    for _ in 0..3 {
        tries.next();
    }
    expect_tries(&rt, &tries, "TryMatchesIter", LAST)
}

#[test]
fn sure_iterators_over_a_finder_are_shown(rt: HostRuntime) -> Result<(), Fail> {
    let tries = Searcher::new(Input::new(b"ab")).into_matches_iter(byte);
    expect_sure(&rt, &tries.infallible(), "MatchesIter", "TryMatchesIter")
}

#[test]
fn iterators_over_a_half_finder_are_shown(rt: HostRuntime) -> Result<(), Fail> {
    let mut tries = Searcher::new(Input::new(b"ab")).into_half_matches_iter(byte_end);
    expect_tries(&rt, &tries, "TryHalfMatchesIter", FIRST)?;
    for _ in 0..3 {
        tries.next();
    }
    expect_tries(&rt, &tries, "TryHalfMatchesIter", LAST)
}

#[test]
fn sure_iterators_over_a_half_finder_are_shown(rt: HostRuntime) -> Result<(), Fail> {
    let tries = Searcher::new(Input::new(b"ab")).into_half_matches_iter(byte_end);
    expect_sure(
        &rt,
        &tries.infallible(),
        "HalfMatchesIter",
        "TryHalfMatchesIter",
    )
}
