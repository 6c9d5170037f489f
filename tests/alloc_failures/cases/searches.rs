//! Searches of the backtracker that were refused memory.

use super::{Seen, Wrong, engines, expect, is_right, made};
use nfa_engines::backtrack::{BoundedBacktracker, Cache};
use nfa_engines::error::SearchError;
use nfa_samples::answers::GROUPS_ON_AB;
use regex_search_core::{Captures, Input, Match, NonMaxUsize, PatternID, Span};
use std::alloc::Global;
use test_support::samples::parts;

/// Whether `groups` on "ab" has filled its six slots.
pub fn are_groups(pattern: Option<PatternID>, slots: &[Option<NonMaxUsize>]) -> bool {
    pattern == PatternID::new(0)
        && slots.len() == 6
        && slots
            .iter()
            .zip(GROUPS_ON_AB.iter())
            .all(|(slot, want)| slot.map(|offset| offset.get()) == *want)
}

// Whether no slot is set.
fn are_none(slots: &[Option<NonMaxUsize>]) -> bool {
    slots.iter().all(|slot| slot.is_none())
}

// Whether the search was refused memory. It leaves no slot then.
fn is_refused(
    seen: &mut Seen,
    engine: &BoundedBacktracker,
    cache: &mut Cache,
) -> Result<bool, Wrong> {
    let mut slots = [NonMaxUsize::new(7); 6];
    match engine.try_search_slots(cache, &Input::new(b"ab"), &mut slots) {
        Ok(pattern) => {
            expect(are_groups(pattern, &slots), "the slots of a search")?;
            Ok(false)
        }
        Err(error) => {
            seen.note(error == SearchError::Memory)?;
            is_right(are_none(&slots), "slots after a refusal")
        }
    }
}

/// A refused search leaves no slot, and its cache serves the next one.
pub fn slots(alloc: Global, seen: &mut Seen) -> Result<(), Wrong> {
    let engine = engines::backtracker(alloc, seen, "groups")?;
    let mut cache = engine.create_cache(alloc);
    expect_slots(seen, &engine, &mut cache)
}

fn expect_slots(
    seen: &mut Seen,
    engine: &BoundedBacktracker,
    cache: &mut Cache,
) -> Result<(), Wrong> {
    if is_refused(seen, engine, cache)? {
        let again = is_refused(seen, engine, cache)?;
        expect(!again, "two refusals of a search")?;
    }
    let warm = is_refused(seen, engine, cache)?;
    expect(!warm, "a refusal of a warm search")
}

const DATE: &[u8] = b"2010-03-14";

/// A refused search for a match is made again.
pub fn matches(alloc: Global, seen: &mut Seen) -> Result<(), Wrong> {
    let engine = engines::backtracker(alloc, seen, "date")?;
    expect_matches(alloc, seen, &engine)
}

fn expect_matches(
    alloc: Global,
    seen: &mut Seen,
    engine: &BoundedBacktracker,
) -> Result<(), Wrong> {
    expect_found(alloc, seen, engine)?;
    expect_is_match(alloc, seen, engine)
}

fn expect_found(alloc: Global, seen: &mut Seen, engine: &BoundedBacktracker) -> Result<(), Wrong> {
    let mut cache = engine.create_cache(alloc);
    expect_found_with(seen, engine, &mut cache)
}

fn expect_found_with(
    seen: &mut Seen,
    engine: &BoundedBacktracker,
    cache: &mut Cache,
) -> Result<(), Wrong> {
    let found = found(seen, engine, cache, DATE)?;
    expect(found.map(parts) == Some((0, 0, 10)), "the match")
}

/// The match that the backtracker finds.
pub fn found(
    seen: &mut Seen,
    engine: &BoundedBacktracker,
    cache: &mut Cache,
    haystack: &[u8],
) -> Result<Option<Match>, Wrong> {
    made!(
        seen,
        SearchError::Memory,
        engine.try_find(cache, Input::new(haystack))
    )
}

fn expect_is_match(
    alloc: Global,
    seen: &mut Seen,
    engine: &BoundedBacktracker,
) -> Result<(), Wrong> {
    let mut cache = engine.create_cache(alloc);
    expect_is_match_with(seen, engine, &mut cache)
}

fn expect_is_match_with(
    seen: &mut Seen,
    engine: &BoundedBacktracker,
    cache: &mut Cache,
) -> Result<(), Wrong> {
    let is_match = is_match(seen, engine, cache)?;
    expect(is_match, "whether there is a match")
}

fn is_match(
    seen: &mut Seen,
    engine: &BoundedBacktracker,
    cache: &mut Cache,
) -> Result<bool, Wrong> {
    made!(
        seen,
        SearchError::Memory,
        engine.try_is_match(cache, Input::new(DATE))
    )
}

/// A refused search for captures leaves no match in them, and the next one finds all groups.
pub fn captures(alloc: Global, seen: &mut Seen) -> Result<(), Wrong> {
    let engine = engines::backtracker(alloc, seen, "date")?;
    expect_captures_of(alloc, seen, &engine)
}

fn expect_captures_of(
    alloc: Global,
    seen: &mut Seen,
    engine: &BoundedBacktracker,
) -> Result<(), Wrong> {
    let mut captures = engines::backtracker_captures(alloc, seen, engine)?;
    expect_captures(alloc, seen, engine, &mut captures)
}

// The later searches are handed captures that show a match.
fn expect_captures(
    alloc: Global,
    seen: &mut Seen,
    engine: &BoundedBacktracker,
    captures: &mut Captures,
) -> Result<(), Wrong> {
    expect_searched(alloc, seen, engine, captures)?;
    expect_captured(alloc, seen, engine, captures)?;
    expect_searched(alloc, seen, engine, captures)
}

fn expect_searched(
    alloc: Global,
    seen: &mut Seen,
    engine: &BoundedBacktracker,
    captures: &mut Captures,
) -> Result<(), Wrong> {
    let mut cache = engine.create_cache(alloc);
    expect_searched_with(seen, engine, &mut cache, captures)
}

fn expect_searched_with(
    seen: &mut Seen,
    engine: &BoundedBacktracker,
    cache: &mut Cache,
    captures: &mut Captures,
) -> Result<(), Wrong> {
    let input = Input::new(DATE);
    if let Err(error) = engine.try_search(cache, &input, captures) {
        expect_refused(seen, error, captures)?;
        let again = engine.try_search(cache, &input, captures);
        expect(again.is_ok(), "two refusals of a search for captures")?;
    }
    expect_date(captures)
}

fn expect_captured(
    alloc: Global,
    seen: &mut Seen,
    engine: &BoundedBacktracker,
    captures: &mut Captures,
) -> Result<(), Wrong> {
    let mut cache = engine.create_cache(alloc);
    expect_captured_with(seen, engine, &mut cache, captures)
}

fn expect_captured_with(
    seen: &mut Seen,
    engine: &BoundedBacktracker,
    cache: &mut Cache,
    captures: &mut Captures,
) -> Result<(), Wrong> {
    let input = Input::new(DATE);
    if let Err(error) = engine.try_captures(cache, input, captures) {
        expect_refused(seen, error, captures)?;
        let again = engine.try_captures(cache, input, captures);
        expect(again.is_ok(), "two refusals of captures")?;
    }
    expect_date(captures)
}

fn expect_refused(seen: &mut Seen, error: SearchError, captures: &Captures) -> Result<(), Wrong> {
    seen.note(error == SearchError::Memory)?;
    let is_match = captures.is_match() || captures.get_match().is_some();
    expect(!is_match, "captures that show a match after a refusal")?;
    expect(
        are_none(captures.slots()),
        "slots of captures after a refusal",
    )
}

// Each group of the date: the whole, the year, the month and the day.
const GROUPS_OF_DATE: &[(usize, usize, usize)] = &[(0, 0, 10), (1, 0, 4), (2, 5, 7), (3, 8, 10)];

fn expect_date(captures: &Captures) -> Result<(), Wrong> {
    expect(
        captures.pattern() == PatternID::new(0),
        "the pattern of captures",
    )?;
    for &(index, start, end) in GROUPS_OF_DATE {
        let group = captures.get_group(index);
        expect(group == Some(Span { start, end }), "a group of captures")?;
    }
    Ok(())
}
