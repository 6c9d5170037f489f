//! Iterations over captures that were refused memory: none is made, or a beginning of the list comes, the refusal once,
//! and then nothing. The cache serves the next search.

use super::{Seen, Wrong, engines, expect, is_right, searches};
use nfa_engines::backtrack::{self, BoundedBacktracker, TryCapturesMatches};
use nfa_engines::error::SearchError;
use nfa_engines::iter::Searcher;
use nfa_engines::pikevm::{self, CapturesMatches, PikeVM};
use regex_search_core::{Captures, Input, NonMaxUsize, PatternID};
use std::alloc::Global;
use test_support::samples::parts;

/// Iterations of both engines over captures, and of a stored finder.
pub fn lists(alloc: Global, seen: &mut Seen) -> Result<(), Wrong> {
    tries(alloc, seen)?;
    sure_lists(alloc, seen)?;
    stored(alloc, seen)
}

fn tries(alloc: Global, seen: &mut Seen) -> Result<(), Wrong> {
    let engine = engines::backtracker(alloc, seen, "foo_num")?;
    let mut cache = engine.create_cache(alloc);
    tried(alloc, seen, &engine, &mut cache)
}

fn sure_lists(alloc: Global, seen: &mut Seen) -> Result<(), Wrong> {
    let vm = engines::pikevm(alloc, seen, "foo_num")?;
    sure_lists_of(alloc, seen, &vm)
}

fn sure_lists_of(alloc: Global, seen: &mut Seen, vm: &PikeVM) -> Result<(), Wrong> {
    let mut cache = engines::threads(alloc, seen, vm)?;
    sure(alloc, seen, vm, &mut cache)
}

const HAYSTACK: &[u8] = b"foo1 foo12 foo123";

// The four slots of each match of `foo_num` in that text.
const SLOTS: &[[usize; 4]] = &[[0, 4, 3, 4], [5, 10, 8, 10], [11, 17, 14, 17]];

// The captures have these slots.
fn is_row(captures: &Captures, want: &[usize; 4]) -> bool {
    captures.is_match()
        && captures.slots().len() == 4
        && captures.slots().iter().zip(want.iter()).all(|(slot, want)| slot.map(
            |offset| offset.get(),
        ) == Some(*want))
}

// Whether the item is the row; a refusal is noted.
fn is_item(
    seen: &mut Seen,
    item: Option<Result<Captures, SearchError>>,
    want: &[usize; 4],
) -> Result<bool, Wrong> {
    match item {
        Some(Ok(captures)) => is_right(is_row(&captures, want), "the captures of an item"),
        Some(Err(error)) => seen.is_refusal(error == SearchError::Memory),
        None => Err(Wrong("a list of captures that ends too early")),
    }
}

fn expect_tried(seen: &mut Seen, items: &mut TryCapturesMatches<'_, '_, '_>) -> Result<(), Wrong> {
    for want in SLOTS {
        if !is_item(seen, items.next(), want)? {
            break;
        }
    }
    let ended = items.next().is_none() && items.next().is_none();
    expect(ended, "captures behind the end")
}

fn expect_sure(seen: &mut Seen, items: &mut CapturesMatches<'_, '_, '_>) -> Result<(), Wrong> {
    for want in SLOTS {
        if !is_item(seen, items.next(), want)? {
            break;
        }
    }
    let ended = items.next().is_none() && items.next().is_none();
    expect(ended, "captures behind the end")
}

fn tried(
    alloc: Global,
    seen: &mut Seen,
    engine: &BoundedBacktracker,
    cache: &mut backtrack::Cache,
) -> Result<(), Wrong> {
    expect_tries(alloc, seen, engine, cache)?;
    expect_all(
        seen,
        engine.try_captures_all(alloc, cache, Input::new(HAYSTACK)),
    )?;
    let found = searches::found(seen, engine, cache, HAYSTACK)?;
    expect(
        found.map(parts) == Some((0, 0, 4)),
        "the match after captures",
    )
}

fn expect_tries(
    alloc: Global,
    seen: &mut Seen,
    engine: &BoundedBacktracker,
    cache: &mut backtrack::Cache,
) -> Result<(), Wrong> {
    match engine.try_captures_iter(alloc, cache, Input::new(HAYSTACK)) {
        Ok(mut items) => expect_tried(seen, &mut items),
        Err(error) => seen.note(error == SearchError::Memory),
    }
}

fn expect_rows(all: &[Captures]) -> Result<(), Wrong> {
    expect(all.len() == SLOTS.len(), "the number of all captures")?;
    for (captures, want) in all.iter().zip(SLOTS) {
        expect(is_row(captures, want), "one of all captures")?;
    }
    Ok(())
}

fn sure(
    alloc: Global,
    seen: &mut Seen,
    vm: &PikeVM,
    cache: &mut pikevm::Cache,
) -> Result<(), Wrong> {
    expect_sures(alloc, seen, vm, cache)?;
    if !cache.fits(vm) {
        return Err(Wrong("a cache that fits no more after captures"));
    }
    expect_all(seen, vm.captures_all(alloc, cache, Input::new(HAYSTACK)))?;
    let found = vm.find(cache, Input::new(HAYSTACK));
    expect(
        found.map(parts) == Some((0, 0, 4)),
        "the match after captures",
    )
}

// As one value the list comes whole, or not at all.
fn expect_all(seen: &mut Seen, all: Result<Vec<Captures>, SearchError>) -> Result<(), Wrong> {
    match all {
        Ok(all) => expect_rows(&all),
        Err(error) => seen.note(error == SearchError::Memory),
    }
}

fn expect_sures(
    alloc: Global,
    seen: &mut Seen,
    vm: &PikeVM,
    cache: &mut pikevm::Cache,
) -> Result<(), Wrong> {
    if !cache.fits(vm) {
        return Err(Wrong("a cache that does not fit its engine"));
    }
    match vm.captures_iter(alloc, cache, Input::new(HAYSTACK)) {
        Ok(mut items) => expect_sure(seen, &mut items),
        Err(error) => seen.note(error == SearchError::Memory),
    }
}

fn stored(alloc: Global, seen: &mut Seen) -> Result<(), Wrong> {
    let vm = engines::pikevm(alloc, seen, "abc")?;
    stored_of(alloc, seen, &vm)
}

fn stored_of(alloc: Global, seen: &mut Seen, vm: &PikeVM) -> Result<(), Wrong> {
    let captures = engines::captures(alloc, seen, vm.get_nfa().group_info())?;
    expect_stored(seen, captures)
}

/// Captures of the first byte of the span, if it has one.
pub fn first_byte(input: &Input<'_>, captures: &mut Captures) -> Result<(), SearchError> {
    let start = input.start();
    for (slot, offset) in captures
        .slots_mut()
        .iter_mut()
        .zip([start, start.saturating_add(1)].iter())
    {
        *slot = NonMaxUsize::new(*offset);
    }
    captures.set_pattern(PatternID::new(0));
    let inside = match captures.get_match() {
        Some(found) => found.start() >= start && found.end() <= input.end(),
        None => false,
    };
    if !inside {
        captures.set_pattern(None);
    }
    Ok(())
}

// The items are the three bytes, or those before some place and the refusal of a copy, and then nothing.
fn expect_stored(seen: &mut Seen, captures: Captures) -> Result<(), Wrong> {
    let mut items = Searcher::new(Input::new(b"abc")).into_captures_iter(captures, first_byte);
    for start in 0..3 {
        if !is_byte(seen, items.next(), start)? {
            break;
        }
    }
    let ended = items.next().is_none() && items.next().is_none();
    expect(ended, "captures of a finder behind the end")
}

// Whether the item is the byte at this place; a refusal is noted.
fn is_byte(
    seen: &mut Seen,
    item: Option<Result<Captures, SearchError>>,
    start: usize,
) -> Result<bool, Wrong> {
    match item {
        Some(Ok(captures)) => {
            let found = captures.get_match().map(parts);
            let want = (0, start, start.saturating_add(1));
            is_right(found == Some(want), "the captures of a finder")
        }
        Some(Err(error)) => seen.is_refusal(error == SearchError::Memory),
        None => Err(Wrong("a list of a finder that ends too early")),
    }
}
