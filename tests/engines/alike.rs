//! Calls that answer what other calls answer, over the searches of the grids: half matches, captures of an input, lists,
//! iterations, and a `Searcher` over single searches.

use super::sums::{SEED, Shared, fold, fold_slots};
use nfa_engines::backtrack::BoundedBacktracker;
use nfa_engines::error::SearchError;
use nfa_engines::iter::Searcher;
use nfa_engines::pikevm::PikeVM;
use regex_search_core::{Captures, HalfMatch, Input, Match, PatternID};
use test_support::TestRuntime;
use test_support::engines::fitting;

// What the calls of one engine give for one input.
#[derive(Drop)]
struct Given {
    pattern: Option<PatternID>,
    half: Option<HalfMatch>,
    // What a search leaves in captures, by reference and by value.
    searched: [u64; 2],
    // All matches as one value, one by one, and by a `Searcher`.
    matches: [Vec<Match>; 3],
    // All captures as one value, one by one, and one by one in captures of the caller.
    captures: [Vec<Captures>; 3],
}

fn sum_of(captures: &Captures) -> u64 {
    fold_slots(SEED, captures.pattern(), captures.slots())
}

// The matches that a `Searcher` finds by single searches.
fn stepped<F>(rt: &impl TestRuntime, input: &Input<'_>, finder: F) -> Vec<Match>
where
    F: FnMut(&Input<'_>) -> Result<Option<Match>, SearchError>,
{
    let mut matches = Vec::new(rt.alloc());
    let mut finder = finder;
    let mut searcher = Searcher::new(*input);
    while let Some(found) = searcher
        .try_advance_by_ref(&mut finder)
        .expect(rt, "an answer")
    {
        matches.push(found).expect(rt, "memory");
    }
    matches
}

// The items, none of which is an error.
fn collected<T: Drop, I: Iterator<Item = Result<T, SearchError>>>(
    rt: &impl TestRuntime,
    items: I,
) -> Vec<T> {
    let mut all = Vec::new(rt.alloc());
    for item in items {
        all.push(item.expect(rt, "an item")).expect(rt, "memory");
    }
    all
}

fn piked(rt: &impl TestRuntime, vm: &PikeVM, input: &Input<'_>, shared: &mut Shared) -> Given {
    let Shared {
        threads,
        captures,
        ..
    } = shared;
    let (alloc, threads) = (rt.alloc(), fitting(vm, threads));
    vm.search(threads, input, captures);
    let by_reference = sum_of(captures);
    vm.captures(threads, *input, captures);
    let all = vm.find_all(alloc, threads, *input).expect(rt, "memory");
    let one_by_one = vm.find_iter(threads, *input).collect(alloc);
    let all_captures = vm.captures_all(alloc, threads, *input);
    let all_captures = all_captures.expect(rt, "memory");
    let items = vm.captures_iter(alloc, threads, *input);
    let items = collected(rt, items.expect(rt, "memory"));
    let own = vm.create_captures(alloc).expect(rt, "memory");
    Given {
        pattern: captures.pattern(),
        half: vm.find_half(threads, *input),
        searched: [by_reference, sum_of(captures)],
        matches: [
            all,
            one_by_one.expect(rt, "memory"),
            stepped(rt, input, |at: &Input<'_>| Ok(vm.find(threads, *at))),
        ],
        captures: [
            all_captures,
            items,
            collected(rt, vm.captures_iter_with(threads, *input, own)),
        ],
    }
}

fn backtracked(
    rt: &impl TestRuntime,
    engine: &BoundedBacktracker,
    input: &Input<'_>,
    shared: &mut Shared,
) -> Given {
    let Shared {
        marks,
        captures,
        ..
    } = shared;
    let alloc = rt.alloc();
    let searched = engine.try_search(marks, input, captures);
    searched.expect(rt, "an answer");
    let by_reference = sum_of(captures);
    let searched = engine.try_captures(marks, *input, captures);
    searched.expect(rt, "an answer");
    let all = engine.try_find_all(alloc, marks, *input);
    let all_captures = engine.try_captures_all(alloc, marks, *input);
    let half = engine.try_find_half(marks, *input);
    let items = engine.try_captures_iter(alloc, marks, *input);
    let items = collected(rt, items.expect(rt, "memory"));
    let own = engine.create_captures(alloc).expect(rt, "memory");
    Given {
        pattern: captures.pattern(),
        half: half.expect(rt, "an answer"),
        searched: [by_reference, sum_of(captures)],
        matches: [
            all.expect(rt, "an answer"),
            collected(rt, engine.try_find_iter(marks, *input)),
            stepped(rt, input, |at: &Input<'_>| engine.try_find(marks, *at)),
        ],
        captures: [
            all_captures.expect(rt, "an answer"),
            items,
            collected(rt, engine.try_captures_iter_with(marks, *input, own)),
        ],
    }
}

fn expect_same_captures(
    rt: &impl TestRuntime,
    input: &Input<'_>,
    given: &[Captures],
    all: &[Captures],
) {
    assert_eq!(rt; given.len(), all.len(), "{input:?}");
    for (one, other) in given.iter().zip(all) {
        assert_eq!(rt; one.pattern(), other.pattern(), "{input:?}");
        assert_eq!(rt; one.slots(), other.slots(), "{input:?}");
    }
}

// The calls of one engine agree. Returns the sum of the half match and of the slots of all captures.
fn expect_alike(rt: &impl TestRuntime, input: &Input<'_>, given: &Given) -> u64 {
    let [searched, by_value] = given.searched;
    assert_eq!(rt; by_value, searched, "{input:?}");
    let pattern = given.half.map(|half| half.pattern());
    assert_eq!(rt; pattern, given.pattern, "{input:?}");
    let [matches, iterated, stepped] = &given.matches;
    assert_eq!(rt; iterated, matches, "{input:?}");
    assert_eq!(rt; stepped, matches, "{input:?}");
    let [all, items, own_items] = &given.captures;
    expect_same_captures(rt, input, items, all);
    expect_same_captures(rt, input, own_items, all);
    assert_eq!(rt; matches.len(), all.len(), "{input:?}");
    let mut sum = fold_half(SEED, given.half);
    for (found, captures) in matches.iter().zip(all) {
        assert_eq!(rt; Some(*found), captures.get_match(), "{input:?}");
        sum = fold_slots(sum, captures.pattern(), captures.slots());
    }
    sum
}

// Adds one more than the pattern's number and the end, or 0 for none.
fn fold_half(sum: u64, half: Option<HalfMatch>) -> u64 {
    match half {
        Some(half) => fold(
            fold(sum, half.pattern().as_usize() as u64 + 1),
            half.offset() as u64,
        ),
        None => fold(sum, 0),
    }
}

/// The calls of the PikeVM agree. Returns the sum of the half match and of the slots of all captures.
pub fn expect_piked_alike(
    rt: &impl TestRuntime,
    vm: &PikeVM,
    input: &Input<'_>,
    shared: &mut Shared,
) -> u64 {
    expect_alike(rt, input, &piked(rt, vm, input, shared))
}

/// The same for the backtracker.
pub fn expect_backtracked_alike(
    rt: &impl TestRuntime,
    engine: &BoundedBacktracker,
    input: &Input<'_>,
    shared: &mut Shared,
) -> u64 {
    expect_alike(rt, input, &backtracked(rt, engine, input, shared))
}
