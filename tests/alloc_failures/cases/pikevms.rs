//! Resets of caches that were refused memory, and searches of the PikeVM, which ask for none.

use super::searches::are_groups;
use super::{Seen, Wrong, engines, expect, is_right};
use nfa_engines::error::SearchError;
use nfa_engines::pikevm::{self, PikeVM};
use regex_search_core::{Captures, Input, NonMaxUsize, PatternSet};
use std::alloc::Global;
use test_support::samples::parts;

// What `groups` answers with a cache that fits.
fn expect_piked(groups: &PikeVM, cache: &mut pikevm::Cache) -> Result<(), Wrong> {
    let mut slots = [NonMaxUsize::new(7); 6];
    if !cache.fits(groups) {
        return Err(Wrong("a cache that does not fit"));
    }
    let pattern = groups.search_slots(cache, &Input::new(b"ab"), &mut slots);
    expect(are_groups(pattern, &slots), "the slots of a PikeVM")
}

/// A refused reset leaves a cache that fits what it fitted: a reset to an engine all of whose numbers are larger, and
/// to one that has more states and fewer slots.
pub fn resets(alloc: Global, seen: &mut Seen) -> Result<(), Wrong> {
    let groups = engines::pikevm(alloc, seen, "groups")?;
    expect_reset_to(alloc, seen, &groups, "foo_bar", true)?;
    expect_reset_to(alloc, seen, &groups, "alnum100", false)
}

fn expect_reset_to(
    alloc: Global,
    seen: &mut Seen,
    groups: &PikeVM,
    name: &str,
    is_larger: bool,
) -> Result<(), Wrong> {
    let other = engines::pikevm(alloc, seen, name)?;
    let still_fits = expect_reset(alloc, seen, groups, &other)?;
    expect(
        still_fits == is_larger,
        "the numbers of a cache after its reset",
    )
}

// Whether a cache of `groups` fits it still after the reset to the other engine.
fn expect_reset(
    alloc: Global,
    seen: &mut Seen,
    groups: &PikeVM,
    other: &PikeVM,
) -> Result<bool, Wrong> {
    let mut cache = engines::threads(alloc, seen, groups)?;
    expect_reset_of(seen, groups, other, &mut cache)
}

fn expect_reset_of(
    seen: &mut Seen,
    groups: &PikeVM,
    other: &PikeVM,
    cache: &mut pikevm::Cache,
) -> Result<bool, Wrong> {
    expect_piked(groups, cache)?;
    if let Err(error) = cache.reset(other) {
        seen.note(error == SearchError::Memory)?;
        expect_piked(groups, cache)?;
        expect(cache.reset(other).is_ok(), "two refusals of a reset")?;
    }
    expect(cache.fits(other), "a cache after its reset")?;
    Ok(cache.fits(groups))
}

/// A PikeVM asks for no memory while it searches, so the requests before and behind its searches follow one another.
pub fn searches(alloc: Global, seen: &mut Seen) -> Result<(), Wrong> {
    let vm = engines::pikevm(alloc, seen, "groups")?;
    expect_pikevm(alloc, seen, &vm)
}

fn expect_pikevm(alloc: Global, seen: &mut Seen, vm: &PikeVM) -> Result<(), Wrong> {
    let mut cache = engines::threads(alloc, seen, vm)?;
    expect_pikevm_with(alloc, seen, vm, &mut cache)
}

fn expect_pikevm_with(
    alloc: Global,
    seen: &mut Seen,
    vm: &PikeVM,
    cache: &mut pikevm::Cache,
) -> Result<(), Wrong> {
    expect_quiet(alloc, seen, vm, cache)?;
    expect_piked_list(alloc, seen, vm, cache)
}

// What the searches write to is made before the first edge: captures, and then a set.
fn expect_quiet(
    alloc: Global,
    seen: &mut Seen,
    vm: &PikeVM,
    cache: &mut pikevm::Cache,
) -> Result<(), Wrong> {
    let mut captures = engines::captures(alloc, seen, vm.get_nfa().group_info())?;
    expect_quiet_with(alloc, seen, vm, cache, &mut captures)
}

fn expect_quiet_with(
    alloc: Global,
    seen: &mut Seen,
    vm: &PikeVM,
    cache: &mut pikevm::Cache,
    captures: &mut Captures,
) -> Result<(), Wrong> {
    let mut set = engines::set(alloc, seen, 1)?;
    seen.opens(alloc, "searches of a PikeVM");
    let searched = expect_searches(vm, cache, captures, &mut set);
    seen.closes(alloc, "searches of a PikeVM");
    searched
}

// Each search of a PikeVM that takes no memory.
fn expect_searches(
    vm: &PikeVM,
    cache: &mut pikevm::Cache,
    captures: &mut Captures,
    set: &mut PatternSet,
) -> Result<(), Wrong> {
    expect_piked(vm, cache)?;
    expect_piked_matches(vm, cache)?;
    expect_piked_captures(vm, cache, captures)?;
    expect_piked_set(vm, cache, set)
}

fn expect_piked_matches(vm: &PikeVM, cache: &mut pikevm::Cache) -> Result<(), Wrong> {
    let input = Input::new(b"ab ab");
    if !cache.fits(vm) {
        return Err(Wrong("a cache that fits no more"));
    }
    let found = vm.find(cache, input);
    expect(found.map(parts) == Some((0, 0, 2)), "the match of a PikeVM")?;
    if !cache.fits(vm) || !vm.is_match(cache, input) || !cache.fits(vm) {
        return Err(Wrong("whether a PikeVM finds a match"));
    }
    let count = vm.find_iter(cache, input).count();
    expect(count == 2, "the list of a PikeVM")
}

fn expect_piked_captures(
    vm: &PikeVM,
    cache: &mut pikevm::Cache,
    captures: &mut Captures,
) -> Result<(), Wrong> {
    if !cache.fits(vm) {
        return Err(Wrong("a cache that fits no more"));
    }
    vm.search(cache, &Input::new(b"ab"), captures);
    expect_caught(captures, "the captures of a search by a PikeVM")?;
    if !cache.fits(vm) {
        return Err(Wrong("a cache that fits no more"));
    }
    vm.captures(cache, Input::new(b"ab"), captures);
    expect_caught(captures, "the captures of a PikeVM")
}

fn expect_caught(captures: &Captures, wrong: &'static str) -> Result<(), Wrong> {
    expect(are_groups(captures.pattern(), captures.slots()), wrong)
}

fn expect_piked_set(
    vm: &PikeVM,
    cache: &mut pikevm::Cache,
    set: &mut PatternSet,
) -> Result<(), Wrong> {
    if !cache.fits(vm) {
        return Err(Wrong("a cache that fits no more"));
    }
    vm.which_overlapping_matches(cache, &Input::new(b"ab"), set);
    expect(set.is_full(), "the set of a PikeVM")
}

// A list of all matches is a growth, and so may be refused.
fn expect_piked_list(
    alloc: Global,
    seen: &mut Seen,
    vm: &PikeVM,
    cache: &mut pikevm::Cache,
) -> Result<(), Wrong> {
    if !is_listed(alloc, seen, vm, cache)? {
        let again = is_listed(alloc, seen, vm, cache)?;
        expect(again, "two refusals of a list")?;
    }
    Ok(())
}

fn is_listed(
    alloc: Global,
    seen: &mut Seen,
    vm: &PikeVM,
    cache: &mut pikevm::Cache,
) -> Result<bool, Wrong> {
    if !cache.fits(vm) {
        return Err(Wrong("a cache that fits no more"));
    }
    match vm.find_all(alloc, cache, Input::new(b"ab ab")) {
        Ok(all) => is_right(all.len() == 2, "all matches of a PikeVM"),
        Err(error) => seen.is_refusal(error == SearchError::Memory),
    }
}
