//! Values that are made, or copied, and were refused memory: nothing was made, and the original is as it was.

use super::searches::found;
use super::{Seen, Wrong, engines, expect, made};
use nfa_engines::backtrack::{self, BoundedBacktracker};
use nfa_engines::error::SearchError;
use nfa_engines::pikevm::{self, PikeVM};
use nfa_facts::{WhichCaptures, keep_captures};
use nfa_samples::sample;
use regex_search_core::{Captures, GroupInfo, Input, PatternID, Refused};
use std::alloc::Global;
use test_support::samples::{MakeError, parts};
use thompson_nfa::{BuildError, NFA};

// A name of each way to make a sample, and its states and slots.
const SAMPLES: &[(&str, usize, usize)] = &[
    ("abc", 8, 2),
    ("b_a", 11, 4),
    ("foo_bar", 33, 8),
    ("a_pair", 2, 0),
    ("words_numbers", 13, 4),
    ("foo_num", 12, 4),
    ("six", 21, 4),
];

/// Samples and their copies.
pub fn samples(alloc: Global, seen: &mut Seen) -> Result<(), Wrong> {
    for &(name, states, slots) in SAMPLES {
        expect_made(alloc, seen, name, states, slots)?;
    }
    Ok(())
}

fn expect_made(
    alloc: Global,
    seen: &mut Seen,
    name: &str,
    states: usize,
    slots: usize,
) -> Result<(), Wrong> {
    let nfa = made_sample(alloc, seen, name)?;
    expect_copy(alloc, seen, &nfa, states, slots)
}

fn expect_copy(
    alloc: Global,
    seen: &mut Seen,
    nfa: &NFA,
    states: usize,
    slots: usize,
) -> Result<(), Wrong> {
    expect_sample(nfa, states, slots)?;
    let copy = nfa_copy(seen, nfa)?;
    expect_sample(&copy, states, slots)?;
    let small = fewer_captures(alloc, seen, nfa)?;
    expect_sample(&small, states, nfa.group_info().implicit_slot_len())
}

fn made_sample(alloc: Global, seen: &mut Seen, name: &str) -> Result<NFA, Wrong> {
    made!(seen, BuildError::Memory, sample(alloc, name))?.ok_or(Wrong("a name that is unknown"))
}

fn fewer_captures(alloc: Global, seen: &mut Seen, nfa: &NFA) -> Result<NFA, Wrong> {
    made!(
        seen,
        BuildError::Memory,
        keep_captures(alloc, nfa, WhichCaptures::Implicit)
    )
}

fn nfa_copy(seen: &mut Seen, nfa: &NFA) -> Result<NFA, Wrong> {
    made!(seen, BuildError::Memory, nfa.clone())
}

fn expect_sample(nfa: &NFA, states: usize, slots: usize) -> Result<(), Wrong> {
    expect(nfa.states().len() == states, "the states of a sample")?;
    expect(
        nfa.group_info().slot_len() == slots,
        "the slots of a sample",
    )
}

/// NFAs and engines that match always or never.
pub fn trivial_engines(alloc: Global, seen: &mut Seen) -> Result<(), Wrong> {
    trivial_nfas(alloc, seen)?;
    trivial_backtrackers(alloc, seen)?;
    trivial_pikevms(alloc, seen)
}

fn trivial_nfas(alloc: Global, seen: &mut Seen) -> Result<(), Wrong> {
    let always = always_nfa(alloc, seen)?.pattern_len();
    let never = never_nfa(alloc, seen)?.pattern_len();
    expect((always, never) == (1, 0), "NFAs")
}

fn trivial_backtrackers(alloc: Global, seen: &mut Seen) -> Result<(), Wrong> {
    let always = always_backtracker(alloc, seen)?.pattern_len();
    let never = never_backtracker(alloc, seen)?.pattern_len();
    expect((always, never) == (1, 0), "backtrackers")
}

fn trivial_pikevms(alloc: Global, seen: &mut Seen) -> Result<(), Wrong> {
    let always = always_pikevm(alloc, seen)?.pattern_len();
    let never = never_pikevm(alloc, seen)?.pattern_len();
    expect((always, never) == (1, 0), "PikeVMs")
}

fn always_nfa(alloc: Global, seen: &mut Seen) -> Result<NFA, Wrong> {
    made!(seen, BuildError::Memory, NFA::always_match(alloc))
}

fn never_nfa(alloc: Global, seen: &mut Seen) -> Result<NFA, Wrong> {
    made!(seen, BuildError::Memory, NFA::never_match(alloc))
}

fn always_backtracker(alloc: Global, seen: &mut Seen) -> Result<BoundedBacktracker, Wrong> {
    made!(
        seen,
        BuildError::Memory,
        BoundedBacktracker::always_match(alloc)
    )
}

fn never_backtracker(alloc: Global, seen: &mut Seen) -> Result<BoundedBacktracker, Wrong> {
    made!(
        seen,
        BuildError::Memory,
        BoundedBacktracker::never_match(alloc)
    )
}

fn always_pikevm(alloc: Global, seen: &mut Seen) -> Result<PikeVM, Wrong> {
    made!(seen, BuildError::Memory, PikeVM::always_match(alloc))
}

fn never_pikevm(alloc: Global, seen: &mut Seen) -> Result<PikeVM, Wrong> {
    made!(seen, BuildError::Memory, PikeVM::never_match(alloc))
}

/// Copies of a backtracker and of its cache, and its captures.
pub fn backtrackers(alloc: Global, seen: &mut Seen) -> Result<(), Wrong> {
    let engine = engines::backtracker(alloc, seen, "abc_a")?;
    expect_backtracker(alloc, seen, &engine)
}

fn expect_backtracker(
    alloc: Global,
    seen: &mut Seen,
    engine: &BoundedBacktracker,
) -> Result<(), Wrong> {
    expect_marks(alloc, seen, engine)?;
    let captures = engines::backtracker_captures(alloc, seen, engine)?;
    expect(captures.slots().len() == 2, "the captures of a backtracker")
}

fn expect_marks(alloc: Global, seen: &mut Seen, engine: &BoundedBacktracker) -> Result<(), Wrong> {
    let mut cache = engine.create_cache(alloc);
    expect_marks_of(seen, engine, &mut cache)
}

fn expect_marks_of(
    seen: &mut Seen,
    engine: &BoundedBacktracker,
    cache: &mut backtrack::Cache,
) -> Result<(), Wrong> {
    expect_found(seen, engine, cache, "the match before a copy")?;
    expect_copies(seen, engine, cache)?;
    expect_found(seen, engine, cache, "the match after a copy")
}

fn expect_copies(
    seen: &mut Seen,
    engine: &BoundedBacktracker,
    cache: &backtrack::Cache,
) -> Result<(), Wrong> {
    let mut copy = marks_copy(seen, cache)?;
    expect_engine_copy(seen, engine, &mut copy)
}

fn expect_engine_copy(
    seen: &mut Seen,
    engine: &BoundedBacktracker,
    copy: &mut backtrack::Cache,
) -> Result<(), Wrong> {
    let same = backtracker_copy(seen, engine)?;
    expect_found(seen, &same, copy, "the match of a copy")
}

fn marks_copy(seen: &mut Seen, cache: &backtrack::Cache) -> Result<backtrack::Cache, Wrong> {
    made!(seen, SearchError::Memory, cache.clone())
}

fn backtracker_copy(
    seen: &mut Seen,
    engine: &BoundedBacktracker,
) -> Result<BoundedBacktracker, Wrong> {
    made!(seen, SearchError::Memory, engine.clone())
}

fn expect_found(
    seen: &mut Seen,
    engine: &BoundedBacktracker,
    cache: &mut backtrack::Cache,
    wrong: &'static str,
) -> Result<(), Wrong> {
    let found = found(seen, engine, cache, b"xabc")?;
    expect(found.map(parts) == Some((0, 1, 4)), wrong)
}

/// Copies of a PikeVM and of its cache, and its captures.
pub fn pikevms(alloc: Global, seen: &mut Seen) -> Result<(), Wrong> {
    let vm = engines::pikevm(alloc, seen, "abc_a")?;
    expect_pikevm(alloc, seen, &vm)
}

fn expect_pikevm(alloc: Global, seen: &mut Seen, vm: &PikeVM) -> Result<(), Wrong> {
    expect_threads(alloc, seen, vm)?;
    let captures = pikevm_captures(alloc, seen, vm)?;
    expect(captures.slots().len() == 2, "the captures of a PikeVM")
}

fn pikevm_captures(alloc: Global, seen: &mut Seen, vm: &PikeVM) -> Result<Captures, Wrong> {
    made!(seen, SearchError::Memory, vm.create_captures(alloc))
}

fn expect_threads(alloc: Global, seen: &mut Seen, vm: &PikeVM) -> Result<(), Wrong> {
    let mut cache = engines::threads(alloc, seen, vm)?;
    expect_threads_of(seen, vm, &mut cache)
}

fn expect_threads_of(seen: &mut Seen, vm: &PikeVM, cache: &mut pikevm::Cache) -> Result<(), Wrong> {
    expect_piked_copies(seen, vm, cache)?;
    expect_piked(vm, cache)
}

fn expect_piked_copies(seen: &mut Seen, vm: &PikeVM, cache: &pikevm::Cache) -> Result<(), Wrong> {
    let mut copy = threads_copy(seen, cache)?;
    expect_piked_copy(seen, vm, &mut copy)
}

fn expect_piked_copy(seen: &mut Seen, vm: &PikeVM, copy: &mut pikevm::Cache) -> Result<(), Wrong> {
    let same = pikevm_copy(seen, vm)?;
    expect_piked(&same, copy)
}

fn threads_copy(seen: &mut Seen, cache: &pikevm::Cache) -> Result<pikevm::Cache, Wrong> {
    made!(seen, SearchError::Memory, cache.clone())
}

fn pikevm_copy(seen: &mut Seen, vm: &PikeVM) -> Result<PikeVM, Wrong> {
    made!(seen, SearchError::Memory, vm.clone())
}

fn expect_piked(vm: &PikeVM, cache: &mut pikevm::Cache) -> Result<(), Wrong> {
    if !cache.fits(vm) {
        return Err(Wrong("a copy of a cache that does not fit"));
    }
    let found = vm.find(cache, Input::new(b"xabc"));
    expect(
        found.map(parts) == Some((0, 1, 4)),
        "the match of a PikeVM's copy",
    )
}

/// Groups, captures of three sizes, and their copies.
pub fn captures(alloc: Global, seen: &mut Seen) -> Result<(), Wrong> {
    let nfa = engines::nfa(alloc, seen, "groups")?;
    expect_captures(alloc, seen, nfa.group_info())
}

fn expect_captures(alloc: Global, seen: &mut Seen, groups: &GroupInfo) -> Result<(), Wrong> {
    for &(size, slots) in &[(0, 6), (1, 2), (2, 0)] {
        expect_captures_of(alloc, seen, groups, size, slots)?;
    }
    Ok(())
}

fn expect_captures_of(
    alloc: Global,
    seen: &mut Seen,
    groups: &GroupInfo,
    size: usize,
    slots: usize,
) -> Result<(), Wrong> {
    let captures = made_captures(alloc, seen, groups, size)?;
    expect_slots(seen, &captures, slots)
}

fn expect_slots(seen: &mut Seen, captures: &Captures, slots: usize) -> Result<(), Wrong> {
    expect(captures.slots().len() == slots, "the slots of captures")?;
    let copy = captures_copy(seen, captures)?;
    expect(copy.slots().len() == slots, "the slots of a copy")
}

fn made_captures(
    alloc: Global,
    seen: &mut Seen,
    groups: &GroupInfo,
    size: usize,
) -> Result<Captures, Wrong> {
    made!(seen, Refused, captures_of(alloc, groups, size))
}

// Captures of all groups, of each pattern's whole match, or of none.
fn captures_of(alloc: Global, groups: &GroupInfo, size: usize) -> Result<Captures, Refused> {
    let groups = groups.clone()?;
    match size {
        0 => Captures::all(alloc, groups),
        1 => Captures::matches(alloc, groups),
        _ => Captures::empty(alloc, groups),
    }
}

fn captures_copy(seen: &mut Seen, captures: &Captures) -> Result<Captures, Wrong> {
    made!(seen, Refused, captures.clone())
}

// One pattern with two explicit groups.
fn two_groups(alloc: Global) -> Result<Vec<Vec<Option<String>>>, MakeError> {
    let names = names(alloc)?;
    Ok(vec![in alloc; names]?)
}

fn names(alloc: Global) -> Result<Vec<Option<String>>, MakeError> {
    let year = String::from_str(alloc, "year")?;
    Ok(vec![in alloc; None, Some(year)]?)
}

/// A set of patterns, and groups from their names.
pub fn sets(alloc: Global, seen: &mut Seen) -> Result<(), Wrong> {
    let capacity = engines::set(alloc, seen, 1000)?.capacity();
    expect(capacity == 1000, "the capacity of a set")?;
    let groups = made_groups(alloc, seen)?;
    expect_groups(seen, &groups)
}

fn expect_groups(seen: &mut Seen, groups: &GroupInfo) -> Result<(), Wrong> {
    expect(groups.slot_len() == 6, "the slots of groups")?;
    let copy = groups_copy(seen, groups)?;
    expect(has_year(&copy), "the name of a group")
}

fn has_year(groups: &GroupInfo) -> bool {
    match PatternID::new(0) {
        Some(first) => groups.to_index(first, "year") == Some(2),
        None => false,
    }
}

fn made_names(alloc: Global, seen: &mut Seen) -> Result<Vec<Vec<Option<String>>>, Wrong> {
    made!(seen, MakeError::Memory, two_groups(alloc))
}

fn made_groups(alloc: Global, seen: &mut Seen) -> Result<GroupInfo, Wrong> {
    GroupInfo::new(made_names(alloc, seen)?).ok_or(Wrong("groups that are too many"))
}

fn groups_copy(seen: &mut Seen, groups: &GroupInfo) -> Result<GroupInfo, Wrong> {
    made!(seen, Refused, groups.clone())
}
