//! What the cases search with. Where it was refused memory, it was made once more.

use super::{Seen, Wrong, made};
use nfa_choice::choose::Choice;
use nfa_choice::dfa;
use nfa_choice::hybrid::Hybrid;
use nfa_engines::backtrack::{self, BoundedBacktracker};
use nfa_engines::error::SearchError;
use nfa_engines::pikevm::{self, PikeVM};
use regex_search_core::{Captures, GroupInfo, MatchKind, PatternSet, Refused};
use std::alloc::Global;
use test_support::samples;
use test_support::samples::MakeError;
use thompson_nfa::NFA;

/// The NFA of the sample.
pub fn nfa(alloc: Global, seen: &mut Seen, name: &str) -> Result<NFA, Wrong> {
    made!(seen, MakeError::Memory, samples::nfa_named(alloc, name))
}

/// A backtracker of the sample.
pub fn backtracker(
    alloc: Global,
    seen: &mut Seen,
    name: &str,
) -> Result<BoundedBacktracker, Wrong> {
    made!(seen, MakeError::Memory, samples::backtracker(alloc, name))
}

/// Captures for the backtracker.
pub fn backtracker_captures(
    alloc: Global,
    seen: &mut Seen,
    engine: &BoundedBacktracker,
) -> Result<Captures, Wrong> {
    made!(seen, SearchError::Memory, engine.create_captures(alloc))
}

fn captures_of(alloc: Global, groups: &GroupInfo) -> Result<Captures, Refused> {
    Captures::all(alloc, groups.clone()?)
}

/// Captures of all groups.
pub fn captures(alloc: Global, seen: &mut Seen, groups: &GroupInfo) -> Result<Captures, Wrong> {
    made!(seen, Refused, captures_of(alloc, groups))
}

/// A PikeVM of the sample.
pub fn pikevm(alloc: Global, seen: &mut Seen, name: &str) -> Result<PikeVM, Wrong> {
    made!(seen, MakeError::Memory, samples::pikevm(alloc, name))
}

/// A cache for the PikeVM.
pub fn threads(alloc: Global, seen: &mut Seen, vm: &PikeVM) -> Result<pikevm::Cache, Wrong> {
    made!(seen, SearchError::Memory, vm.create_cache(alloc))
}

/// A PikeVM of the sample, of this kind.
pub fn pikevm_of_kind(
    alloc: Global,
    seen: &mut Seen,
    name: &str,
    kind: MatchKind,
) -> Result<PikeVM, Wrong> {
    made!(seen, MakeError::Memory, samples::of_kind(alloc, name, kind))
}

/// An empty set of so many patterns.
pub fn set(alloc: Global, seen: &mut Seen, capacity: usize) -> Result<PatternSet, Wrong> {
    made!(seen, Refused, PatternSet::new(alloc, capacity))
}

fn choice_of(alloc: Global, name: &str) -> Result<Choice, MakeError> {
    let nfa = samples::nfa_named(alloc, name)?;
    Ok(Choice::new(alloc, nfa, backtrack::Config::new(), pikevm::Config::new())?)
}

/// The engine that chooses, of the sample.
pub fn choice(alloc: Global, seen: &mut Seen, name: &str) -> Result<Choice, Wrong> {
    made!(seen, MakeError::Memory, choice_of(alloc, name))
}

fn hybrid_of(alloc: Global, name: &str) -> Result<Hybrid, MakeError> {
    let nfa = samples::nfa_named(alloc, name)?;
    Ok(Hybrid::new(alloc, nfa, dfa::Config::new())?)
}

/// A hybrid of the sample.
pub fn hybrid(alloc: Global, seen: &mut Seen, name: &str) -> Result<Hybrid, Wrong> {
    made!(seen, MakeError::Memory, hybrid_of(alloc, name))
}
