//! The answers of the calls that search, as one number, with caches and captures that all searches share.

use super::shapes::{Shape, nfa_of};
use nfa_choice::choose::Choice;
use nfa_engines::backtrack::{self, BoundedBacktracker};
use nfa_engines::pikevm::{self, PikeVM};
use regex_search_core::{Captures, Input, Match, NonMaxUsize, PatternID, PatternSet};
use test_support::TestRuntime;
use test_support::engines::fitting;

/// The sum before any answer.
pub const SEED: u64 = 7;

/// Adds a number to the sum.
pub fn fold(sum: u64, value: u64) -> u64 {
    sum.wrapping_mul(31).wrapping_add(value)
}

// Adds one more than the pattern's number.
fn fold_pattern(sum: u64, pattern: PatternID) -> u64 {
    fold(sum, pattern.as_usize() as u64 + 1)
}

/// Adds one more than the pattern's number, or 0 for none; then each slot in the same way.
pub fn fold_slots(sum: u64, pattern: Option<PatternID>, slots: &[Option<NonMaxUsize>]) -> u64 {
    let mut sum = match pattern {
        Some(pattern) => fold_pattern(sum, pattern),
        None => fold(sum, 0),
    };
    for slot in slots {
        sum = match slot {
            Some(offset) => fold(sum, offset.get() as u64 + 1),
            None => fold(sum, 0),
        };
    }
    sum
}

// Adds one more than the pattern's number, the start and the end, or 0 for none.
fn fold_match(sum: u64, found: Option<Match>) -> u64 {
    match found {
        Some(found) => {
            let sum = fold_pattern(sum, found.pattern());
            fold(fold(sum, found.start() as u64), found.end() as u64)
        }
        None => fold(sum, 0),
    }
}

fn fold_is_match(sum: u64, is_match: bool) -> u64 {
    fold(sum, if is_match { 1 } else { 0 })
}

/// What all searches write to, whatever it was used for before: a cache for each engine, slots, and captures of
/// another NFA.
#[derive(Drop)]
pub struct Shared {
    /// The cache of the backtracker.
    pub marks: backtrack::Cache,
    /// The cache of the PikeVM.
    pub threads: pikevm::Cache,
    /// Captures of another NFA.
    pub captures: Captures,
    slots: [Option<NonMaxUsize>; 20],
}

impl Shared {
    /// Made for an NFA with twelve slots.
    pub fn new(rt: &impl TestRuntime) -> Shared {
        let alloc = rt.alloc();
        let nfa = nfa_of(alloc, Shape::Captures(9)).expect(rt, "an NFA");
        let vm = PikeVM::new_from_nfa(nfa).expect(rt, "memory");
        let back = BoundedBacktracker::never_match(alloc).expect(rt, "memory");
        Shared {
            marks: back.create_cache(alloc),
            threads: vm.create_cache(alloc).expect(rt, "memory"),
            captures: vm.create_captures(alloc).expect(rt, "memory"),
            slots: [NonMaxUsize::new(7); 20],
        }
    }
}

/// The sum of the backtracker's answers: slots, the match, whether there is one, captures, and the list.
pub fn sum_backtracked(
    rt: &impl TestRuntime,
    engine: &BoundedBacktracker,
    input: &Input<'_>,
    shared: &mut Shared,
) -> u64 {
    let Shared {
        marks,
        captures,
        slots,
        ..
    } = shared;
    let pattern = engine.try_search_slots(marks, input, slots);
    let sum = fold_slots(SEED, pattern.expect(rt, "an answer"), slots);
    let found = engine.try_find(marks, *input).expect(rt, "an answer");
    let sum = fold_match(sum, found);
    let is_match = engine.try_is_match(marks, *input).expect(rt, "an answer");
    let sum = fold_is_match(sum, is_match);
    let searched = engine.try_search(marks, input, captures);
    searched.expect(rt, "an answer");
    let mut sum = fold_slots(sum, captures.pattern(), captures.slots());
    for found in engine.try_find_iter(marks, *input) {
        sum = fold_match(sum, Some(found.expect(rt, "an answer")));
    }
    sum
}

/// The same sum by the PikeVM.
pub fn sum_piked(vm: &PikeVM, input: &Input<'_>, shared: &mut Shared) -> u64 {
    let Shared {
        threads,
        captures,
        slots,
        ..
    } = shared;
    let threads = fitting(vm, threads);
    let pattern = vm.search_slots(threads, input, slots);
    let sum = fold_slots(SEED, pattern, slots);
    let sum = fold_match(sum, vm.find(threads, *input));
    let sum = fold_is_match(sum, vm.is_match(threads, *input));
    vm.search(threads, input, captures);
    let mut sum = fold_slots(sum, captures.pattern(), captures.slots());
    for found in vm.find_iter(threads, *input) {
        sum = fold_match(sum, Some(found));
    }
    sum
}

/// The same sum by `Choice`.
pub fn sum_chosen(choice: &mut Choice, input: &Input<'_>, shared: &mut Shared) -> u64 {
    let Shared {
        captures,
        slots,
        ..
    } = shared;
    let pattern = choice.search_slots(input, slots);
    let sum = fold_slots(SEED, pattern, slots);
    let sum = fold_match(sum, choice.find(*input));
    let sum = fold_is_match(sum, choice.is_match(*input));
    choice.search(input, captures);
    let mut sum = fold_slots(sum, captures.pattern(), captures.slots());
    for found in choice.find_iter(*input) {
        sum = fold_match(sum, Some(found));
    }
    sum
}

/// The sum of what an empty set gains in a search for overlapping matches.
pub fn sum_of_set(
    rt: &impl TestRuntime,
    vm: &PikeVM,
    threads: &mut pikevm::Cache,
    input: &Input<'_>,
) -> u64 {
    let mut set = PatternSet::new(rt.alloc(), 4).expect(rt, "memory");
    vm.which_overlapping_matches(fitting(vm, threads), input, &mut set);
    set.iter().fold(SEED, fold_pattern)
}
