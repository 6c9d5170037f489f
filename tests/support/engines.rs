//! Both engines over one NFA.

use crate::samples::{MakeError, nfa_named};
use crate::text::{
    backtracked_half, backtracked_list, backtracked_match, backtracked_slots, piked_half,
    piked_list, piked_match, piked_slots,
};
use nfa_engines::backtrack::{self, BoundedBacktracker};
use nfa_engines::error::SearchError;
use nfa_engines::pikevm::{self, PikeVM};
use regex_search_core::{Input, NonMaxUsize, PatternID};
use std::alloc::{AllocError, Global};
use thompson_nfa::NFA;

/// Returns the cache, and stops if it does not fit the engine: a search requires it, and tests are not proved.
pub fn fitting<'c>(vm: &PikeVM, cache: &'c mut pikevm::Cache) -> &'c mut pikevm::Cache {
    if !cache.fits(vm) {
        unreachable!();
    }
    cache
}

/// Both engines over one NFA, each with one cache for all searches: first the backtracker with its default capacity,
/// then the PikeVM that searches leftmost first.
#[derive(Drop)]
pub struct Engines {
    backtracker: BoundedBacktracker,
    marks: backtrack::Cache,
    vm: PikeVM,
    threads: pikevm::Cache,
}

impl Engines {
    /// Makes engines of the NFA, with new caches.
    pub fn new(alloc: Global, nfa: NFA) -> Result<Engines, MakeError> {
        let copy = nfa.clone()?;
        let backtracker = BoundedBacktracker::new_from_nfa(copy)?;
        let vm = PikeVM::new_from_nfa(nfa)?;
        Ok(Engines {
            marks: backtracker.create_cache(alloc),
            threads: vm.create_cache(alloc)?,
            backtracker,
            vm,
        })
    }

    /// Makes engines of the sample of this name.
    pub fn of_sample(alloc: Global, name: &str) -> Result<Engines, MakeError> {
        Engines::new(alloc, nfa_named(alloc, name)?)
    }

    /// The number of slots of the NFA.
    pub fn slot_len(&self) -> usize {
        self.vm.get_nfa().group_info().slot_len()
    }

    /// The pattern that each finds and the slots that it leaves, as text. Each slot held 7 before.
    pub fn slots_texts(
        &mut self,
        alloc: Global,
        input: &Input<'_>,
        slot_len: usize,
    ) -> Result<[String; 2], AllocError> {
        Ok([
            backtracked_slots(alloc, &self.backtracker, &mut self.marks, input, slot_len)?,
            piked_slots(alloc, &self.vm, &mut self.threads, input, slot_len)?,
        ])
    }

    /// The pattern that each finds, and the slots that it leaves: the backtracker in the first ones.
    pub fn search_slots(
        &mut self,
        input: &Input<'_>,
        backtracked: &mut [Option<NonMaxUsize>],
        piked: &mut [Option<NonMaxUsize>],
    ) -> Result<[Option<PatternID>; 2], SearchError> {
        let threads = fitting(&self.vm, &mut self.threads);
        Ok([
            self.backtracker
                .try_search_slots(&mut self.marks, input, backtracked)?,
            self.vm.search_slots(threads, input, piked),
        ])
    }

    /// The match that each finds, as text.
    pub fn match_texts(
        &mut self,
        alloc: Global,
        input: Input<'_>,
    ) -> Result<[String; 2], AllocError> {
        Ok([
            backtracked_match(alloc, &self.backtracker, &mut self.marks, input)?,
            piked_match(alloc, &self.vm, &mut self.threads, input)?,
        ])
    }

    /// The pattern and the end of the match that each finds, as text.
    pub fn half_texts(
        &mut self,
        alloc: Global,
        input: Input<'_>,
    ) -> Result<[String; 2], AllocError> {
        Ok([
            backtracked_half(alloc, &self.backtracker, &mut self.marks, input)?,
            piked_half(alloc, &self.vm, &mut self.threads, input)?,
        ])
    }

    /// All matches of each, as text, each followed by a comma and a space.
    pub fn list_texts(
        &mut self,
        alloc: Global,
        input: Input<'_>,
    ) -> Result<[String; 2], AllocError> {
        Ok([
            backtracked_list(alloc, &self.backtracker, &mut self.marks, input)?,
            piked_list(alloc, &self.vm, &mut self.threads, input)?,
        ])
    }

    /// Whether each finds a match.
    pub fn are_matches(&mut self, input: Input<'_>) -> Result<[bool; 2], SearchError> {
        Ok([
            self.backtracker.try_is_match(&mut self.marks, input)?,
            self.vm
                .is_match(fitting(&self.vm, &mut self.threads), input),
        ])
    }
}
