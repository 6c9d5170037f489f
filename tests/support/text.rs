//! Answers of both engines as text.

use crate::engines::fitting;
use crate::samples::parts;
use nfa_engines::backtrack::{self, BoundedBacktracker};
use nfa_engines::error::SearchError;
use nfa_engines::pikevm::{self, PikeVM};
use regex_search_core::{HalfMatch, Input, Match, NonMaxUsize, PatternID};
use std::alloc::{AllocError, Global};

/// The pattern and the span, as `0 1..4`, or `none`.
pub fn match_text(alloc: Global, found: Option<Match>) -> Result<String, AllocError> {
    match found {
        Some(found) => {
            let (pattern, start, end) = parts(found);
            format!(in alloc; "{pattern} {start}..{end}")
        }
        None => String::from_str(alloc, "none"),
    }
}

/// The pattern or `none`, and then each slot, or `-` if it is not set.
pub fn slots_text(
    alloc: Global,
    pattern: Option<PatternID>,
    slots: &[Option<NonMaxUsize>],
) -> Result<String, AllocError> {
    let mut text = match pattern {
        Some(pattern) => format!(in alloc; "{}", pattern.as_usize())?,
        None => String::from_str(alloc, "none")?,
    };
    write_slots(&mut text, slots)?;
    Ok(text)
}

fn write_slots(text: &mut String, slots: &[Option<NonMaxUsize>]) -> Result<(), AllocError> {
    for slot in slots {
        match slot {
            Some(offset) => write!(text, " {}", offset.get())?,
            None => text.push_str(" -")?,
        }
    }
    Ok(())
}

/// The pattern that the backtracker finds or its error, and the slots that it leaves. Each slot held 7 before.
pub fn backtracked_slots(
    alloc: Global,
    engine: &BoundedBacktracker,
    cache: &mut backtrack::Cache,
    input: &Input<'_>,
    slot_len: usize,
) -> Result<String, AllocError> {
    let mut slots = vec![in alloc; NonMaxUsize::new(7); slot_len]?;
    match engine.try_search_slots(cache, input, &mut slots) {
        Ok(pattern) => slots_text(alloc, pattern, &slots),
        Err(error) => {
            let mut text = format!(in alloc; "{error:?}")?;
            write_slots(&mut text, &slots)?;
            Ok(text)
        }
    }
}

/// The pattern that the PikeVM finds, and the slots that it leaves. Each slot held 7 before.
pub fn piked_slots(
    alloc: Global,
    vm: &PikeVM,
    cache: &mut pikevm::Cache,
    input: &Input<'_>,
    slot_len: usize,
) -> Result<String, AllocError> {
    let mut slots = vec![in alloc; NonMaxUsize::new(7); slot_len]?;
    let pattern = vm.search_slots(fitting(vm, cache), input, &mut slots);
    slots_text(alloc, pattern, &slots)
}

/// The match that the backtracker finds, or its error.
pub fn backtracked_match(
    alloc: Global,
    engine: &BoundedBacktracker,
    cache: &mut backtrack::Cache,
    input: Input<'_>,
) -> Result<String, AllocError> {
    match engine.try_find(cache, input) {
        Ok(found) => match_text(alloc, found),
        Err(error) => format!(in alloc; "{error:?}"),
    }
}

/// The match that the PikeVM finds.
pub fn piked_match(
    alloc: Global,
    vm: &PikeVM,
    cache: &mut pikevm::Cache,
    input: Input<'_>,
) -> Result<String, AllocError> {
    match_text(alloc, vm.find(fitting(vm, cache), input))
}

/// The pattern and the end of the match that the backtracker finds, or its error.
pub fn backtracked_half(
    alloc: Global,
    engine: &BoundedBacktracker,
    cache: &mut backtrack::Cache,
    input: Input<'_>,
) -> Result<String, AllocError> {
    match engine.try_find_half(cache, input) {
        Ok(half) => half_text(alloc, half),
        Err(error) => format!(in alloc; "{error:?}"),
    }
}

/// The same by the PikeVM.
pub fn piked_half(
    alloc: Global,
    vm: &PikeVM,
    cache: &mut pikevm::Cache,
    input: Input<'_>,
) -> Result<String, AllocError> {
    half_text(alloc, vm.find_half(fitting(vm, cache), input))
}

/// The pattern and the offset, as `0 4`, or `none`.
pub fn half_text(alloc: Global, half: Option<HalfMatch>) -> Result<String, AllocError> {
    match half {
        Some(half) => format!(in alloc; "{} {}", half.pattern().as_usize(), half.offset()),
        None => String::from_str(alloc, "none"),
    }
}

/// All items of the backtracker, each followed by a comma and a space: the pattern and the span, or the error.
pub fn backtracked_list(
    alloc: Global,
    engine: &BoundedBacktracker,
    cache: &mut backtrack::Cache,
    input: Input<'_>,
) -> Result<String, AllocError> {
    let mut text = String::new(alloc);
    for item in engine.try_find_iter(cache, input) {
        write_item(&mut text, item)?;
    }
    Ok(text)
}

/// All matches of the PikeVM, each followed by a comma and a space.
pub fn piked_list(
    alloc: Global,
    vm: &PikeVM,
    cache: &mut pikevm::Cache,
    input: Input<'_>,
) -> Result<String, AllocError> {
    let mut text = String::new(alloc);
    for found in vm.find_iter(fitting(vm, cache), input) {
        write_item(&mut text, Ok(found))?;
    }
    Ok(text)
}

/// Writes the pattern and the span, or the error, and then a comma and a space.
pub fn write_item(text: &mut String, item: Result<Match, SearchError>) -> Result<(), AllocError> {
    match item {
        Ok(found) => {
            let (pattern, start, end) = parts(found);
            write!(text, "{pattern} {start}..{end}, ")
        }
        Err(error) => write!(text, "{error:?}, "),
    }
}
