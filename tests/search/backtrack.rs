//! Tests of the backtracker.

mod callers;
mod calls;
mod engines;
mod lengths;
mod searches;
mod texts;

use super::expect_text;
use nfa_engines::backtrack::{BoundedBacktracker, Cache};
use regex_search_core::Input;
use std::process::Abort;
use test_support::text::{backtracked_match, backtracked_slots};

// Expects this match with the cache.
fn expect_match(
    rt: &(impl Abort + AllocGlobal),
    engine: &BoundedBacktracker,
    cache: &mut Cache,
    input: Input<'_>,
    want: &str,
) {
    let text = backtracked_match(rt.alloc(), engine, cache, input);
    expect_text(rt, &input, text, want);
}

// Expects this answer with the cache, in two slots.
fn expect_slots(
    rt: &(impl Abort + AllocGlobal),
    engine: &BoundedBacktracker,
    cache: &mut Cache,
    input: Input<'_>,
    want: &str,
) {
    let text = backtracked_slots(rt.alloc(), engine, cache, &input, 2);
    expect_text(rt, &input, text, want);
}
