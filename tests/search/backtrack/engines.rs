//! Engines that match always or never, captures, and copies.

use super::{expect_match, expect_slots};
use crate::tests::{engine_named, expect_six_unset, expect_text, with_capacity};
use nfa_engines::backtrack::{BoundedBacktracker, Cache};
use regex_search_core::Input;
use std::process::Abort;
use std::test::Fail;
use test_support::text::match_text;

const TEXTS: &[&[u8]] = &[b"", b"foo"];

// The engine has `pattern_len` patterns, and finds this in any text. It is also the first item of an iteration.
fn expect_everywhere(
    rt: &(impl Abort + AllocGlobal),
    engine: &BoundedBacktracker,
    pattern_len: usize,
    want: &str,
) -> Result<(), Fail> {
    assert_eq!(rt; engine.pattern_len(), pattern_len);
    for haystack in TEXTS {
        let mut cache = engine.create_cache(rt.alloc());
        let input = Input::new(haystack);
        expect_match(rt, engine, &mut cache, input, want);
        let first = engine.try_find_iter(&mut cache, input).next();
        expect_text(rt, &input, match_text(rt.alloc(), first.transpose()?), want);
    }
    Ok(())
}

#[test]
fn matches_always_or_never(rt: HostRuntime) -> Result<(), Fail> {
    let alloc = rt.alloc();
    expect_everywhere(&rt, &BoundedBacktracker::always_match(alloc)?, 1, "0 0..0")?;
    expect_everywhere(&rt, &BoundedBacktracker::never_match(alloc)?, 0, "none")
}

#[test]
fn makes_captures_of_all_groups(rt: HostRuntime) -> Result<(), Fail> {
    let engine = engine_named(&rt, "groups");
    expect_six_unset(&rt, &engine.create_captures(rt.alloc())?);
    Ok(())
}

// The engine gives this answer, and so do copies of it and of its cache.
fn expect_same(
    rt: &(impl Abort + AllocGlobal),
    engine: &BoundedBacktracker,
    cache: &mut Cache,
    haystack: &[u8],
    want: &str,
) {
    expect_slots(rt, engine, cache, Input::new(haystack), want);
    let same = engine.clone().expect(rt, "a copy of an engine");
    let mut copy = cache.clone().expect(rt, "a copy of a cache");
    assert_eq!(rt; copy.memory_usage(), cache.memory_usage());
    expect_slots(rt, &same, &mut copy, Input::new(haystack), want);
}

#[test]
fn a_clone_answers_as_its_original(rt: HostRuntime) {
    let engine = with_capacity(&rt, "a_pair", 1);
    let mut cache = engine.create_cache(rt.alloc());
    expect_same(&rt, &engine, &mut cache, &[b'a'; 31], "0 - -");
    let refusal = "HaystackTooLong { len: 32 } - -";
    expect_same(&rt, &engine, &mut cache, &[b'a'; 32], refusal);
}

// 40 pairs take one block of 8 bytes, the two slots of the one pattern 16.
#[test]
fn a_cache_counts_its_memory(rt: HostRuntime) {
    let engine = engine_named(&rt, "abc_a");
    let mut cache = engine.create_cache(rt.alloc());
    assert_eq!(rt; cache.memory_usage(), 0);
    expect_match(&rt, &engine, &mut cache, Input::new(b"xyz"), "none");
    assert_eq!(rt; cache.memory_usage(), 24);
    engine.reset_cache(&mut cache);
    assert_eq!(rt; cache.memory_usage(), 16);
}
