//! The settings of an engine, a cache that is reset, and configurations.

use super::expect_match;
use crate::tests::{engine_named, expect_shown};
use nfa_engines::backtrack::{BoundedBacktracker, Builder, Cache, Config};
use regex_search_core::Input;
use std::process::Abort;
use std::test::Fail;
use test_support::samples::nfa_named;

fn expect_reads(rt: &impl Abort, engine: &BoundedBacktracker) {
    assert_eq!(rt; engine.pattern_len(), 2);
    assert_eq!(rt; engine.get_nfa().states().len(), 12);
    assert_eq!(rt; engine.get_config().get_visited_capacity(), 262144);
    assert_eq!(rt; engine.max_haystack_len(), 174761);
}

// Once made without a builder, and once by a copy of a builder.
#[test]
fn reads_what_it_was_made_with(rt: HostRuntime) -> Result<(), Fail> {
    expect_reads(&rt, &engine_named(&rt, "ab_b"));
    let builder = BoundedBacktracker::builder().clone()?;
    let nfa = nfa_named(rt.alloc(), "ab_b")?;
    expect_reads(&rt, &builder.build_from_nfa(nfa)?);
    Ok(())
}

#[test]
fn a_cache_serves_after_a_reset(rt: HostRuntime) {
    let engine = engine_named(&rt, "abc_a");
    let mut cache = Cache::new(rt.alloc(), &engine);
    assert_eq!(rt; cache.memory_usage(), 0);
    for _ in 0..2 {
        expect_match(&rt, &engine, &mut cache, Input::new(b"abc"), "0 0..3");
        assert!(rt; cache.memory_usage() > 0);
        cache.reset(&engine);
        engine.reset_cache(&mut cache);
    }
}

#[test]
fn configurations_are_shown(rt: HostRuntime) -> Result<(), Fail> {
    let config = BoundedBacktracker::config().visited_capacity(10);
    let same = config.clone()?;
    expect_shown(&rt, &same, "Config { visited_capacity: Some(10) }");
    let want = "Config { visited_capacity: None }";
    expect_shown(&rt, &Config::default(), want);
    let mut builder = Builder::new();
    builder.configure(config);
    let want = "Builder { config: Config { visited_capacity: Some(10) } }";
    expect_shown(&rt, &builder, want);
    Ok(())
}
