//! Which lengths are refused.

use super::expect_slots;
use crate::tests::with_capacity;
use nfa_engines::backtrack::{BoundedBacktracker, Builder, Config, min_visited_capacity};
use regex_search_core::{Anchored, Input, PatternID};
use std::process::Abort;
use test_support::samples::nfa_named;

// Expects this answer in two slots, with a new cache.
fn expect_anew(
    rt: &(impl Abort + AllocGlobal),
    engine: &BoundedBacktracker,
    input: Input<'_>,
    want: &str,
) {
    let mut cache = engine.create_cache(rt.alloc());
    expect_slots(rt, engine, &mut cache, input, want);
}

#[test]
fn refuses_lengths_above_the_greatest(rt: HostRuntime) {
    let engine = with_capacity(&rt, "a_pair", 1);
    assert_eq!(rt; engine.max_haystack_len(), 31);
    expect_anew(&rt, &engine, Input::new(&[b'a'; 31]), "0 - -");
    let refusal = "HaystackTooLong { len: 32 } - -";
    expect_anew(&rt, &engine, Input::new(&[b'a'; 32]), refusal);
    let nfa = engine.get_nfa();
    assert_eq!(rt; nfa.states().len(), 2);
    let least = min_visited_capacity(nfa, &Input::new(&[b'a'; 31]));
    assert_eq!(rt; least, 8);
}

#[test]
fn any_capacity_has_a_greatest_length(rt: HostRuntime) {
    let engine = with_capacity(&rt, "a_pair", usize::MAX);
    assert_eq!(rt; engine.max_haystack_len(), 9223372036854775806);
}

// The length is checked before the pattern, and before whether the input is done.
#[test]
fn refuses_before_all_else(rt: HostRuntime) {
    let engine = with_capacity(&rt, "alnum100", 10);
    assert_eq!(rt; engine.max_haystack_len(), 0);
    let pattern = PatternID::new(5).expect(&rt, "a pattern's number");
    let whole = Input::new(b"abc");
    let refusal = "HaystackTooLong { len: 3 } - -";
    expect_anew(&rt, &engine, whole, refusal);
    let of_pattern = whole.anchored(Anchored::Pattern(pattern));
    expect_anew(&rt, &engine, of_pattern, refusal);
    expect_anew(&rt, &engine, whole.range(1..1), "none - -");
    expect_anew(&rt, &engine, whole.range(2..1), "none - -");
}

#[test]
fn no_capacity_refuses_each_length(rt: HostRuntime) {
    let engine = with_capacity(&rt, "alnum100", 0);
    let done = Input::new(b"abc").range(2..1);
    expect_anew(&rt, &engine, done, "HaystackTooLong { len: 0 } - -");
}

// The capacity of an engine that the builder makes after this configuration.
fn capacity_after(rt: &(impl Abort + AllocGlobal), builder: &mut Builder, config: Config) -> usize {
    builder.configure(config);
    let nfa = nfa_named(rt.alloc(), "abc_a").expect(rt, "an NFA");
    let engine = builder.build_from_nfa(nfa).expect(rt, "an engine");
    engine.get_config().get_visited_capacity()
}

#[test]
fn keeps_what_a_newer_configuration_leaves_unset(rt: HostRuntime) {
    let mut builder = Builder::new();
    assert_eq!(rt; capacity_after(&rt, &mut builder, Config::new()), 262144);
    let ten = Config::new().visited_capacity(10);
    assert_eq!(rt; capacity_after(&rt, &mut builder, ten), 10);
    assert_eq!(rt; capacity_after(&rt, &mut builder, Config::new()), 10);
    let seven = Config::new().visited_capacity(7);
    assert_eq!(rt; capacity_after(&rt, &mut builder, seven), 7);
}
