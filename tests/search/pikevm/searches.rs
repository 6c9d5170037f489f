//! Searches of the PikeVM only: match kinds, `earliest`, long matches, and its settings.

use crate::tests::{expect_shown, expect_six_unset, expect_text, of_kind, threads, vm_named};
use nfa_engines::pikevm::{Builder, Cache, Config, PikeVM};
use regex_search_core::{Input, MatchKind};
use std::process::Abort;
use std::test::Fail;
use test_support::samples::nfa_named;
use test_support::text::{match_text, piked_match};

// Expects this match, with a new cache.
fn expect_match(rt: &(impl Abort + AllocGlobal), vm: &PikeVM, input: Input<'_>, want: &str) {
    let mut cache = threads(rt, vm);
    let text = piked_match(rt.alloc(), vm, &mut cache, input);
    expect_text(rt, &input, text, want);
}

#[test]
fn finds_long_matches(rt: HostRuntime) {
    let vm = vm_named(&rt, "alnum100");
    expect_match(&rt, &vm, Input::new(&[b'.'; 19971]), "none");
    expect_match(&rt, &vm, Input::new(&[b'a'; 100]), "0 0..100");
    expect_match(&rt, &vm, Input::new(&[b'a'; 99]), "none");
}

// A name, a haystack, and the first match by each of `SEARCHES`.
const KINDS: &[(&str, &str, &[&str])] = &[
    ("a_star", "aaa", &["0 0..3", "0 0..0", "0 0..3", "0 0..0"]),
    ("ab_b", "ab", &["0 0..2", "0 0..2", "1 1..2", "1 1..2"]),
    ("abc_a", "abca", &["0 0..3", "0 0..1", "0 3..4", "0 0..1"]),
    ("abcd_b", "abcd", &["0 0..4", "0 1..2", "0 0..4", "0 1..2"]),
    ("snowman", "a☃b", &["0 1..4", "none", "0 1..4", "none"]),
];

const SEARCHES: &[(MatchKind, bool)] = &[
    (MatchKind::LeftmostFirst, false),
    (MatchKind::LeftmostFirst, true),
    (MatchKind::All, false),
    (MatchKind::All, true),
];

#[test]
fn finds_the_match_of_each_kind(rt: HostRuntime) {
    for &(name, haystack, wants) in KINDS {
        assert_eq!(rt; wants.len(), SEARCHES.len());
        for (&(kind, earliest), want) in SEARCHES.iter().zip(wants) {
            let vm = of_kind(&rt, name, kind);
            let input = Input::new(haystack.as_bytes()).earliest(earliest);
            expect_match(&rt, &vm, input, want);
        }
    }
}

#[test]
fn ends_for_good(rt: HostRuntime) {
    let vm = vm_named(&rt, "a_or_empty");
    let mut cache = threads(&rt, &vm);
    let mut matches = vm.find_iter(&mut cache, Input::new(b""));
    assert!(rt; matches.next().is_some());
    assert!(rt; matches.next().is_none() && matches.next().is_none());
}

const TEXTS: &[&[u8]] = &[b"", b"foo"];

// The engine has `pattern_len` patterns, and finds this in any text. It is also the first item of an iteration.
fn expect_everywhere(rt: &(impl Abort + AllocGlobal), vm: &PikeVM, pattern_len: usize, want: &str) {
    assert_eq!(rt; vm.pattern_len(), pattern_len);
    for haystack in TEXTS {
        let input = Input::new(haystack);
        expect_match(rt, vm, input, want);
        let mut cache = threads(rt, vm);
        let first = vm.find_iter(&mut cache, input).next();
        expect_text(rt, &input, match_text(rt.alloc(), first), want);
    }
}

#[test]
fn matches_always_or_never(rt: HostRuntime) -> Result<(), Fail> {
    let alloc = rt.alloc();
    expect_everywhere(&rt, &PikeVM::always_match(alloc)?, 1, "0 0..0");
    expect_everywhere(&rt, &PikeVM::never_match(alloc)?, 0, "none");
    Ok(())
}

#[test]
fn makes_captures_of_all_groups(rt: HostRuntime) -> Result<(), Fail> {
    let vm = vm_named(&rt, "groups");
    expect_six_unset(&rt, &vm.create_captures(rt.alloc())?);
    Ok(())
}

// The kind of an engine that the builder makes after this configuration.
fn kind_after(rt: &(impl Abort + AllocGlobal), builder: &mut Builder, config: Config) -> MatchKind {
    builder.configure(config);
    let nfa = nfa_named(rt.alloc(), "abc_a").expect(rt, "an NFA");
    let vm = builder.build_from_nfa(nfa).expect(rt, "an engine");
    vm.get_config().get_match_kind()
}

#[test]
fn keeps_the_kind_that_a_newer_configuration_leaves_unset(rt: HostRuntime) {
    let mut builder = PikeVM::builder();
    let kind = kind_after(&rt, &mut builder, Config::default());
    assert_eq!(rt; kind, MatchKind::LeftmostFirst);
    let all = Config::new().match_kind(MatchKind::All);
    assert_eq!(rt; kind_after(&rt, &mut builder, all), MatchKind::All);
    let kind = kind_after(&rt, &mut builder, PikeVM::config());
    assert_eq!(rt; kind, MatchKind::All);
}

// A copy of the cache has its size, and works with the engine.
fn expect_copy(rt: &(impl Abort + AllocGlobal), vm: &PikeVM, cache: &Cache) {
    let mut copy = cache.clone().expect(rt, "a copy of a cache");
    assert_eq!(rt; copy.memory_usage(), cache.memory_usage());
    assert!(rt; copy.fits(vm));
    let text = piked_match(rt.alloc(), vm, &mut copy, Input::new(b"abca"));
    expect_text(rt, &"abca", text, "0 3..4");
}

// A copy of the engine works with the cache's copy too.
#[test]
fn a_clone_answers_as_its_original(rt: HostRuntime) -> Result<(), Fail> {
    let vm = of_kind(&rt, "abc_a", MatchKind::All);
    let cache = threads(&rt, &vm);
    expect_copy(&rt, &vm, &cache);
    expect_copy(&rt, &vm.clone()?, &cache);
    Ok(())
}

#[test]
fn configurations_are_shown(rt: HostRuntime) {
    let config = PikeVM::config().match_kind(MatchKind::All);
    expect_shown(&rt, &config, "Config { match_kind: Some(All) }");
    expect_shown(&rt, &Config::default(), "Config { match_kind: None }");
    let mut builder = PikeVM::builder();
    builder.configure(config);
    let want = "Builder { config: Config { match_kind: Some(All) } }";
    expect_shown(&rt, &builder, want);
}
