//! Searches of the backtracker only: `earliest` changes nothing, and one cache works with all engines.

use super::expect_match;
use crate::tests::{engine_named, expect_text};
use nfa_samples::answers::FOUND;
use regex_search_core::Input;
use test_support::text::backtracked_slots;

#[test]
fn earliest_changes_no_answer(rt: HostRuntime) {
    for &(name, haystack, want) in FOUND {
        let engine = engine_named(&rt, name);
        let mut cache = engine.create_cache(rt.alloc());
        let input = Input::new(haystack.as_bytes()).earliest(true);
        expect_match(&rt, &engine, &mut cache, input, want);
    }
}

#[test]
fn one_cache_serves_all(rt: HostRuntime) {
    let alnum = engine_named(&rt, "alnum100");
    let abc = engine_named(&rt, "abc_a");
    let groups = engine_named(&rt, "groups");
    let mut cache = groups.create_cache(rt.alloc());
    expect_match(&rt, &alnum, &mut cache, Input::new(&[b'.'; 19971]), "none");
    expect_match(&rt, &abc, &mut cache, Input::new(b"abc"), "0 0..3");
    let text = backtracked_slots(rt.alloc(), &groups, &mut cache, &Input::new(b"ab"), 6);
    expect_text(&rt, &"groups", text, "0 0 2 - - 0 2");
    expect_match(
        &rt,
        &alnum,
        &mut cache,
        Input::new(&[b'a'; 100]),
        "0 0..100",
    );
}
