//! Sets of overlapping matches.

use crate::tests::{expect_text, of_kind, threads};
use nfa_engines::pikevm::{Cache, PikeVM};
use regex_search_core::MatchKind::{All, LeftmostFirst};
use regex_search_core::{Input, MatchKind, PatternID, PatternSet};
use std::alloc::{AllocError, Global};
use std::process::Abort;
use std::test::Fail;
use test_support::engines::fitting;
use test_support::samples::input_in;

// A name, a kind, a haystack, the capacity of a set, and the patterns that an empty set gains, without and with
// `earliest`.
const GAINED: &[(&str, MatchKind, &str, usize, [&str; 2])] = &[
    ("foo_bar", All, "foobar", 4, ["0 1 3 ", "0 "]),
    ("foo_bar", All, "foobar", 1, ["0 ", "0 "]),
    ("ab_abc", LeftmostFirst, "abc", 2, ["0 ", "0 "]),
    ("abc_ab", LeftmostFirst, "abc", 2, ["0 1 ", "1 "]),
    ("b_a", LeftmostFirst, "ab", 2, ["1 ", "1 "]),
    ("b_a", LeftmostFirst, "axb", 2, ["1 ", "1 "]),
    ("b_a", LeftmostFirst, "axb", 1, ["0 ", "0 "]),
    ("b_a", LeftmostFirst, "axb", 0, ["", ""]),
    ("b_a", All, "axb", 0, ["", ""]),
    ("empty", All, "a☃z", 1, ["0 ", "0 "]),
    ("abc", All, "xyz", 2, ["", ""]),
    ("abc", LeftmostFirst, "xyz", 2, ["", ""]),
];

// The patterns of the set after the search, each followed by a space.
fn searched(
    alloc: Global,
    vm: &PikeVM,
    cache: &mut Cache,
    input: &Input<'_>,
    set: &mut PatternSet,
) -> Result<String, AllocError> {
    vm.which_overlapping_matches(fitting(vm, cache), input, set);
    let mut text = String::new(alloc);
    for pattern in set.iter() {
        write!(text, "{} ", pattern.as_usize())?;
    }
    Ok(text)
}

// The patterns that an empty set gains in a search of the sample, with a new cache.
fn gained(
    rt: &(impl Abort + AllocGlobal),
    (name, kind): (&str, MatchKind),
    input: &Input<'_>,
    capacity: usize,
) -> Result<String, AllocError> {
    let vm = of_kind(rt, name, kind);
    let mut cache = threads(rt, &vm);
    let mut set = PatternSet::new(rt.alloc(), capacity).expect(rt, "a set");
    searched(rt.alloc(), &vm, &mut cache, input, &mut set)
}

#[test]
fn an_empty_set_gains_what_matches(rt: HostRuntime) {
    for &(name, kind, haystack, capacity, [plainly, early]) in GAINED {
        let input = Input::new(haystack.as_bytes());
        let text = gained(&rt, (name, kind), &input, capacity);
        expect_text(&rt, &(name, input), text, plainly);
        let input = input.earliest(true);
        let text = gained(&rt, (name, kind), &input, capacity);
        expect_text(&rt, &(name, input), text, early);
    }
}

// The set holds only the second pattern at first.
#[test]
fn a_set_loses_nothing(rt: HostRuntime) -> Result<(), Fail> {
    let alloc = rt.alloc();
    let second = PatternID::new(1).expect(&rt, "a pattern's number");
    for (kind, want) in [(LeftmostFirst, "1 "), (All, "0 1 ")] {
        let vm = of_kind(&rt, "ab_abc", kind);
        let mut cache = threads(&rt, &vm);
        let mut set = PatternSet::new(alloc, 2)?;
        assert_eq!(rt; set.try_insert(second), Some(true));
        let text = searched(alloc, &vm, &mut cache, &Input::new(b"abc"), &mut set);
        expect_text(&rt, &kind, text, want);
    }
    Ok(())
}

// A name, a haystack, a span, whether the search is anchored, the capacity of a set, and the patterns that an empty set
// gains under `All`.
const GAINED_IN_SPAN: &[(&str, &str, usize, usize, bool, usize, &str)] = &[
    ("abc_b", "abx", 0, 3, true, 2, ""),
    ("abc_b", "abx", 0, 3, false, 2, "1 "),
    ("empty", "☃", 1, 3, false, 1, "0 "),
    ("empty", "☃", 1, 2, false, 1, ""),
    ("empty", "☃", 1, 3, true, 1, ""),
];

#[test]
fn an_empty_set_gains_what_matches_in_a_span(rt: HostRuntime) {
    for &(name, haystack, start, end, anchored, capacity, want) in GAINED_IN_SPAN {
        let input = input_in(haystack.as_bytes(), start, end, anchored).expect(&rt, "a span");
        let text = gained(&rt, (name, All), &input, capacity);
        expect_text(&rt, &(name, input), text, want);
    }
}

#[test]
fn a_larger_cache_serves_as_well(rt: HostRuntime) -> Result<(), Fail> {
    let alloc = rt.alloc();
    let mut cache = threads(&rt, &of_kind(&rt, "foo_bar", All));
    let vm = of_kind(&rt, "abc_ab", LeftmostFirst);
    assert!(rt; cache.fits(&vm));
    let mut set = PatternSet::new(alloc, 2)?;
    let text = searched(alloc, &vm, &mut cache, &Input::new(b"abc"), &mut set);
    expect_text(&rt, &"abc", text, "0 1 ");
    Ok(())
}
