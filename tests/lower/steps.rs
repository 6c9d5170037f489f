//! Half matches by steps over lists of states, compared with those of the samples.
use super::fixtures::named;
use nfa_lazy_dfa::determinize::scan::find_half;
use nfa_samples::answers::HALVES;
use regex_search_core::MatchKind::{All, LeftmostFirst};
use regex_search_core::{Anchored, Input, MatchKind};
use std::process::Abort;
use test_support::text::half_text;

// A sample, a haystack, the start of the span, which reaches to the end of the haystack, and the pattern and the end of
// the first match. In UTF-8 mode it splits no codepoint.
const SPLIT_HALVES: &[(&str, &str, usize, &str)] = &[
    ("empty", "☃", 1, "0 3"),
    ("empty_anchored", "☃", 1, "0 3"),
    ("empty_bytes", "☃", 1, "0 1"),
    ("a_star", "☃", 0, "0 0"),
];

// The steps find this half match.
fn expect_half(
    rt: &(impl Abort + AllocGlobal),
    name: &str,
    kind: MatchKind,
    input: Input<'_>,
    want: &str,
) {
    let alloc = rt.alloc();
    let half = find_half(alloc, &named(rt, name), kind, input).expect(rt, "memory");
    let text = half_text(alloc, half).expect(rt, "memory");
    assert_eq!(rt; text.as_str(), want, "{name}");
}

// A search of the haystack from this offset on.
fn input_from(haystack: &str, start: usize) -> Input<'_> {
    Input::new(haystack.as_bytes()).range(start..haystack.len())
}

#[test]
fn steps_find_the_halves_of_samples(rt: HostRuntime) {
    for &(name, haystack, want) in HALVES {
        expect_half(&rt, name, LeftmostFirst, input_from(haystack, 0), want);
    }
}

#[test]
fn halves_by_steps_split_no_codepoint(rt: HostRuntime) {
    for &(name, haystack, start, want) in SPLIT_HALVES {
        expect_half(&rt, name, LeftmostFirst, input_from(haystack, start), want);
    }
    let anchored = input_from("☃", 1).anchored(Anchored::Yes);
    expect_half(&rt, "empty", LeftmostFirst, anchored, "none");
}

#[test]
fn halves_by_steps_are_of_the_match_kind(rt: HostRuntime) {
    let input = input_from("a", 0);
    expect_half(&rt, "empty_or_a", LeftmostFirst, input, "0 0");
    expect_half(&rt, "empty_or_a", All, input, "0 1");
    expect_half(&rt, "empty_or_a", All, input.earliest(true), "0 0");
}
