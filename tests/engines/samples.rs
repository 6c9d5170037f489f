//! Answers of both engines over the samples.

use super::expected::{Ask, engines_of, expect_answer, expect_answer_of, expect_is_match};
use nfa_samples::answers::{
    ALL, FOUND, FOUND_IN_SPAN, HALVES, OF_ONE_PATTERN, OF_SLOT_LENS, SLOTS,
};
use regex_search_core::{Anchored, Input, PatternID};
use test_support::samples::input_in;

#[test]
fn both_fill_the_slots_of_each_sample(rt: HostRuntime) {
    for &(name, haystack, want) in SLOTS {
        let input = Input::new(haystack.as_bytes());
        expect_answer(&rt, name, input, Ask::AllSlots, want);
    }
}

#[test]
fn both_find_the_first_match(rt: HostRuntime) {
    for &(name, haystack, want) in FOUND {
        let input = Input::new(haystack.as_bytes());
        expect_answer(&rt, name, input, Ask::Match, want);
    }
}

#[test]
fn both_find_the_end_of_the_first_match(rt: HostRuntime) {
    for &(name, haystack, want) in HALVES {
        let input = Input::new(haystack.as_bytes());
        expect_answer(&rt, name, input, Ask::Half, want);
    }
}

#[test]
fn both_find_the_first_match_in_a_span(rt: HostRuntime) {
    for &(name, haystack, start, end, anchored, want) in FOUND_IN_SPAN {
        let input = input_in(haystack.as_bytes(), start, end, anchored).expect(&rt, "a span");
        expect_answer(&rt, name, input, Ask::Match, want);
    }
}

// A name, a haystack, a span, whether the search is `earliest`, and whether there is a match.
const IS_MATCH: &[(&str, &str, usize, usize, bool, bool)] = &[
    ("a_star", "☃", 1, 2, false, false),
    ("a_star_bytes", "☃", 1, 2, false, true),
    ("a_bare", "a", 0, 1, false, true),
    ("abc", "abc", 0, 2, false, false),
    ("snowman", "a☃b", 0, 5, false, true),
    ("snowman", "a☃b", 0, 5, true, true),
    ("backwards", "aa", 0, 2, false, true),
];

#[test]
fn both_tell_whether_there_is_a_match(rt: HostRuntime) {
    for &(name, haystack, start, end, earliest, want) in IS_MATCH {
        let mut engines = engines_of(&rt, name);
        let input = Input::new(haystack.as_bytes())
            .range(start..end)
            .earliest(earliest);
        expect_is_match(&rt, &mut engines, name, input, want);
    }
}

#[test]
fn both_take_any_number_of_slots(rt: HostRuntime) {
    let mut engines = engines_of(&rt, "abc");
    for &(haystack, slot_len, want) in OF_SLOT_LENS {
        let input = Input::new(haystack.as_bytes()).anchored(Anchored::Yes);
        expect_answer_of(&rt, &mut engines, "abc", input, Ask::Slots(slot_len), want);
    }
}

#[test]
fn both_search_for_one_pattern(rt: HostRuntime) {
    for &(name, haystack, pattern, want) in OF_ONE_PATTERN {
        let pattern = PatternID::new(pattern).expect(&rt, "a pattern's number");
        let input = Input::new(haystack.as_bytes()).anchored(Anchored::Pattern(pattern));
        expect_answer(&rt, name, input, Ask::Slots(4), want);
    }
}

#[test]
fn both_give_all_matches(rt: HostRuntime) {
    for &(name, haystack, want) in ALL {
        expect_answer(&rt, name, Input::new(haystack), Ask::List, want);
    }
}
