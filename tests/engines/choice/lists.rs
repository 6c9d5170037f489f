//! All matches, all captures and the set of patterns of a `Choice`: the matches of the samples, and captures that are
//! the same whichever engine runs.

use super::{captures_of, captures_text, configured};
use nfa_choice::Engine;
use nfa_samples::answers::ALL;
use regex_search_core::MatchKind::{self, LeftmostFirst};
use regex_search_core::{Captures, Input, PatternSet};
use std::alloc::{AllocError, Global};
use std::test::Fail;
use test_support::text::{slots_text, write_item};

// Bytes of marks: the default, none, and room for short spans only.
const CAPACITIES: &[Option<usize>] = &[None, Some(0), Some(10)];

// A sample and a haystack.
const LISTS: &[(&str, &[u8])] = &[
    ("words_numbers", b"abc 1 foo 4567 0 quux"),
    ("groups", b"ab acab ad"),
    ("empty", b"a\xE2\x98\x83z"),
    ("a_star", b"aab aa"),
    ("a_bare", b"ba"),
    ("abc", b""),
];

#[test]
fn lists_are_those_of_the_samples(rt: HostRuntime) -> Result<(), Fail> {
    let alloc = rt.alloc();
    for &(name, haystack, want) in ALL {
        for &capacity in CAPACITIES {
            let mut choice = configured(&rt, name, capacity, LeftmostFirst);
            let mut text = String::new(alloc);
            for found in &choice.find_all(alloc, Input::new(haystack))? {
                write_item(&mut text, Ok(*found))?;
            }
            assert_eq!(rt; text.as_str(), want, "{name} {haystack:?}");
        }
    }
    Ok(())
}

// Writes the pattern and the slots, and then a comma and a space.
fn write_row(text: &mut String, alloc: Global, captures: &Captures) -> Result<(), AllocError> {
    let row = slots_text(alloc, captures.pattern(), captures.slots())?;
    write!(text, "{row}, ")
}

#[test]
fn captures_are_those_of_any_engine(rt: HostRuntime) -> Result<(), Fail> {
    let alloc = rt.alloc();
    for &(name, haystack) in LISTS {
        let input = Input::new(haystack);
        let mut rows = String::new(alloc);
        let mut choice = configured(&rt, name, None, LeftmostFirst);
        for captures in &choice.captures_all(alloc, input)? {
            write_row(&mut rows, alloc, captures)?;
        }
        for &capacity in CAPACITIES {
            let mut choice = configured(&rt, name, capacity, LeftmostFirst);
            let mut text = String::new(alloc);
            for captures in choice.captures_iter(alloc, input)? {
                write_row(&mut text, alloc, &captures?)?;
            }
            assert_eq!(rt; text, rows, "{name} {input:?}");
            let captures = choice.create_captures(alloc)?;
            let mut text = String::new(alloc);
            for captures in choice.captures_iter_with(input, captures) {
                write_row(&mut text, alloc, &captures?)?;
            }
            assert_eq!(rt; text, rows, "{name} {input:?}");
        }
    }
    Ok(())
}

// A haystack, bytes of marks, and the captures of `groups` with the engine that ran.
const CAUGHT: &[(&[u8], Option<usize>, &str)] = &[
    (b"ab", None, "0 0 2 - - 0 2 Some(Backtracker)"),
    (b"xacab", Some(0), "0 1 3 1 2 - - Some(PikeVM)"),
    (b"ad", None, "none - - - - - - Some(Backtracker)"),
];

#[test]
fn captures_of_an_input(rt: HostRuntime) {
    for &(haystack, capacity, want) in CAUGHT {
        let mut choice = configured(&rt, "groups", capacity, LeftmostFirst);
        let mut captures = captures_of(&rt, &choice);
        choice.captures(Input::new(haystack), &mut captures);
        let text = captures_text(&rt, &captures, &choice);
        assert_eq!(rt; text.as_str(), want, "{haystack:?}");
    }
}

// A sample, a match kind, a haystack, and the set of patterns.
const SETS: &[(&str, MatchKind, &[u8], &str)] = &[
    ("foo_bar", MatchKind::All, b"foobar", "0, 1, 3, "),
    ("abc_ab", MatchKind::LeftmostFirst, b"abc", "0, 1, "),
    ("ab_abc", MatchKind::LeftmostFirst, b"abc", "0, "),
    ("b_a", MatchKind::LeftmostFirst, b"axb", "1, "),
    ("abc", MatchKind::All, b"xyz", ""),
];

#[test]
fn sets_gain_what_matches(rt: HostRuntime) -> Result<(), Fail> {
    let alloc = rt.alloc();
    for &(name, kind, haystack, want) in SETS {
        let mut choice = configured(&rt, name, None, kind);
        let mut set = PatternSet::new(alloc, choice.get_nfa().pattern_len())?;
        choice.which_overlapping_matches(&Input::new(haystack), &mut set);
        assert_eq!(rt; choice.ran(), Some(Engine::PikeVM), "{name}");
        let mut text = String::new(alloc);
        for pattern in set.iter() {
            write!(text, "{}, ", pattern.as_usize())?;
        }
        assert_eq!(rt; text.as_str(), want, "{name} {haystack:?}");
    }
    Ok(())
}
