//! Sets of patterns: which of them match, and the same answers as a choice of the kind `All`.

use nfa_choice::choose::Choice;
use nfa_engines::{Input, MatchKind, PatternSet, backtrack, pikevm};
use nfa_meta::{Regex, RegexSet};
use std::test::Fail;
use test_support::TestRuntime;
use test_support::random::{Chance, random_nfa};
use test_support::searches::searches_of;

const PATTERNS: &[&str] = &[r"\w+", r"\d+", r"\pL+", "foo", "bar", "barfoo", "foobar"];

// A text, and the patterns that match in it.
const ROWS: &[(&str, &[usize])] = &[
    ("", &[]),
    ("foobar", &[0, 2, 3, 4, 6]),
    ("7", &[0, 1]),
    ("☃ barfoo", &[0, 2, 3, 4, 5]),
    ("☃", &[]),
];

#[test]
fn a_set_says_which_patterns_match(rt: HostRuntime) -> Result<(), Fail> {
    let alloc = rt.alloc();
    let mut set = RegexSet::new(alloc, PATTERNS)?;
    assert_eq!(rt; set.len(), PATTERNS.len());
    for &(text, wanted) in ROWS {
        let input = Input::new(text.as_bytes());
        let found = set.matches(alloc, &input)?;
        let mut numbers = Vec::new(alloc);
        for pattern in found.iter() {
            numbers.push(pattern.as_usize())?;
        }
        assert_eq!(rt; numbers.as_slice(), wanted, "{text}");
        assert_eq!(rt; found.matched_any(), !wanted.is_empty(), "{text}");
        assert_eq!(rt; set.is_match(input), !wanted.is_empty(), "{text}");
        for index in 0..PATTERNS.len() + 2 {
            assert_eq!(rt;
                found.matched(index),
                wanted.contains(&index),
                "{text}, {index}"
            );
        }
    }
    assert!(rt; !set.matches(alloc, &Input::new(b"foo"))?.matched(usize::MAX));
    Ok(())
}

#[test]
fn a_set_may_be_empty_or_anchored(rt: HostRuntime) -> Result<(), Fail> {
    let alloc = rt.alloc();
    let mut none = RegexSet::new(alloc, &[])?;
    assert!(rt; none.is_empty());
    let found = none.matches(alloc, &Input::new(b"foo"))?;
    assert!(rt; !found.matched_any() && found.matched_all());
    let config = Regex::config().anchored(true);
    let builder = Regex::builder().configure(config);
    let mut set = builder.build_set(alloc, PATTERNS)?;
    let found = set.matches(alloc, &Input::new(b"foobar 7"))?;
    assert!(rt; found.matched(6) && !found.matched(1) && !found.matched(4));
    let mut copy = set.clone(alloc)?;
    assert!(rt; !copy.is_match(Input::new(b" 7")));
    assert_eq!(rt; copy.memory_usage() > 0, true);
    Ok(())
}

// The number of NFAs of a test, which may run for at most a minute.
const PART: usize = 60;

// The set of each search, and whether there is a match, are those of a choice.
fn expect_same(rt: &impl TestRuntime, set: &mut RegexSet, choice: &mut Choice, haystack: &[u8]) {
    let alloc = rt.alloc();
    let searches = searches_of(alloc, haystack).expect(rt, "searches");
    for input in &searches {
        let found = set.matches(alloc, input).expect(rt, "matches");
        let mut wanted = PatternSet::new(alloc, set.len()).expect(rt, "a set");
        choice.which_overlapping_matches(input, &mut wanted);
        for pattern in wanted.iter() {
            assert!(rt; found.matched(pattern.as_usize()), "{input:?}");
        }
        assert_eq!(rt; found.iter().count(), wanted.len(), "{input:?}");
        assert_eq!(rt; set.is_match(*input), choice.is_match(*input), "{input:?}");
    }
}

fn expect_part(rt: &impl TestRuntime, seed: u64) {
    let alloc = rt.alloc();
    let mut chance = Chance::new(seed);
    for _ in 0..PART {
        let nfa = random_nfa(alloc, &mut chance).expect(rt, "an NFA");
        let copy = nfa.clone().expect(rt, "a copy");
        let pike = pikevm::Config::new().match_kind(MatchKind::All);
        let choice = Choice::new(alloc, copy, backtrack::Config::new(), pike);
        let mut choice = choice.expect(rt, "a choice");
        let mut set = RegexSet::new_from_nfa(alloc, nfa).expect(rt, "a set");
        for haystack in [
            b"".as_slice(),
            b"ab",
            b"abcab",
            b"a\xE2\x98\x83",
            b"\x80b a",
        ] {
            expect_same(rt, &mut set, &mut choice, haystack);
        }
    }
}

#[test]
fn sets_are_those_of_a_choice(rt: HostRuntime) {
    expect_part(&rt, 2011);
}

#[test]
fn sets_are_those_of_a_choice_by_another_chance(rt: HostRuntime) {
    expect_part(&rt, 1969);
}
