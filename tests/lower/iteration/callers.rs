//! Callers of iterators over stored finders, as a user would write them.

use crate::tests::fixtures::{captures_at, plain_groups};
use crate::tests::shown::expect_shown;
use callers::finders::{captures_collected_by, collected, collected_captures, looped};
use nfa_search_base::error::SearchError;
use nfa_search_base::iter::Searcher;
use regex_search_core::{Captures, Input, Match, MatchError, NonMaxUsize, PatternID};
use std::process::Abort;
use std::test::Fail;

// Finds the match of the slots if it is in the span, or none. Errs if the span starts at `fails`.
fn captured_or_fails(
    input: &Input<'_>,
    captures: &mut Captures,
    fails: usize,
) -> Result<(), SearchError> {
    if input.start() == fails {
        return Err(SearchError::Finder(MatchError::GaveUp { offset: 7 }));
    }
    captures.set_pattern(PatternID::new(0));
    let is_inside = |found: Match| found.start() >= input.start() && found.end() <= input.end();
    if !captures.get_match().is_some_and(is_inside) {
        captures.set_pattern(None);
    }
    Ok(())
}

fn outcome(item: Option<Result<Captures, SearchError>>) -> &'static str {
    match item {
        Some(Ok(captures)) => {
            if captures.is_match() {
                "match, "
            } else {
                "no match, "
            }
        }
        Some(Err(SearchError::Finder(_))) => "error, ",
        Some(Err(_)) => "another error, ",
        None => "none, ",
    }
}

// The start at which the finder errs, and the outcomes of five calls: an error of the first, of the second, and none.
const ERRORS: &[(usize, &str)] = &[
    (0, "error, none, none, none, none, "),
    (1, "match, error, none, none, none, "),
    (2, "match, none, none, none, none, "),
];

// The only match is that of the captures.
#[test]
fn an_error_of_each_call_ends_captures(rt: HostRuntime) -> Result<(), Fail> {
    for &(fails, want) in ERRORS {
        let searcher = Searcher::new(Input::new(b"ab"));
        let mut items = searcher.into_captures_iter(
            captures_at(&rt, 0, 1),
            |input, captures| captured_or_fails(input, captures, fails),
        );
        let mut text = String::new(rt.alloc());
        for _ in 0..5 {
            text.push_str(outcome(items.next()))?;
        }
        assert_eq!(rt; text.as_str(), want);
    }
    Ok(())
}

const TRIES: &str = concat!(
    "TryCapturesIter { searcher: Searcher { input: Input { haystack: [97], span: Span { start: 0, end: 1 }, ",
    "anchored: No, earliest: false }, last_match_end: None }, captures: Captures { group_info: GroupInfo ",
    "{ names: [[]], slot_len: 2 }, pattern: None, slots: [None, None] }, done: false, .. }"
);

const TRIES_OF_SURE: &str = concat!(
    "CapturesIter { tries: TryCapturesIter { searcher: Searcher { input: Input { haystack: [97], ",
    "span: Span { start: 0, end: 1 }, anchored: No, earliest: false }, last_match_end: None }, ",
    "captures: Captures { group_info: GroupInfo { names: [[]], slot_len: 2 }, pattern: None, ",
    "slots: [None, None] }, done: false, .. } }"
);

fn found_nowhere(_: &Input<'_>, captures: &mut Captures) -> Result<(), SearchError> {
    captures.set_pattern(None);
    Ok(())
}

#[test]
fn captures_come(rt: HostRuntime) -> Result<(), Fail> {
    let captures = Captures::matches(rt.alloc(), plain_groups(&rt, 1))?;
    let items = Searcher::new(Input::new(b"a")).into_captures_iter(captures, found_nowhere);
    expect_shown(&rt, &items, TRIES);
    // The finder never errs. It gives no item.
    let items = items.infallible();
    expect_shown(&rt, &items, TRIES_OF_SURE);
    assert_eq!(rt; items.count(), 0);
    Ok(())
}

#[test]
fn lists(rt: HostRuntime) -> Result<(), Fail> {
    expect_four(&rt, &collected(rt.alloc(), b"abc")?);
    expect_four(&rt, &looped(rt.alloc(), b"abc")?);
    Ok(())
}

// Expects an empty match at each offset of three bytes, and after them.
fn expect_four(rt: &impl Abort, items: &[Result<Match, SearchError>]) {
    assert_eq!(rt; items.len(), 4);
    for (at, item) in items.iter().enumerate() {
        assert_eq!(rt;
            item.map(|found| (found.start(), found.end())),
            Ok((at, at))
        );
    }
}

#[test]
fn a_list_of_captures_is_collected(rt: HostRuntime) -> Result<(), Fail> {
    let captures = captures_at(&rt, 0, 0);
    assert_eq!(rt; captures.slots(), [NonMaxUsize::new(0); 2].as_slice());
    assert_eq!(rt; collected_captures(rt.alloc(), b"ab", captures)?.len(), 1);
    Ok(())
}

#[test]
fn captures_that_a_finder_leaves_are_collected(rt: HostRuntime) -> Result<(), Fail> {
    let some = captures_collected_by(
        rt.alloc(),
        Searcher::new(Input::new(b"ab")),
        captures_at(&rt, 0, 1),
        |input, captures| captured_or_fails(input, captures, 1),
    )?;
    assert_eq!(rt; some.len(), 2);
    Ok(())
}
