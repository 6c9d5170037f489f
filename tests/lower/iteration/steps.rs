//! Tests of a searcher, step by step.

use crate::tests::shown::expect_shown;
use callers::finders::{collected_by, halves_collected_by};
use nfa_search_base::error::SearchError;
use nfa_search_base::iter::{Offered, Searcher};
use regex_search_core::{HalfMatch, Input, Match, MatchError, PatternID, Span};
use std::test::Fail;

const ERROR: SearchError = SearchError::Finder(MatchError::GaveUp { offset: 7 });

// The empty match of the first pattern that is nearest to `place` in the input's span.
fn nearest(input: &Input<'_>, place: usize) -> Option<Match> {
    if input.is_done() {
        return None;
    }
    let at = place.max(input.start()).min(input.end());
    Some(Match::new(PatternID::new(0)?, Span { start: at, end: at }))
}

// The same, as a half match.
fn nearest_half(input: &Input<'_>, place: usize) -> Option<HalfMatch> {
    let found = nearest(input, place)?;
    Some(HalfMatch::new(found.pattern(), found.end()))
}

// A finder that never errs: the empty match at the start of the span.
fn at_start(input: &Input<'_>) -> Result<Option<Match>, SearchError> {
    Ok(nearest(input, 0))
}

// The same, as a half match.
fn half_at_start(input: &Input<'_>) -> Result<Option<HalfMatch>, SearchError> {
    Ok(nearest_half(input, 0))
}

// The empty match that is nearest to `place`, or an error if the span starts at `fails`.
fn found_or_error(
    input: &Input<'_>,
    place: usize,
    fails: usize,
) -> Result<Option<Match>, SearchError> {
    if input.start() == fails {
        return Err(ERROR);
    }
    Ok(nearest(input, place))
}

// The same, as a half match.
fn half_or_error(
    input: &Input<'_>,
    place: usize,
    fails: usize,
) -> Result<Option<HalfMatch>, SearchError> {
    if input.start() == fails {
        return Err(ERROR);
    }
    Ok(nearest_half(input, place))
}

fn ends(found: Match) -> (usize, usize) {
    (found.start(), found.end())
}

fn offset(half: HalfMatch) -> usize {
    half.offset()
}

// The start at which the finder errs, the offset that it looks for, the result (`None` for the error), and the start of
// the searcher's input after the step.
type Step = (usize, usize, Option<Option<(usize, usize)>>, usize);

const STEPS: &[Step] = &[
    (0, 0, None, 0),
    (9, 0, Some(Some((0, 0))), 0),
    (1, 0, None, 1),
    (9, 1, Some(Some((1, 1))), 1),
];

#[test]
fn searcher_after_errors(rt: HostRuntime) {
    let mut searcher = Searcher::new(Input::new(b"ab"));
    for &(fails, place, want, start) in STEPS {
        let finder = |input: &Input<'_>| found_or_error(input, place, fails);
        let found = searcher.try_advance(finder);
        assert_eq!(rt;
            found.map(|found| found.map(ends)),
            want.ok_or(ERROR),
            "{start}"
        );
        assert_eq!(rt; searcher.input().start(), start);
    }
}

// The same for half matches.
type HalfStep = (usize, usize, Option<Option<usize>>, usize);

const HALF_STEPS: &[HalfStep] = &[
    (9, 0, Some(Some(0)), 0),
    (1, 0, None, 1),
    (9, 1, Some(Some(1)), 1),
];

#[test]
fn half_searcher_after_errors(rt: HostRuntime) {
    let mut searcher = Searcher::new(Input::new(b"ab"));
    for &(fails, place, want, start) in HALF_STEPS {
        let finder = |input: &Input<'_>| half_or_error(input, place, fails);
        let half = searcher.try_advance_half(finder);
        assert_eq!(rt;
            half.map(|half| half.map(offset)),
            want.ok_or(ERROR),
            "{start}"
        );
        assert_eq!(rt; searcher.input().start(), start);
    }
}

#[test]
fn lent_finders_stay(rt: HostRuntime) -> Result<(), Fail> {
    let mut searcher = Searcher::new(Input::new(b"ab"));
    // A 1 followed by the starts of the finder's inputs.
    let mut seen = 1usize;
    let mut finder = |input: &Input<'_>| {
        seen = seen * 10 + input.start();
        Ok(nearest(input, 0))
    };
    let first = searcher.try_advance_by_ref(&mut finder)?;
    let second = searcher.advance_by_ref(&mut finder);
    assert_eq!(rt; first.map(ends), Some((0, 0)));
    assert_eq!(rt; second.map(ends), Some((1, 1)));
    assert_eq!(rt; seen, 1001);
    Ok(())
}

#[test]
fn lent_half_finders_stay(rt: HostRuntime) -> Result<(), Fail> {
    let mut searcher = Searcher::new(Input::new(b"ab"));
    // A 1 followed by the starts of the finder's inputs.
    let mut seen = 1usize;
    let mut finder = |input: &Input<'_>| {
        seen = seen * 10 + input.start();
        Ok(nearest_half(input, 0))
    };
    let first = searcher.try_advance_half_by_ref(&mut finder)?;
    let second = searcher.advance_half_by_ref(&mut finder);
    assert_eq!(rt; first.map(offset), Some(0));
    assert_eq!(rt; second.map(offset), Some(1));
    assert_eq!(rt; seen, 1001);
    Ok(())
}

// The result of a call of an iterator: an empty match at this offset, the finder's error, or nothing.
#[derive(Clone, Copy)]
enum Call {
    Match(usize),
    Error,
    Nothing,
}

// The start at which the finder errs, and the results of the calls.
const CALLS: &[(usize, &[Call])] = &[
    (0, &[Call::Error, Call::Nothing, Call::Nothing]),
    (
        1,
        &[Call::Match(0), Call::Error, Call::Nothing, Call::Nothing],
    ),
    (
        2,
        &[
            Call::Match(0),
            Call::Match(1),
            Call::Error,
            Call::Nothing,
            Call::Nothing,
        ],
    ),
    (
        9,
        &[
            Call::Match(0),
            Call::Match(1),
            Call::Match(2),
            Call::Nothing,
            Call::Nothing,
        ],
    ),
];

#[test]
fn iterators_after_errors(rt: HostRuntime) {
    for &(fails, calls) in CALLS {
        let finder = |input: &Input<'_>| found_or_error(input, 0, fails);
        let mut items = Searcher::new(Input::new(b"ab")).into_matches_iter(finder);
        let half_finder = |input: &Input<'_>| half_or_error(input, 0, fails);
        let mut halves = Searcher::new(Input::new(b"ab")).into_half_matches_iter(half_finder);
        for call in calls {
            let want = match call {
                Call::Match(at) => Some(Ok(*at)),
                Call::Error => Some(Err(ERROR)),
                Call::Nothing => None,
            };
            let found = items.next().map(|item| item.map(ends));
            assert_eq!(rt; found, want.map(|want| want.map(|at| (at, at))), "{fails}");
            let half = halves.next().map(|item| item.map(offset));
            assert_eq!(rt; half, want, "{fails}");
        }
    }
}

#[test]
fn infallible_steps(rt: HostRuntime) {
    let mut searcher = Searcher::new(Input::new(b"ab"));
    for at in 0..3usize {
        assert_eq!(rt; searcher.advance(at_start).map(ends), Some((at, at)));
    }
    assert_eq!(rt; searcher.advance_half(half_at_start), None);
}

#[test]
fn infallible_iterators(rt: HostRuntime) {
    let items = Searcher::new(Input::new(b"ab")).into_matches_iter(at_start);
    assert_eq!(rt; items.input().end(), 2);
    let items = items.infallible();
    assert_eq!(rt; items.input().start(), 0);
    assert_eq!(rt; items.count(), 3);

    let halves = Searcher::new(Input::new(b"ab")).into_half_matches_iter(half_at_start);
    assert_eq!(rt; halves.input().end(), 2);
    let halves = halves.infallible();
    assert_eq!(rt; halves.input().start(), 0);
    assert_eq!(rt; halves.count(), 3);
}

#[test]
fn what_a_finder_tells_is_collected(rt: HostRuntime) -> Result<(), Fail> {
    let alloc = rt.alloc();
    let searcher = Searcher::new(Input::new(b"ab"));
    assert_eq!(rt; collected_by(alloc, searcher, at_start)?.len(), 3);
    let searcher = Searcher::new(Input::new(b"ab"));
    assert_eq!(rt;
        halves_collected_by(alloc, searcher, half_at_start)?.len(),
        3
    );
    Ok(())
}

const AFTER_OFFERS: &str =
    "Searcher { input: Input { haystack: [97], span: Span { start: 1, end: 1 }, anchored: No, \
    earliest: false }, last_match_end: Some(0) }";

#[test]
fn offers_and_texts(rt: HostRuntime) -> Result<(), Fail> {
    let mut searcher = Searcher::new(Input::new(b"a"));
    let first = nearest(searcher.input(), 0);
    assert_eq!(rt; searcher.offer(first), Offered::Done(first));
    let second = nearest(searcher.input(), 0);
    assert_eq!(rt; searcher.offer(second), Offered::Again);
    assert_eq!(rt; searcher.input().start(), 1);
    assert_eq!(rt; searcher.offer(None), Offered::Done(None));
    let copy = searcher.clone()?;
    expect_shown(&rt, &copy, AFTER_OFFERS);
    let items = copy.into_matches_iter(at_start);
    let text = format!(in rt.alloc(); "{items:?}")?;
    assert!(rt;
        text.as_str()
            .starts_with("TryMatchesIter { searcher: Searcher {"),
        "{text}"
    );
    expect_shown(&rt, &Offered::Again, "Again");
    Ok(())
}
