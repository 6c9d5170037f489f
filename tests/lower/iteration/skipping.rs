//! Tests of skipping matches that split a codepoint.

use nfa_search_base::empty::{skip_splits_fwd, skip_splits_rev};
use nfa_search_base::error::SearchError;
use regex_search_core::{Anchored, Input, MatchError, Span};

const SNOWMAN: &[u8] = b"\xE2\x98\x83";

const ERROR: SearchError = SearchError::Finder(MatchError::GaveUp { offset: 7 });

// The offset of the input's span that is nearest to `place`, with 40 more as its value; or an error if `fails`.
fn nearest(
    input: &Input<'_>,
    place: usize,
    fails: bool,
) -> Result<Option<(usize, usize)>, SearchError> {
    if fails {
        return Err(ERROR);
    }
    if input.is_done() {
        return Ok(None);
    }
    let at = place.max(input.start()).min(input.end());
    Ok(Some((at + 40, at)))
}

fn anchoring(is_anchored: bool) -> Anchored {
    if is_anchored {
        Anchored::Yes
    } else {
        Anchored::No
    }
}

// Whether the search is anchored, the offset of the first match, the start at which the finder errs, the result (`None`
// for the error), and a 1 followed by the starts of the finder's inputs.
type Forward = (bool, usize, usize, Option<Option<usize>>, usize);

const FORWARD: &[Forward] = &[
    (true, 1, 9, Some(None), 1),
    (true, 0, 9, Some(Some(41)), 1),
    (true, 3, 9, Some(Some(41)), 1),
    (false, 0, 9, Some(Some(41)), 1),
    (false, 3, 9, Some(Some(41)), 1),
    (false, 1, 9, Some(Some(43)), 1123),
    (false, 1, 1, None, 11),
];

#[test]
fn forward(rt: HostRuntime) {
    for &(is_anchored, offset, fails, want, starts) in FORWARD {
        let input = Input::new(SNOWMAN).anchored(anchoring(is_anchored));
        let mut seen = 1usize;
        let found = skip_splits_fwd(&input, 41, offset, |input: &Input<'_>| {
            seen = seen * 10 + input.start();
            nearest(input, 0, input.start() == fails)
        });
        assert_eq!(rt; found, want.ok_or(ERROR), "{starts}");
        assert_eq!(rt; seen, starts);
    }
}

// The haystack, whether the search is anchored, the end of the span, the offset of the first match, the offset that the
// finder looks for, the end at which it errs, the result (`None` for the error), and a 1 followed by the ends of the
// finder's inputs.
type Backward = (
    &'static [u8],
    bool,
    usize,
    usize,
    usize,
    usize,
    Option<Option<usize>>,
    usize,
);

const BACKWARD: &[Backward] = &[
    (SNOWMAN, false, 3, 2, 9, 9, Some(Some(40)), 1210),
    (SNOWMAN, false, 3, 2, 1, 1, None, 121),
    (SNOWMAN, false, 3, 3, 9, 9, Some(Some(42)), 1),
    (SNOWMAN, false, 3, 0, 9, 9, Some(Some(42)), 1),
    (SNOWMAN, true, 3, 2, 9, 9, Some(None), 1),
    (SNOWMAN, true, 3, 3, 9, 9, Some(Some(42)), 1),
    (b"\x80", false, 0, 0, 9, 9, Some(None), 1),
];

#[test]
fn backward(rt: HostRuntime) {
    for &(haystack, is_anchored, end, offset, place, fails, want, ends) in BACKWARD {
        let input = Input::new(haystack)
            .span(Span { start: 0, end })
            .anchored(anchoring(is_anchored));
        let mut seen = 1usize;
        let found = skip_splits_rev(&input, 42, offset, |input: &Input<'_>| {
            seen = seen * 10 + input.end();
            nearest(input, place, input.end() == fails)
        });
        assert_eq!(rt; found, want.ok_or(ERROR), "{ends}");
        assert_eq!(rt; seen, ends);
    }
}
