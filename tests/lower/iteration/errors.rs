//! Tests of the texts of errors.
use crate::tests::shown::expect_told;
use nfa_search_base::error::SearchError;
use regex_search_core::MatchError;

#[test]
fn errors_are_told(rt: HostRuntime) {
    let too_long = SearchError::HaystackTooLong { len: 32 };
    let want = "the span of 32 bytes is too long for the visited capacity";
    expect_told(&rt, &too_long, want);
    expect_told(&rt, &SearchError::Memory, "out of memory");
    let gave_up = SearchError::Finder(MatchError::GaveUp { offset: 7 });
    let want = "the finder failed: the search gave up at offset 7";
    expect_told(&rt, &gave_up, want);
}
