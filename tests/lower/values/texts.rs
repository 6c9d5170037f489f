//! Tests of the `Debug` texts of values, and of the texts of errors.
use super::{span, text};
use crate::tests::fixtures::pattern;
use crate::tests::shown::{expect_shown, expect_told};
use regex_search_core::{
    Anchored, Captures, GroupInfo, HalfMatch, Input, Match, MatchError, MatchKind, NonMaxUsize,
    PatternSet, Refused, StateID,
};
use std::test::Fail;

#[test]
fn debug_texts_of_numbers(rt: HostRuntime) {
    expect_shown(&rt, &pattern(&rt, 1), "PatternID { index: 1 }");
    expect_shown(&rt, &StateID::new(2), "Some(StateID(2))");
    expect_shown(&rt, &NonMaxUsize::new(3), "Some(NonMaxUsize(3))");
    expect_shown(&rt, &Refused, "Refused");
    expect_shown(&rt, &MatchKind::LeftmostFirst, "LeftmostFirst");
    let quit = MatchError::Quit {
        byte: 255,
        offset: 4,
    };
    expect_shown(&rt, &quit, "Quit { byte: 255, offset: 4 }");
}

#[test]
fn debug_texts_of_searches(rt: HostRuntime) {
    let one = pattern(&rt, 1);
    expect_shown(
        &rt,
        &Input::new(b"a").anchored(Anchored::Pattern(one)),
        "Input { haystack: [97], span: Span { start: 0, end: 1 }, \
        anchored: Pattern(PatternID { index: 1 }), earliest: false }",
    );
    expect_shown(
        &rt,
        &HalfMatch::new(one, 4),
        "HalfMatch { pattern: PatternID { index: 1 }, offset: 4 }",
    );
    expect_shown(
        &rt,
        &Match::new(one, span(2, 4)),
        "Match { pattern: PatternID { index: 1 }, span: Span { start: 2, end: 4 } }",
    );
}

#[test]
fn debug_texts_of_sets(rt: HostRuntime) -> Result<(), Fail> {
    let mut set = PatternSet::new(rt.alloc(), 1)?;
    set.try_insert(pattern(&rt, 0));
    expect_shown(&rt, &set, "PatternSet { which: [true], len: 1 }");
    let want = "PatternSetIter { which: [true], next: 0 }";
    expect_shown(&rt, &set.iter(), want);
    Ok(())
}

const GROUPS: &str = "GroupInfo { names: [[Some(\"n\")]], slot_len: 4 }";

const CAPTURES: &str = "Captures { group_info: GroupInfo { names: [[Some(\"n\")]], slot_len: 4 }, \
    pattern: None, slots: [None, None] }";

#[test]
fn debug_texts_of_groups(rt: HostRuntime) -> Result<(), Fail> {
    let alloc = rt.alloc();
    let names = vec![in alloc; Some(text(&rt, "n"))]?;
    let names = vec![in alloc; names]?;
    let groups = GroupInfo::new(names).expect(&rt, "groups");
    let captures = Captures::matches(alloc, groups)?;
    expect_shown(&rt, captures.group_info(), GROUPS);
    expect_shown(&rt, &captures, CAPTURES);
    Ok(())
}

#[test]
fn errors_are_told(rt: HostRuntime) {
    expect_told(&rt, &Refused, "out of memory");
    let quit = MatchError::Quit {
        byte: 255,
        offset: 4,
    };
    let want = "the search must stop at byte 255, at offset 4";
    expect_told(&rt, &quit, want);
    let gave_up = MatchError::GaveUp { offset: 7 };
    let want = "the search gave up at offset 7";
    expect_told(&rt, &gave_up, want);
    let too_long = MatchError::HaystackTooLong { len: 32 };
    let want = "the haystack of 32 bytes is too long to search";
    expect_told(&rt, &too_long, want);
    let mode = Anchored::Yes;
    let unsupported = MatchError::UnsupportedAnchored { mode };
    let want = "anchored mode Yes is not supported";
    expect_told(&rt, &unsupported, want);
}
