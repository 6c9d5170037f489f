//! Where the windows of the lazy DFA begin, and that the engines search only these. No contract says how close they are
//! to the match, or that the lazy DFA answers if it can.

use nfa_compiler::Compiler;
use nfa_engines::{Input, NonMaxUsize};
use nfa_lazy_dfa::DFA;
use nfa_meta::{Engine, Regex};
use std::ops::Range;
use std::test::Fail;
use test_support::TestRuntime;

/// A pattern, a haystack, and the window of the first match.
type Row = (&'static str, &'static str, (usize, usize));

// A window is the match, unless a path from an earlier start is alive up to the match.
const WINDOWS: &[Row] = &[
    ("foo[0-9]+", "some text, foo12 and foo345", (11, 16)),
    ("[0-9]{3}", "x12 1 1234", (6, 9)),
    ("[a-z]+=[a-z]+", "ab abc key=value", (7, 16)),
    ("a|ab", "xxxxab", (4, 5)),
    ("ab|[a-z]*c", "xyabxx c", (0, 4)),
    ("(?:a|b)*c", "ababd bac", (6, 9)),
];

#[test]
fn windows_begin_with_the_match(rt: HostRuntime) -> Result<(), Fail> {
    for &(pattern, text, window) in WINDOWS {
        let dfa = DFA::new(Compiler::new().build(rt.alloc(), pattern)?)?;
        let mut cache = dfa.create_cache(rt.alloc())?;
        let found = dfa.try_find_window(&mut cache, Input::new(text.as_bytes()))?;
        let found = found.map(|w| (w.start(), w.end()));
        assert_eq!(rt; found, Some(window), "{pattern}");
    }
    Ok(())
}

/// Expects the match with this range, or none.
fn expect_range(
    rt: &impl TestRuntime,
    regex: &mut Regex,
    input: Input<'_>,
    range: Option<Range<usize>>,
) {
    let found = regex.find(input);
    assert_eq!(rt; found.map(|found| found.range()), range);
}

#[test]
fn the_lazy_dfa_answers_if_it_can(rt: HostRuntime) -> Result<(), Fail> {
    let mut regex = Regex::new(rt.alloc(), "foo[0-9]+")?;
    assert!(rt; regex.is_match(Input::new(b"a foo12")));
    let half = regex.find_half(Input::new(b"a foo12"));
    assert_eq!(rt; half.map(|half| half.offset()), Some(7));
    expect_range(&rt, &mut regex, Input::new(b"a fo12"), None);
    assert_eq!(rt; regex.ran(), None);
    Ok(())
}

/// Searches for two slots, and expects a match with this span, or none.
fn expect_slots(
    rt: &impl TestRuntime,
    regex: &mut Regex,
    text: &[u8],
    span: Option<(usize, usize)>,
) {
    let mut slots = [None; 2];
    let pattern = regex.search_slots(&Input::new(text), &mut slots);
    let wanted = match span {
        Some((start, end)) => [NonMaxUsize::new(start), NonMaxUsize::new(end)],
        None => [None; 2],
    };
    assert!(rt; pattern.is_some() == span.is_some() && slots == wanted);
}

/// Searches with captures, and expects that a group has this span.
fn expect_group(
    rt: &impl TestRuntime,
    regex: &mut Regex,
    text: &[u8],
    group: usize,
    span: (usize, usize),
) {
    let mut captures = regex.create_captures(rt.alloc()).expect(rt, "memory");
    regex.search_captures(&Input::new(text), &mut captures);
    let found = captures.get_group(group).map(|s| (s.start, s.end));
    assert_eq!(rt; found, Some(span));
}

// The NFA has only the two slots of a match. Sure steps fill three, and the choice if a step is not sure.
#[test]
fn the_lazy_dfa_fills_two_slots(rt: HostRuntime) -> Result<(), Fail> {
    let mut regex = Regex::new(rt.alloc(), "foo[0-9]+")?;
    expect_slots(&rt, &mut regex, b"a foo12", Some((2, 7)));
    expect_slots(&rt, &mut regex, b"a fo12", None);
    expect_group(&rt, &mut regex, b"foo1 foo2", 0, (0, 4));
    assert_eq!(rt; regex.ran(), None);
    regex.search_slots(&Input::new(b"a foo12"), &mut [None; 3]);
    assert_eq!(rt; regex.ran(), None);
    let mut unsure = Regex::new(rt.alloc(), "foo[0-9]*[0-9]")?;
    unsure.search_slots(&Input::new(b"a foo12"), &mut [None; 3]);
    assert_eq!(rt; unsure.ran(), Some(Engine::Backtracker));
    Ok(())
}

// A pattern that matches the empty string matches at the start of each search, or at the next boundary.
#[test]
fn the_lazy_dfa_finds_empty_matches(rt: HostRuntime) -> Result<(), Fail> {
    let mut regex = Regex::new(rt.alloc(), "[a-z]*")?;
    expect_range(&rt, &mut regex, Input::new(b"1ab"), Some(0..0));
    assert_eq!(rt; regex.ran(), None);
    let snowman = Input::new("\u{2603}a".as_bytes());
    expect_range(&rt, &mut regex, snowman.range(1..4), Some(3..4));
    let ranges: Vec<Range<usize>> = regex
        .find_iter(Input::new(b"ab 1"))
        .map(|found| found.range())
        .collect(rt.alloc())?;
    assert_eq!(rt; ranges.as_slice(), [0..2, 3..3, 4..4].as_slice());
    Ok(())
}

// The last search of a list finds nothing. The first one of the next list is made by the lazy DFA all the same.
#[test]
fn the_lazy_dfa_goes_on_after_a_list(rt: HostRuntime) -> Result<(), Fail> {
    let mut regex = Regex::new(rt.alloc(), ".*")?;
    let lines = Input::new("one\n☃\n".as_bytes());
    for _ in 0..2 {
        assert_eq!(rt; regex.find_all(rt.alloc(), lines)?.len(), 3);
        assert_eq!(rt; regex.captures_all(rt.alloc(), lines)?.len(), 3);
    }
    assert_eq!(rt; regex.ran(), None);
    Ok(())
}

// Each match begins with `foo`, so the search skips to the next `foo`.
#[test]
fn matches_begin_with_a_prefix(rt: HostRuntime) -> Result<(), Fail> {
    let mut regex = Regex::new(rt.alloc(), "(foo)(bar|[0-9]+)")?;
    let input = Input::new(b"fo foo fooba foobar foo12");
    expect_range(&rt, &mut regex, input, Some(13..19));
    expect_range(&rt, &mut regex, input.range(14..25), Some(20..25));
    expect_range(&rt, &mut regex, input.range(14..22), None);
    assert_eq!(rt; regex.ran(), None);
    Ok(())
}

const FILL: usize = 1_000_000;

// The haystack is too long for the backtracker, and the window is not. The lazy DFA finds the bounds by itself. A digit
// may belong to either group, so its step is not sure.
#[test]
fn the_choice_searches_the_window(rt: HostRuntime) -> Result<(), Fail> {
    let mut regex = Regex::new(rt.alloc(), "foo([0-9]*)([0-9])")?;
    let mut text = vec![in rt.alloc(); b'x'; FILL]?;
    text.extend_from_slice(b"foo12")?;
    let found = FILL..FILL + 5;
    expect_range(&rt, &mut regex, Input::new(&text), Some(found));
    assert_eq!(rt; regex.ran(), None);
    expect_group(&rt, &mut regex, &text, 1, (FILL + 3, FILL + 4));
    assert_eq!(rt; regex.ran(), Some(Engine::Backtracker));
    Ok(())
}
