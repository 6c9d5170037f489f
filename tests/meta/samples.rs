//! A regex over each sample, and over patterns that can match the empty string in UTF-8 mode: each span of some haystacks,
//! and four ways to search it.

use nfa_choice::choose::Choice;
use nfa_compiler::Compiler;
use nfa_engines::{Input, Match, NonMaxUsize, PatternSet, backtrack, pikevm};
use nfa_meta::Regex;
use std::test::Fail;
use test_support::TestRuntime;
use test_support::samples::{NAMES, nfa_named};
use test_support::searches::searches_of;

const HAYSTACKS: &[&[u8]] = &[
    b"",
    b"abba",
    b"xabcab",
    b"foo 12",
    b"a\xE2\x98\x83b",
    b"\x80a\xE2",
];

// Both give the same match, half match, slots and captures.
fn expect_same(
    rt: &impl TestRuntime,
    regex: &mut Regex,
    choice: &mut Choice,
    input: &Input<'_>,
) -> Result<(), Fail> {
    assert_eq!(rt; regex.find(*input), choice.find(*input), "{input:?}");
    assert_eq!(rt;
        regex.is_match(*input),
        choice.is_match(*input),
        "{input:?}"
    );
    assert_eq!(rt;
        regex.find_half(*input),
        choice.find_half(*input),
        "{input:?}"
    );

    let mut found = [NonMaxUsize::new(7); 6];
    let mut wanted = [None; 6];
    let pattern = regex.search_slots(input, &mut found);
    let other = choice.search_slots(input, &mut wanted);
    assert!(rt; pattern == other && found == wanted, "{input:?}");

    let mut found = regex.create_captures(rt.alloc())?;
    let mut wanted = choice.create_captures(rt.alloc())?;
    regex.search_captures(input, &mut found);
    choice.search(input, &mut wanted);
    assert_eq!(rt; found.pattern(), wanted.pattern(), "{input:?}");
    assert_eq!(rt; found.slots(), wanted.slots(), "{input:?}");
    Ok(())
}

// Both fill a set alike.
fn expect_same_set(
    rt: &impl TestRuntime,
    regex: &mut Regex,
    choice: &mut Choice,
    input: &Input<'_>,
) -> Result<(), Fail> {
    let count = choice.get_nfa().pattern_len();
    let mut found = PatternSet::new(rt.alloc(), count)?;
    let mut wanted = PatternSet::new(rt.alloc(), count)?;
    regex.which_overlapping_matches(input, &mut found);
    choice.which_overlapping_matches(input, &mut wanted);
    assert_eq!(rt; found.len(), wanted.len(), "{input:?}");
    let same = wanted.iter().all(|pattern| found.contains(pattern));
    assert!(rt; same, "{input:?}");
    Ok(())
}

// Both give the same list of all matches.
fn expect_same_list(
    rt: &impl TestRuntime,
    regex: &mut Regex,
    choice: &mut Choice,
    input: Input<'_>,
) -> Result<(), Fail> {
    let wanted: Vec<Match> = choice.find_iter(input).collect(rt.alloc())?;
    let found: Vec<Match> = regex.find_iter(input).collect(rt.alloc())?;
    assert_eq!(rt; found.as_slice(), wanted.as_slice(), "{input:?}");
    let found = regex.find_all(rt.alloc(), input)?;
    assert_eq!(rt; found.as_slice(), wanted.as_slice(), "{input:?}");
    assert_eq!(rt; regex.count(input), wanted.len(), "{input:?}");
    Ok(())
}

/// Both answer all searches of each haystack alike.
fn expect_same_answers(
    rt: &impl TestRuntime,
    regex: &mut Regex,
    choice: &mut Choice,
    haystacks: &[&[u8]],
) -> Result<(), Fail> {
    for &haystack in haystacks {
        for input in &searches_of(rt.alloc(), haystack)? {
            expect_same(rt, regex, choice, input)?;
            expect_same_set(rt, regex, choice, input)?;
        }
        expect_same_list(rt, regex, choice, Input::new(haystack))?;
    }
    Ok(())
}

fn expect_samples(rt: &impl TestRuntime, names: &[&str]) -> Result<(), Fail> {
    let alloc = rt.alloc();
    let (back, pike) = (backtrack::Config::new(), pikevm::Config::new());
    for &name in names {
        let mut regex = Regex::new_from_nfa(alloc, nfa_named(alloc, name)?)?;
        let mut choice = Choice::new(alloc, nfa_named(alloc, name)?, back, pike)?;
        expect_same_answers(rt, &mut regex, &mut choice, HAYSTACKS)?;
    }
    Ok(())
}

// Patterns that can match the empty string, in UTF-8 mode: a match that splits a codepoint does not count.
const EMPTY: &[&str] = &[
    "a*",
    "(?m)^$",
    "(?m)^.*$",
    r"(?m)^\s*$",
    "(?m)$",
    r"\b",
    "☃*?b|",
];

const LINES: &[&[u8]] = &[
    b"\n\na\n \n",
    b"\xE2\x98\x83\n\n\xE2\x98\x83",
    b"\xE2\x98\n\x83a\n",
    b"a\xFF\n\n",
];

#[test]
fn regexes_answer_as_a_choice_over_empty_matches(rt: HostRuntime) -> Result<(), Fail> {
    let alloc = rt.alloc();
    let (back, pike) = (backtrack::Config::new(), pikevm::Config::new());
    for &pattern in EMPTY {
        let mut regex = Regex::new(alloc, pattern)?;
        let nfa = Compiler::new().build(alloc, pattern)?;
        let mut choice = Choice::new(alloc, nfa, back, pike)?;
        expect_same_answers(&rt, &mut regex, &mut choice, HAYSTACKS)?;
        expect_same_answers(&rt, &mut regex, &mut choice, LINES)?;
    }
    Ok(())
}

#[test]
fn regexes_answer_as_a_choice_over_words(rt: HostRuntime) -> Result<(), Fail> {
    expect_samples(&rt, &NAMES[..10])
}

#[test]
fn regexes_answer_as_a_choice_over_other_samples(rt: HostRuntime) -> Result<(), Fail> {
    expect_samples(&rt, &NAMES[10..])
}
