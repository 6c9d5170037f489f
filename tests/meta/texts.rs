//! Texts that are split at the matches of a pattern, or in which other bytes replace the matches.

use nfa_engines::Span;
use nfa_meta::Regex;
use std::test::Fail;
use test_support::TestRuntime;

/// A pattern, a haystack, and the texts around all matches.
type Fields = (&'static str, &'static str, &'static [&'static str]);

const FIELDS: &[Fields] = &[
    (r"[ \t]+", "a b \t  c\td    e", &["a", "b", "c", "d", "e"]),
    (
        "X",
        "lionXXtigerXleopard",
        &["lion", "", "tiger", "leopard"],
    ),
    ("0", "010", &["", "1", ""]),
    ("", "rust", &["", "r", "u", "s", "t", ""]),
    // No match of an empty pattern splits the codepoint.
    ("", "☃", &["", "☃", ""]),
    ("a", "", &[""]),
    ("a", "xyz", &["xyz"]),
];

/// A pattern, a haystack, a limit, and the texts around the first matches.
type FirstFields = (&'static str, &'static str, usize, &'static [&'static str]);

const FIRST_FIELDS: &[FirstFields] = &[
    (r"\W+", "Hey! How are you?", 3, &["Hey", "How", "are you?"]),
    (
        "X",
        "lionXXtigerXleopard",
        3,
        &["lion", "", "tigerXleopard"],
    ),
    ("X", "abcXdef", 9, &["abc", "def"]),
    ("X", "abcXdef", 1, &["abcXdef"]),
    ("X", "abcdef", 2, &["abcdef"]),
    ("X", "abcXdef", 0, &[]),
];

/// A pattern, a haystack, a limit or 0 for none, the bytes for a match, and the output.
type Replacing = (
    &'static str,
    &'static str,
    usize,
    &'static str,
    &'static str,
);

const REPLACED: &[Replacing] = &[
    ("[^01]+", "1078910", 0, "", "1010"),
    ("[^01]+", "1078910", 1, "-", "10-10"),
    ("a", "banana", 2, "$0", "b$0n$0na"),
    ("a", "banana", 9, "o", "bonono"),
    ("", "ab", 0, "-", "-a-b-"),
    ("a", "xyz", 0, "b", "xyz"),
];

fn expect_texts(rt: &impl TestRuntime, haystack: &str, spans: &[Span], wanted: &[&str]) {
    assert_eq!(rt; spans.len(), wanted.len(), "{haystack}");
    for (span, text) in spans.iter().zip(wanted) {
        let found = &haystack.as_bytes()[span.start..span.end];
        assert_eq!(rt; found, text.as_bytes(), "{haystack}");
    }
}

#[test]
fn fields_are_around_the_matches(rt: HostRuntime) -> Result<(), Fail> {
    let alloc = rt.alloc();
    for &(pattern, haystack, wanted) in FIELDS {
        let mut regex = Regex::new(alloc, pattern)?;
        let spans = regex.split_all(alloc, haystack.as_bytes())?;
        expect_texts(&rt, haystack, &spans, wanted);
        let spans: Vec<Span> = regex.split(haystack.as_bytes()).collect(alloc)?;
        expect_texts(&rt, haystack, &spans, wanted);
    }
    for &(pattern, haystack, limit, wanted) in FIRST_FIELDS {
        let mut regex = Regex::new(alloc, pattern)?;
        let spans = regex.splitn_all(alloc, haystack.as_bytes(), limit)?;
        expect_texts(&rt, haystack, &spans, wanted);
        let spans: Vec<Span> = regex.splitn(haystack.as_bytes(), limit).collect(alloc)?;
        expect_texts(&rt, haystack, &spans, wanted);
    }
    Ok(())
}

#[test]
fn bytes_are_in_place_of_the_matches(rt: HostRuntime) -> Result<(), Fail> {
    let alloc = rt.alloc();
    for &(pattern, haystack, limit, bytes, wanted) in REPLACED {
        let mut regex = Regex::new(alloc, pattern)?;
        let output = regex.replacen(alloc, haystack.as_bytes(), limit, bytes.as_bytes())?;
        assert_eq!(rt; output.as_slice(), wanted.as_bytes(), "{pattern}");
    }
    Ok(())
}
