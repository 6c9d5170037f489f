//! Captures of matches, with windows of the lazy DFA and without. The spans are those that regex-automata gives.

use nfa_engines::{Captures, Input};
use nfa_meta::Regex;
use std::alloc::AllocError;
use std::test::Fail;

/// A pattern, a haystack, and the spans of the groups of each match.
type Row = (&'static str, &'static str, &'static str);

const ROWS: &[Row] = &[
    // Each match is in a window of the lazy DFA.
    (
        "([0-9]{4})-([0-9]{2})",
        "2024-01 and 2025-12",
        "0..7 0..4 5..7 | 12..19 12..16 17..19 | ",
    ),
    ("(a)|b", "xab", "1..2 1..2 | 2..3 - | "),
    ("(a)", "xyz", ""),
    // The lazy DFA stops at a byte of 128 or more.
    (r"\b(\w)\w*", "☃ foo", "4..7 4..5 | "),
    // The searches have no windows.
    ("(a*)", "baa☃", "0..0 0..0 | 1..3 1..3 | 6..6 6..6 | "),
    (r"\A(f)oo", "foo foo", "0..3 0..1 | "),
];

fn write_groups(text: &mut String, captures: &Captures) -> Result<(), AllocError> {
    for index in 0..captures.group_len() {
        match captures.get_group(index) {
            Some(span) => write!(text, "{}..{} ", span.start, span.end)?,
            None => text.push_str("- ")?,
        }
    }
    text.push_str("| ")
}

#[test]
fn captures_have_the_spans_of_each_group(rt: HostRuntime) -> Result<(), Fail> {
    let alloc = rt.alloc();
    for &(pattern, haystack, wanted) in ROWS {
        let mut regex = Regex::new(alloc, pattern)?;
        let input = Input::new(haystack.as_bytes());
        let mut text = String::new(alloc);
        for captures in &regex.captures_all(alloc, input)? {
            write_groups(&mut text, captures)?;
        }
        assert_eq!(rt; text.as_str(), wanted, "{pattern}");

        let mut text = String::new(alloc);
        for captures in regex.captures_iter(alloc, input)? {
            write_groups(&mut text, &captures?)?;
        }
        assert_eq!(rt; text.as_str(), wanted, "{pattern}");

        let mut text = String::new(alloc);
        let captures = regex.create_captures(alloc)?;
        for captures in regex.captures_iter_with(input, captures) {
            write_groups(&mut text, &captures?)?;
        }
        assert_eq!(rt; text.as_str(), wanted, "{pattern}");
    }
    Ok(())
}

#[test]
fn captures_take_an_input_by_value(rt: HostRuntime) -> Result<(), Fail> {
    let mut regex = Regex::new(rt.alloc(), "foo([0-9]+)")?;
    let mut captures = regex.create_captures(rt.alloc())?;
    regex.captures(Input::new(b"a foo12").earliest(true), &mut captures);
    let mut text = String::new(rt.alloc());
    write_groups(&mut text, &captures)?;
    assert_eq!(rt; text.as_str(), "2..6 5..6 | ");
    Ok(())
}
