//! Texts in which the output of a function replaces the matches of a pattern.

use nfa_meta::Regex;
use regex_search_core::{Captures, Span};
use std::alloc::AllocError;
use std::test::Fail;

/// A pattern, a haystack, a limit or 0 for none, and the output if a function puts the second group before the first.
type Row = (&'static str, &'static str, usize, &'static str);

const SWAPPED: &[Row] = &[
    (
        r"([^,\s]+),\s+(\S+)",
        "Springsteen, Bruce",
        0,
        "Bruce Springsteen",
    ),
    (
        r"(?<y>\d{4})-(\d{2})",
        "2012-03, 2013-01 and 2014-05",
        2,
        "03 2012, 01 2013 and 2014-05",
    ),
    ("(a)|(b)", "xabbay", 0, "x ab b  ay"),
    ("(a)|(b)", "xabbay", 1, "x abbay"),
    ("(a)(b)?", "", 0, ""),
    ("(q)(r)", "banana", 3, "banana"),
    // Empty matches, and text beyond ASCII.
    ("", "ab", 0, " a b "),
    ("(x?)()", "☃", 0, " ☃ "),
    (r"(\pL)(☃)", "δ☃β", 9, "☃ δβ"),
];

/// Returns the text in the span, or nothing.
fn text_in(text: &[u8], span: Option<Span>) -> &[u8] {
    match span {
        Some(span) => &text[span.start..span.end],
        None => b"",
    }
}

/// Appends the second group of the text, a space, and the first group.
fn swap(text: &[u8], captures: &Captures, output: &mut Vec<u8>) -> Result<(), AllocError> {
    output.extend_from_slice(text_in(text, captures.get_group(2)))?;
    output.push(b' ')?;
    output.extend_from_slice(text_in(text, captures.get_group(1)))?;
    Ok(())
}

#[test]
fn functions_replace_matches(rt: HostRuntime) -> Result<(), Fail> {
    for &(pattern, haystack, limit, wanted) in SWAPPED {
        let mut regex = Regex::new(rt.alloc(), pattern)?;
        let text = haystack.as_bytes();
        let output = regex.replacen_with(
            rt.alloc(),
            text,
            limit,
            |captures, output| swap(text, captures, output),
        )?;
        assert_eq!(rt; output.as_slice(), wanted.as_bytes(), "{pattern}");
    }
    Ok(())
}

#[test]
fn functions_are_called_in_order(rt: HostRuntime) -> Result<(), Fail> {
    let mut regex = Regex::new(rt.alloc(), "[a-z]+")?;
    let mut count = b'0';
    let output = regex.replace_all_with(rt.alloc(), b"one, two and three", |_, output| {
        count += 1;
        output.push(count)?;
        Ok(())
    })?;
    assert_eq!(rt; output.as_slice(), b"1, 2 3 4".as_slice());
    Ok(())
}

#[test]
fn errors_of_functions_are_returned(rt: HostRuntime) -> Result<(), Fail> {
    let mut regex = Regex::new(rt.alloc(), "[0-9]")?;
    let refused = regex.replacen_with(rt.alloc(), b"a1", 1, |_, _| Err(AllocError));
    assert!(rt; refused.is_err());
    let output = regex.replacen_with(rt.alloc(), b"a", 1, |_, _| Err(AllocError))?;
    assert_eq!(rt; output.as_slice(), b"a".as_slice());
    Ok(())
}
