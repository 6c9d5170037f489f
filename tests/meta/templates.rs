//! Texts in which a template, filled by captures, replaces the matches of a pattern.

use nfa_engines::Input;
use nfa_meta::Regex;
use std::test::Fail;

/// A pattern, a haystack, a limit or 0 for none, a template, and the output.
type Row = (
    &'static str,
    &'static str,
    usize,
    &'static str,
    &'static str,
);

const DATE: &str = "(?<y>[0-9]{4})-(?<m>[0-9]{2})-(?<d>[0-9]{2})";

const FILLED: &[Row] = &[
    // Numbers and names, with and without braces.
    (
        DATE,
        "2012-03-14 to 2013-01-01",
        0,
        "$m/$d/$y",
        "03/14/2012 to 01/01/2013",
    ),
    (
        DATE,
        "2012-03-14 to 2013-01-01",
        1,
        "$3.$2.$1",
        "14.03.2012 to 2013-01-01",
    ),
    (
        r"(?<first>\w+)\s+(?<second>\w+)",
        "deep fried",
        0,
        "${first}_$second",
        "deep_fried",
    ),
    (
        r"([^,\s]+),\s+(\S+)",
        "Springsteen, Bruce",
        0,
        "$2 $1",
        "Bruce Springsteen",
    ),
    ("(b)", "abc", 0, "${1}a", "abac"),
    ("(?<a1>b)", "abc", 0, "$a1-${a1}1", "ab-b1c"),
    ("[a-z]+", "ab 1 cd", 0, "<$0>", "<ab> 1 <cd>"),
    // Dollars.
    ("(b)", "abc", 0, "$$", "a$c"),
    ("(b)", "abc", 0, "$$1", "a$1c"),
    ("(b)", "abc", 0, "$$$1", "a$bc"),
    ("(b)", "abc", 0, "x$", "ax$c"),
    ("(b)", "abc", 0, "$ $.$", "a$ $.$c"),
    ("(b)", "abc", 0, "", "ac"),
    // Groups that did not take part.
    ("(a)|(b)", "ab", 0, "<$1$2>", "<a><b>"),
    ("a(x)?", "aax", 0, "[$1]", "[][x]"),
    // Limits, and no match.
    ("(a)", "banana", 2, "<$1>", "b<a>n<a>na"),
    ("(a)", "banana", 9, "<$1>", "b<a>n<a>n<a>"),
    ("(x)", "banana", 0, "$1", "banana"),
    ("(x)", "", 2, "$1", ""),
    // Empty matches.
    ("", "ab", 0, "<$0>", "<>a<>b<>"),
    ("a*", "baac", 0, "<$0>", "<>b<aa>c<>"),
    ("(a*)", "baac", 2, "<$1>", "<>b<aa>c"),
    // Text beyond ASCII. No match splits a codepoint, and a name without braces is ASCII.
    ("(x?)", "☃", 0, "[$1]", "[]☃[]"),
    (r"(\pL+)☃", "δ☃βγ☃", 0, "$1!", "δ!βγ!"),
    ("(?<δ>b)", "abc", 0, "${δ}δ", "abδc"),
    ("(?<δ>b)", "abc", 0, "$δ", "a$δc"),
];

/// A text that is not a template for the pattern `(?<n>b)(c)?`, and the reason.
const REFUSED: &[(&str, &str)] = &[
    ("$3", "bytes 1 to 2 of the template name no group"),
    ("$1a", "bytes 1 to 3 of the template name no group"),
    ("x${m}", "bytes 3 to 4 of the template name no group"),
    ("${}", "bytes 2 to 2 of the template name no group"),
    (
        "$$${n",
        "the brace after the dollar at byte 2 of the template is not closed",
    ),
];

#[test]
fn templates_are_filled(rt: HostRuntime) -> Result<(), Fail> {
    let alloc = rt.alloc();
    for &(pattern, haystack, limit, text, wanted) in FILLED {
        let mut regex = Regex::new(alloc, pattern)?;
        let template = regex.parse_template(alloc, text.as_bytes())?;
        let output = regex.replacen_template(alloc, haystack.as_bytes(), limit, &template)?;
        assert_eq!(rt; output.as_slice(), wanted.as_bytes(), "{pattern}: {text}");
    }
    Ok(())
}

#[test]
fn mistakes_in_templates_are_named(rt: HostRuntime) -> Result<(), Fail> {
    let alloc = rt.alloc();
    let regex = Regex::new(alloc, "(?<n>b)(c)?")?;
    for &(text, wanted) in REFUSED {
        let error = regex.parse_template(alloc, text.as_bytes()).err();
        let why = format!(in alloc; "{}", error.expect(&rt, text))?;
        assert!(rt; why.starts_with(wanted), "{why}");
    }
    Ok(())
}

#[test]
fn groups_are_those_of_the_pattern_that_matched(rt: HostRuntime) -> Result<(), Fail> {
    let alloc = rt.alloc();
    let mut regex = Regex::new_many(alloc, &["(a)(d)?", "(b)c"])?;
    let template = regex.parse_template(alloc, b"<$1$2>")?;
    let output = regex.replace_all_template(alloc, b"abcad", &template)?;
    assert_eq!(rt; output.as_slice(), b"<a><b><ad>".as_slice());
    Ok(())
}

#[test]
fn first_captures_are_as_many_as_wanted(rt: HostRuntime) -> Result<(), Fail> {
    let mut regex = Regex::new(rt.alloc(), "foo([0-9]+)")?;
    for (count, wanted) in [(0, 0), (1, 1), (2, 2), (3, 3), (9, 3)] {
        let input = Input::new(b"foo1 foo12 foo123");
        let first = regex.first_captures(rt.alloc(), input, count)?;
        assert_eq!(rt; first.len(), wanted);
    }
    Ok(())
}
