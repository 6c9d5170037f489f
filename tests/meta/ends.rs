//! Lists of all half matches.

use nfa_engines::Input;
use nfa_meta::Regex;
use std::test::Fail;

/// A pattern, a haystack, and the offsets of all half matches.
type Row = (&'static str, &'static str, &'static [usize]);

const ROWS: &[Row] = &[
    ("foo[0-9]+", "foo1 foo12 foo123", &[4, 10, 17]),
    ("a|b", "ab", &[1, 2]),
    ("a*", "aa", &[2]),
    // The lazy DFA stops at a byte of 128 or more.
    (r"\w+\b", "foo ☃ bar", &[3, 11]),
    ("a", "xyz", &[]),
];

#[test]
fn half_matches_have_the_ends(rt: HostRuntime) -> Result<(), Fail> {
    for &(pattern, haystack, wanted) in ROWS {
        let mut regex = Regex::new(rt.alloc(), pattern)?;
        let ends: Vec<usize> = regex
            .half_matches(Input::new(haystack.as_bytes()))
            .map(|half| half.offset())
            .collect(rt.alloc())?;
        assert_eq!(rt; ends.as_slice(), wanted, "{pattern}");
    }
    Ok(())
}
