//! Patterns whose matches all begin with the same bytes: these are the prefix of the NFA.

use anyhow::Result;
use nfa_compiler::Compiler;
use nfa_facts::{find_prefix, literal_prefix};

/// Patterns, each with its prefix. It ends before a class of bytes, an alternation and an optional part. Two characters
/// that begin with the same byte have that byte as prefix.
const PREFIXES: [(&str, &[u8]); 18] = [
    ("ERROR", b"ERROR"),
    ("^abc[0-9]", b"abc"),
    ("foo|bar", b""),
    ("(foo)(?:bar|qux)", b"foo"),
    ("(a)b", b"ab"),
    ("a*", b""),
    ("ab*c", b"a"),
    ("(?:ab)+", b"ab"),
    ("☃+", b"\xE2\x98\x83"),
    ("x☃?", b"x"),
    (r"\bfoo\b", b"foo"),
    ("[x]y", b"xy"),
    ("(?i)abc", b""),
    ("a.c", b"a"),
    ("é|è", b"\xC3"),
    ("(?:foo){2}x", b"foofoox"),
    ("", b""),
    (
        "0123456789012345678901234567890123456789",
        b"01234567890123456789012345678901",
    ),
];

/// A haystack, a start, an end, and the first position of `foo` between them.
const PLACES: [(&str, usize, usize, Option<usize>); 9] = [
    ("x foo1", 0, 6, Some(2)),
    ("foo foo", 0, 7, Some(0)),
    ("foo foo", 1, 7, Some(4)),
    ("foo foo", 1, 6, None),
    ("fofoo", 0, 5, Some(2)),
    ("foo", 0, 3, Some(0)),
    ("foo", 0, 2, None),
    ("foo", 3, 3, None),
    ("foo", 3, 2, None),
];

#[test]
fn prefixes_are_as_expected(rt: HostRuntime) -> Result<()> {
    for &(pattern, wanted) in &PREFIXES {
        let nfa = Compiler::new().build(rt.alloc(), pattern)?;
        let prefix = literal_prefix(rt.alloc(), &nfa)?;
        assert_eq!(rt; prefix.as_slice(), wanted, "{pattern}");
    }
    for &(haystack, from, end, wanted) in &PLACES {
        let found = find_prefix(haystack.as_bytes(), from, end, b"foo");
        assert_eq!(rt; found, wanted, "{haystack} {from}..{end}");
    }
    Ok(())
}
