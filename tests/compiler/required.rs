//! Bytes that each match of a pattern has, and where a search begins because of them.

use anyhow::Result;
use nfa_compiler::Compiler;
use nfa_facts::RequiredBytes;

/// Patterns, each with the bytes that all of its matches have, and whether none has a line feed before them.
const REQUIRED: [(&str, Option<(&str, bool)>); 25] = [
    ("(?m)^.*ERROR.*$", Some(("ERROR", true))),
    (r"[\w.+-]+@[\w-]+\.[\w.-]+", Some(("@", true))),
    (".*.*=.*", Some(("=", true))),
    (r"(\w+)=(\S+)", Some(("=", true))),
    (r"\s*=\s*", Some(("=", false))),
    (r"(?s).*x", Some(("x", false))),
    (r"[a-z]*;[a-z\n]*", Some((";", true))),
    (r".*\n#", Some(("\n#", true))),
    (r"[^\n]*\n", Some(("\n", false))),
    ("[a-z]*", None),
    ("[a-z]+", None),
    (".*(?:foo|bar)", None),
    (".*(?:foox|barx)", Some(("x", true))),
    ("(?:.*#)?x", Some(("x", true))),
    ("(?i).*error", None),
    (".*[0-1]", None),
    (r"\w+\b=\b\w+", Some(("=", true))),
    ("(?:.*=)*", None),
    ("(?:.*=)+", Some(("=", true))),
    ("☃.*|.*#", None),
    ("", None),
    (r".*(?:\|a|b\|)", Some(("|", true))),
    ("[a-z]+://[a-z]+", Some(("://", true))),
    ("[a-z]+(?:foo|fox)bar", Some(("bar", true))),
    (r"\d+ days? ago", Some((" ago", true))),
];

/// A pattern, a haystack, a start, an end, and where a search begins.
type Start = (&'static str, &'static str, usize, usize, Option<usize>);

const NOTHING: &str = "a line of text, with not much in it\nand another one\nand a third one\n";

const FOURTH: &str =
    "first line of this text\nsecond line of this text\na = b\nand another = one\n";

/// Line feeds that are near the start are not sought.
const STARTS: [Start; 15] = [
    (".*=.*", NOTHING, 0, 68, None),
    (".*=.*", FOURTH, 0, 73, Some(49)),
    (".*=.*", FOURTH, 10, 73, Some(49)),
    (".*=.*", FOURTH, 30, 73, Some(30)),
    (".*=.*", FOURTH, 49, 73, Some(49)),
    (".*=.*", FOURTH, 52, 73, Some(52)),
    (".*=.*", FOURTH, 0, 52, Some(49)),
    (".*=.*", FOURTH, 0, 51, None),
    (".*=.*", FOURTH, 51, 51, None),
    (".*=.*", FOURTH, 52, 51, None),
    (r"\s*=.*", FOURTH, 0, 73, Some(0)),
    (r"\s*=.*", FOURTH, 0, 51, None),
    (".*= one.*", FOURTH, 0, 73, Some(55)),
    (".*= one.*", FOURTH, 0, 71, None),
    (".*xt.*", "a long line that has a text", 0, 27, Some(0)),
];

#[test]
fn required_bytes_are_as_expected(rt: HostRuntime) -> Result<()> {
    for &(pattern, wanted) in &REQUIRED {
        let nfa = Compiler::new().build(rt.alloc(), pattern)?;
        let found = RequiredBytes::new(rt.alloc(), &nfa)?;
        match (&found, wanted) {
            (Some(found), Some((bytes, on_line))) => {
                assert_eq!(rt; found.bytes.as_slice(), bytes.as_bytes(), "{pattern}");
                assert_eq!(rt; found.on_line, on_line, "{pattern}");
            }
            (found, wanted) => {
                assert!(rt; found.is_none() && wanted.is_none(), "{pattern}");
            }
        }
    }
    Ok(())
}

#[test]
fn searches_begin_at_the_line(rt: HostRuntime) -> Result<()> {
    for &(pattern, haystack, from, end, wanted) in &STARTS {
        let nfa = Compiler::new().build(rt.alloc(), pattern)?;
        let Some(required) = RequiredBytes::new(rt.alloc(), &nfa)? else {
            panic!(rt; "{pattern} has no required bytes");
        };
        let at = required.first_start(haystack.as_bytes(), from, end);
        assert_eq!(rt; at, wanted, "{pattern} in {from}..{end}");
    }
    Ok(())
}
