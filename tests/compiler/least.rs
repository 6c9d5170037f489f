//! A span with fewer bytes than each match of these patterns is not searched.

use anyhow::Result;
use nfa_compiler::Compiler;
use nfa_engines::Input;
use nfa_facts::Literals;

/// Patterns, each with a shortest match.
const SHORTEST: [(&str, &str); 13] = [
    (
        "[ab]{50}",
        "ababababababababababababababababababababababababab",
    ),
    (r"\d{4}-\d{2}-\d{2}", "2026-12-01"),
    (r"\w{12}", "twelve_bytes"),
    (r"\p{Greek}{4}", "λόγο"),
    ("(?s:.){3}", "a\0b"),
    (r"\w+\d{4}", "a0123"),
    (r"(?:[a-z]{2}|\d{3})+?[^x]{4}", "abcdef"),
    (r"[ab]*\d{5}", "01234"),
    ("foo|ba|quux", "ba"),
    ("(foo)?bar", "bar"),
    (r"\bword\b", "word"),
    ("[a-c][^a-c]?[x-z]", "ax"),
    ("", ""),
];

#[test]
fn shorter_spans_are_not_searched(rt: HostRuntime) -> Result<()> {
    for &(pattern, text) in &SHORTEST {
        let nfa = Compiler::new().build(rt.alloc(), pattern)?;
        let literals = Literals::new(rt.alloc(), &nfa)?;
        let start = literals.first_start(&nfa, &Input::new(text.as_bytes()));
        assert_eq!(rt; start, Some(0), "{pattern}");
        if let Some(end) = text.len().checked_sub(1) {
            let input = Input::new(text.as_bytes()).range(0..end);
            assert_eq!(rt; literals.first_start(&nfa, &input), None, "{pattern}");
        }
    }
    Ok(())
}
