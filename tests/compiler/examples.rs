//! Examples of the documentation of the crate regex, and of what each part of the syntax means.

use anyhow::Result;
use nfa_compiler::{Compiler, Config};
use nfa_engines::pikevm::PikeVM;
use regex_search_core::{Input, NonMaxUsize};
use std::alloc::Global;
use std::fmt::Write;
use test_support::engines::fitting;

/// A pattern, a haystack, and the spans of the groups of the first match; empty if there is no match.
const ROWS: [(&str, &str, &str); 57] = [
    (
        "(?<y>[0-9]{4})-(?<m>[0-9]{2})-(?<d>[0-9]{2})",
        "on 1865-04-14",
        "3..13 3..7 8..10 11..13 ",
    ),
    ("(?i)a+(?-i)b+", "AaAaAbbBBBb", "0..7 "),
    (r"(?m)^line \d+", "line one\nline 2\n", "9..15 "),
    ("(?mR)^foo$", "\r\nfoo\r\n", "2..5 "),
    ("(?m)^foo$", "\r\nfoo\r\n", ""),
    (r"(?-u:\b).+(?-u:\b)", "$$abc$$", "2..5 "),
    ("[[:alpha:]]+", "12ab3", "2..4 "),
    ("[[:^alpha:]]+", "ab12c", "2..4 "),
    ("[a-z&&[^aeiou]]+", "aeibcd", "3..6 "),
    ("[0-9--4]+", "41234", "1..4 "),
    ("[a-g~~b-h]+", "bcahb", "2..4 "),
    ("[0-9&&[^4]]", "44", ""),
    ("<.+?>", "<b>x</b>", "0..3 "),
    ("<.+>", "<b>x</b>", "0..8 "),
    (r"[\pN\p{Greek}\p{Cherokee}]+", "abcΔᎠβⅠᏴγδⅡxyz", "3..23 "),
    ("(?i)Δ+", "ΔδΔ", "0..6 "),
    (r"\x53\x{53}", "SS", "0..2 "),
    (
        "(?x)\n  (?P<y>\\d{4})  # the year\n  -\n  (?P<m>\\d{2})",
        "on 2012-03",
        "3..10 3..7 8..10 ",
    ),
    ("sam|samwise", "samwise", "0..3 "),
    ("samwise|sam", "samwise", "0..7 "),
    (r"\b{start}\w+\b{end}", "!abc!", "1..4 "),
    (r"\b{start-half}a", "ba a", "3..4 "),
    (r"a\b{end-half}", "ab a", "3..4 "),
    ("(?s)a.b", "a\nb", "0..3 "),
    ("a.b", "a\nb", ""),
    ("(?U)a+", "aaa", "0..1 "),
    ("(?U)a+?", "aaa", "0..3 "),
    (r"Homer (.)\. Simpson", "Homer J. Simpson", "0..16 6..7 "),
    ("a{3}", "aaaaaa", "0..3 "),
    ("a{3,}", "aaaaaa", "0..6 "),
    ("a{3,5}", "aaaaaa", "0..5 "),
    ("a{3,5}?", "aaaaaa", "0..3 "),
    ("a??", "a", "0..0 "),
    ("(a)|b", "b", "0..1 - "),
    ("(?:a|b)c", "bc", "0..2 "),
    (r"\A\d+\z", "123", "0..3 "),
    (r"\A\d+\z", "123\n", ""),
    (r"\d", "٣", "0..2 "),
    (r"(?-u:\d)", "٣", ""),
    (r"\s+", "a \t\u{3000}b", "1..6 "),
    (r"\W", "é!", "2..3 "),
    (r"\B", "ab", "1..1 "),
    (r"[\]\-^]+", "a]-^b", "1..4 "),
    (r"\.\*\(", "a.*(", "1..4 "),
    (r"(?-u:\b{start})", "éa", "2..2 "),
    (r"(?-u:\b{end})", "aé", "1..1 "),
    (r"(?-u:\b{start-half})a", "ba éa", "5..6 "),
    (r"a(?-u:\b{end-half})", "ab aé", "3..4 "),
    (r"\<a\>", "ab a", "3..4 "),
    // Each iteration of a loop has to read a byte. Rust's regex, RE2, Perl and Python all find 0..1, 0..2, 0..2 and
    // 0..1 in these four rows.
    ("(?:a?b??)+", "ab", "0..2 "),
    ("(?:a*(?:|b))*", "aab", "0..3 "),
    (r"(?:\w* ??)+", "ab cd", "0..5 "),
    ("(a?(b)??)*c?", "abc", "0..3 1..2 1..2 "),
    // A group that is repeated `{0}` times is left out, but a later group keeps its number.
    ("(?<x>a){0}(b)", "ab", "1..2 - 1..2 "),
    ("(b)(?<x>a){0}", "ab", "1..2 1..2 "),
    ("(?:(a){0}b)+", "bb", "0..2 "),
    // An earlier alternative is preferred: Rust's regex joins the two prefixes, and finds 0..3.
    (r"\w+a|\w+b", "xab", "0..2 "),
];

/// The same for patterns that may match bytes that are not UTF-8.
const BYTE_ROWS: [(&str, &[u8], &str); 4] = [
    (r"(?-u:\xFF)", b"a\xFF", "1..2 "),
    (r"(?-u:.)", b"\x80", "0..1 "),
    (".", b"\x80", ""),
    (r"\xFF", b"\xFF\xC3\xBF", "1..3 "),
];

/// The spans of the groups of the first match, or `-` for a group that is not set.
fn spans(alloc: Global, compiler: &Compiler, pattern: &str, haystack: &[u8]) -> Result<String> {
    let nfa = compiler.build(alloc, pattern)?;
    let slot_len = nfa.group_info().slot_len();
    let vm = PikeVM::new_from_nfa(nfa)?;
    let mut cache = vm.create_cache(alloc)?;
    let mut slots: Vec<Option<NonMaxUsize>> = vec![in alloc; None; slot_len]?;
    let found = vm.search_slots(fitting(&vm, &mut cache), &Input::new(haystack), &mut slots);
    let mut text = String::new(alloc);
    if found.is_some() {
        for pair in slots.chunks(2) {
            match pair {
                [Some(start), Some(end)] => write!(text, "{}..{} ", start.get(), end.get())?,
                _ => write!(text, "- ")?,
            }
        }
    }
    Ok(text)
}

#[test]
fn documented_examples_hold(rt: HostRuntime) -> Result<()> {
    let compiler = Compiler::new();
    for &(pattern, haystack, wanted) in &ROWS {
        let found = spans(rt.alloc(), &compiler, pattern, haystack.as_bytes())?;
        assert_eq!(rt; found.as_str(), wanted, "{pattern} in {haystack:?}");
    }
    let compiler = Compiler::new().configure(Config::new().utf8(false));
    for &(pattern, haystack, wanted) in &BYTE_ROWS {
        let found = spans(rt.alloc(), &compiler, pattern, haystack)?;
        assert_eq!(rt; found.as_str(), wanted, "{pattern} in {haystack:?}");
    }
    Ok(())
}
