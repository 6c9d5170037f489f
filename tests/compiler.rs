//! Tests of the compiler: a PikeVM of a compiled pattern finds what the crate regex finds; and rows of errors, of
//! documented examples, of prefixes and of large patterns.

mod anchors;
mod examples;
mod hostile;
mod least;
mod prefixes;
mod refused;
mod required;

use anyhow::Result;
use nfa_compiler::Compiler;
use nfa_engines::pikevm::PikeVM;
use regex::Regex;
use regex_search_core::{Input, NonMaxUsize};
use std::alloc::Global;
use std::fmt::Write;
use std::process::Abort;
use test_support::engines::fitting;

/// Patterns that are searched for in each haystack.
const PATTERNS: [&str; 44] = [
    "abc",
    "[0-9]{4}-[0-9]{2}-[0-9]{2}",
    r"(?<key>\w+)=(?<value>[^ ]*)",
    "a|ab",
    "ab|a",
    "(a*)*",
    "(a*)+",
    "(|a)+",
    "(|a)*",
    "(a|)+",
    r"\bfoo\b",
    r"(?-u:\bfoo\b)",
    r"(?-u:o\B)",
    "a+?",
    "a*?b",
    "(a+?)(b*?)c?",
    "(?i)abc",
    "☃",
    "[^x]☃+",
    "^a",
    "a$",
    "^$",
    "",
    "(a)|(b)|(c)",
    "((a)|b)*",
    "(a{2,3}){1,2}",
    "x{0}",
    ".",
    "(?s).",
    r"\d+",
    r"(?<y>\d{4})-(?<m>\d{2})",
    "[a-zé☃]+",
    "(?i)É",
    "(foo|bar|baz)+",
    "(?:a|b)*?c",
    "(?U)a+",
    "é|è",
    r"\p{Greek}+",
    "a??(b)",
    "(a|b|ab)*c",
    // Loops over what may match the empty string. Each iteration has to read a byte, as `find` of `regex_hir` says.
    "(?:a?b??)+",
    "(?:a*(?:|b))*",
    r"(?:\w* ??)+",
    "(a?(b)??)*c?",
];

const HAYSTACKS: [&str; 14] = [
    "",
    "a",
    "ab",
    "abc",
    "aab aaab b",
    "key=value other=☃ x=",
    "on 2026-11-25 and 1999-01-01",
    "foo foobar foo_ (foo)",
    "☃☃ éÉ è",
    "ABC aBc",
    "aaaaaa",
    "αβγ foo bar bazbar",
    "aababc",
    "xyz\na\nb",
];

/// The slots of the first match that a PikeVM finds, and the spans of all matches.
fn ours(alloc: Global, pattern: &str, haystack: &str) -> Result<String> {
    let nfa = Compiler::new().build(alloc, pattern)?;
    let slot_len = nfa.group_info().slot_len();
    let vm = PikeVM::new_from_nfa(nfa)?;
    let mut cache = vm.create_cache(alloc)?;
    let mut slots: Vec<Option<NonMaxUsize>> = vec![in alloc; None; slot_len]?;
    let input = Input::new(haystack.as_bytes());
    let found = vm.search_slots(fitting(&vm, &mut cache), &input, &mut slots);
    let mut text = String::new(alloc);
    if found.is_some() {
        for slot in &slots {
            match slot {
                Some(at) => write!(text, "{} ", at.get())?,
                None => write!(text, "- ")?,
            }
        }
    }
    for found in vm.find_iter(fitting(&vm, &mut cache), input) {
        write!(text, "{}..{} ", found.start(), found.end())?;
    }
    Ok(text)
}

/// The same by the crate regex.
fn theirs(alloc: Global, pattern: &str, haystack: &str) -> Result<String> {
    let regex = Regex::new(alloc, pattern)?;
    let mut matcher = regex.matcher(alloc)?;
    let mut text = String::new(alloc);
    if let Some(captures) = matcher.captures(haystack) {
        for group in 0..captures.len() {
            match captures.get(group) {
                Some(span) => write!(text, "{} {} ", span.start(), span.end())?,
                None => write!(text, "- - ")?,
            }
        }
    }
    for found in matcher.find_iter(haystack) {
        write!(text, "{}..{} ", found.start(), found.end())?;
    }
    Ok(text)
}

fn expect_same(rt: &impl Abort, alloc: Global, pattern: &str, haystack: &str) -> Result<()> {
    let ours = ours(alloc, pattern, haystack)?;
    let theirs = theirs(alloc, pattern, haystack)?;
    assert_eq!(rt; ours, theirs, "{pattern} in {haystack:?}");
    Ok(())
}

#[test]
fn answers_are_those_of_the_crate_regex(rt: HostRuntime) -> Result<()> {
    for pattern in &PATTERNS {
        for haystack in &HAYSTACKS {
            expect_same(&rt, rt.alloc(), pattern, haystack)?;
        }
    }
    Ok(())
}
