//! A regex whose matches begin with rare bytes, compared with a choice over random texts. No contract says where a search
//! looks for them, and what it tells of the next search.

use crate::tests::written::Chance;
use nfa_choice::choose::Choice;
use nfa_compiler::Compiler;
use nfa_engines::{Input, Match, backtrack, pikevm};
use nfa_meta::Regex;
use std::alloc::Global;
use std::test::Fail;
use test_support::TestRuntime;

// Matches of each begin with two to eight rare bytes, but for the last three: one may be empty, one may be a byte, and
// one begins with any letters.
const PATTERNS: &[&str] = &[
    "ERROR|WARN",
    "(?i)error|warn",
    "(?i)k(elvin)?=|st",
    "later|quote|quota|qua",
    "[A-Z]{2}-[0-9]{2}",
    "[0-9]{4}-[0-9]{2}-[0-9]{2}",
    r"\d{1,3}\.\d{1,3}\.\d{1,3}",
    r"\b(WARN|quota)\b",
    "☃[☃☄]|☄é",
    "WARN|",
    "[EW]|QQ",
    "[a-z]+=[0-9]",
];

// What a text is made of: parts of matches, and whole ones.
const PARTS: &[&[u8]] = &[
    b"ERR",
    b"ERROR",
    b"WAR",
    b"WARN",
    b"wArN",
    b"error",
    b"K",
    b"\xE2\x84\xAA=",
    b"\xC5\xBFt",
    b"quot",
    b"a",
    b"e",
    b"2026",
    b"-10",
    b"-1",
    b".7",
    b"=1",
    b"\x80",
    b"\xFF",
    b"\xE2\x98\x83",
    b"\xE2\x98",
    b"\xE2\x98\x84\xC3\xA9",
    b"Q",
    b" ",
    b"\n",
    b", of no use, some filler that is longer than a vector is",
];

/// Returns a text of this many parts.
fn text_of(alloc: Global, chance: &mut Chance, count: usize) -> Result<Vec<u8>, Fail> {
    let mut text = Vec::new(alloc);
    for _ in 0..count {
        text.extend_from_slice(PARTS[chance.below(PARTS.len())])?;
    }
    Ok(text)
}

/// Both give the same list of matches of the span, and the same first answers.
fn expect_same(
    rt: &impl TestRuntime,
    regex: &mut Regex,
    choice: &mut Choice,
    input: Input<'_>,
) -> Result<(), Fail> {
    let wanted: Vec<Match> = choice.find_iter(input).collect(rt.alloc())?;
    let found: Vec<Match> = regex.find_iter(input).collect(rt.alloc())?;
    assert_eq!(rt; found.as_slice(), wanted.as_slice(), "{input:?}");
    assert_eq!(rt; regex.is_match(input), choice.is_match(input), "{input:?}");
    assert_eq!(rt;
        regex.find_half(input),
        choice.find_half(input),
        "{input:?}"
    );
    Ok(())
}

#[test]
fn searches_go_to_rare_bytes(rt: HostRuntime) -> Result<(), Fail> {
    let alloc = rt.alloc();
    let (back, pike) = (backtrack::Config::new(), pikevm::Config::new());
    for &pattern in PATTERNS {
        let mut regex = Regex::new(alloc, pattern)?;
        let nfa = Compiler::new().build(alloc, pattern)?;
        let mut choice = Choice::new(alloc, nfa, back, pike)?;
        let mut chance = Chance::new(7);
        for count in 0..40 {
            let text = text_of(alloc, &mut chance, count)?;
            let input = Input::new(&text);
            expect_same(&rt, &mut regex, &mut choice, input)?;
            let start = chance.below(text.len() + 1);
            let end = start + chance.below(text.len() - start + 1);
            expect_same(&rt, &mut regex, &mut choice, input.range(start..end))?;
        }
    }
    Ok(())
}
