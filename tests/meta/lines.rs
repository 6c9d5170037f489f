//! A regex compared with a choice over texts of several lines, for patterns that skip lines without a byte.

use nfa_choice::choose::Choice;
use nfa_compiler::Compiler;
use nfa_engines::{Input, Match, backtrack, pikevm};
use nfa_meta::Regex;
use std::test::Fail;
use test_support::TestRuntime;

const PATTERNS: [&str; 10] = [
    "(?m)^.*ERROR.*$",
    r"[\w.+-]+@[\w-]+\.[\w.-]+",
    ".*.*=.*",
    r"(\w+)=(\S+)",
    r"\s*=\s*",
    "(?s)[^@]*=",
    "(?:.*=)?.*@",
    r"\b[a-z]+=(?m:$)",
    "(?m)^[^=]*=$",
    "(?:[^#]*@)+",
];

/// Parts of lines. The second one is longer than what is too near for a search of its line feed.
const PARTS: [&str; 8] = [
    "\n",
    "a word and another word and then one more word ",
    "key=value",
    "ERROR",
    "a@b.c",
    "=",
    "R",
    "☃ ",
];

/// Expects the same list of matches in the span.
fn expect_same(
    rt: &impl TestRuntime,
    regex: &mut Regex,
    choice: &mut Choice,
    input: Input<'_>,
) -> Result<(), Fail> {
    let wanted: Vec<Match> = choice.find_iter(input).collect(rt.alloc())?;
    let found: Vec<Match> = regex.find_iter(input).collect(rt.alloc())?;
    assert_eq!(rt; found.as_slice(), wanted.as_slice(), "{input:?}");
    assert_eq!(rt;
        regex.find_half(input),
        choice.find_half(input),
        "{input:?}"
    );
    Ok(())
}

/// The text of five parts that this number picks.
fn text_of(rt: &impl TestRuntime, number: usize) -> Result<String, Fail> {
    let mut text = String::new(rt.alloc());
    let mut rest = number;
    for _ in 0..5 {
        text.push_str(PARTS[rest % PARTS.len()])?;
        rest /= PARTS.len();
    }
    Ok(text)
}

#[test]
fn lines_are_skipped(rt: HostRuntime) -> Result<(), Fail> {
    let (back, pike) = (backtrack::Config::new(), pikevm::Config::new());
    for pattern in PATTERNS {
        let mut regex = Regex::new(rt.alloc(), pattern)?;
        let nfa = Compiler::new().build(rt.alloc(), pattern)?;
        let mut choice = Choice::new(rt.alloc(), nfa, back, pike)?;
        for step in 0..300 {
            let text = text_of(&rt, step * 109)?;
            let input = Input::new(text.as_bytes());
            expect_same(&rt, &mut regex, &mut choice, input)?;
            if text.len() > 4 {
                let part = input.range(2..text.len() - 2);
                expect_same(&rt, &mut regex, &mut choice, part)?;
            }
        }
    }
    Ok(())
}
