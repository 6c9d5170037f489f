//! A hybrid over compiled patterns: assertions of Unicode words, and patterns with more rows than a cache has room for.

use super::pair::Pair;
use nfa_choice::dfa::Config;
use nfa_compiler::Compiler;
use nfa_engines::{Input, MatchKind};
use std::alloc::{AllocError, Global};
use std::test::Fail;

// Patterns with assertions of Unicode words, and others.
const WORDS: &[&str] = &[
    r"\bfoo\b",
    r"\B",
    r"\b",
    r"o\b{end}",
    r"\b{start}f",
    r"\b{start-half}o|\b{end-half}",
    r"(?-u:\b)fo+",
    r"(?m)^.$",
    r"(?mR)^o|o$",
    r"\w+",
];

// Texts with and without bytes of 128 or more. Each span of them is searched.
const TEXTS: &[&str] = &["", "a foo", "☃foo", "foo☃", "o\r\nfoo\n", "fo é o"];

// The lazy DFA answers unless an assertion of Unicode words meets a byte of 128 or more. Then the PikeVM does.
#[test]
fn hybrids_answer_for_unicode_words(rt: HostRuntime) -> Result<(), Fail> {
    for &pattern in WORDS {
        let nfa = Compiler::new().build(rt.alloc(), pattern)?;
        for config in [Config::new(), Config::new().match_kind(MatchKind::All)] {
            let mut pair = Pair::new(&rt, &nfa, config);
            for &text in TEXTS {
                pair.expect_same_searches(&rt, text.as_bytes());
            }
        }
    }
    Ok(())
}

// A pattern, a text, and the number of answers of the lazy DFA and of the PikeVM.
const RAN: &[(&str, &str, (usize, usize))] = &[
    (r"\bfoo\b", "a foo", (2, 0)),
    (r"\bfoo\b", "☃ foo", (0, 2)),
    (r"(?-u:\bfoo\b)", "☃ foo", (2, 0)),
    (r"\w+", "é ☃", (2, 0)),
];

#[test]
fn a_hybrid_says_which_engine_ran(rt: HostRuntime) -> Result<(), Fail> {
    for &(pattern, text, want) in RAN {
        let nfa = Compiler::new().build(rt.alloc(), pattern)?;
        let mut pair = Pair::new(&rt, &nfa, Config::new());
        pair.expect_same(&rt, &Input::new(text.as_bytes()));
        assert_eq!(rt; pair.counts(), want, "{pattern} in {text}");
    }
    Ok(())
}

// `len` bytes, each `0` or `1`, from a linear congruential generator.
fn digits(alloc: Global, len: usize) -> Result<Vec<u8>, AllocError> {
    let mut bytes = Vec::new(alloc);
    let mut state: u64 = 2010;
    for _ in 0..len {
        state = state
            .wrapping_mul(6364136223846793005)
            .wrapping_add(1442695040888963407);
        bytes.push(if state >> 63 == 1 { b'1' } else { b'0' })?;
    }
    Ok(bytes)
}

// The capacity of a cache that fills up again and again, and how often a search may clear it.
const CACHES: &[(usize, Option<usize>)] = &[
    (20_000, Some(0)),
    (20_000, Some(3)),
    (5000, None),
    (2_097_152, Some(3)),
];

const EXPLODING: &[&str] = &["[01]*1[01]{20}", "(?:0|1[01]{12})*1[01]{14}", "1[01]{9}1"];

#[test]
fn hybrids_answer_for_patterns_with_many_rows(rt: HostRuntime) -> Result<(), Fail> {
    let bytes = digits(rt.alloc(), 3000)?;
    for &pattern in EXPLODING {
        let nfa = Compiler::new().build(rt.alloc(), pattern)?;
        for &(capacity, clears) in CACHES {
            let config = Config::new()
                .cache_capacity(capacity)
                .minimum_cache_clear_count(clears);
            let mut pair = Pair::new(&rt, &nfa, config);
            pair.expect_same(&rt, &Input::new(&bytes));
            pair.expect_same_list(&rt, Input::new(&bytes[..300]));
        }
    }
    Ok(())
}
