//! Haystacks of two million bytes: with one match at the end, with none, and with one in each hundred bytes.

use nfa_choice::dfa::Config;
use nfa_choice::hybrid::{Engine, Hybrid};
use nfa_compiler::Compiler;
use nfa_engines::Input;
use std::alloc::{AllocError, Global};
use std::test::Fail;
use test_support::TestRuntime;

const LEN: usize = 2_000_000;

// A haystack of `parts` parts, each with `zeros` zeros and an `x`.
fn haystack(alloc: Global, parts: usize, zeros: usize) -> Result<Vec<u8>, AllocError> {
    let mut part = vec![in alloc; b'0'; zeros]?;
    part.push(b'x')?;
    let mut bytes = Vec::new(alloc);
    for _ in 0..parts {
        bytes.extend_from_slice(&part)?;
    }
    Ok(bytes)
}

// The lazy DFA finds this number of matches, and the last has this end.
fn expect_matches(
    rt: &impl TestRuntime,
    pattern: &str,
    bytes: &[u8],
    want: (usize, usize),
) -> Result<(), Fail> {
    let nfa = Compiler::new().build(rt.alloc(), pattern)?;
    let mut hybrid = Hybrid::new(rt.alloc(), nfa, Config::new())?;
    let mut found = (0, 0);
    for half in hybrid.half_matches(Input::new(bytes)) {
        found = (found.0 + 1, half.offset());
    }
    assert_eq!(rt; found, want, "{pattern}");
    assert_eq!(rt; hybrid.ran(), Some(Engine::LazyDFA));
    Ok(())
}

#[test]
fn a_hybrid_finds_the_only_match_at_the_end(rt: HostRuntime) -> Result<(), Fail> {
    let bytes = haystack(rt.alloc(), 1, LEN - 1)?;
    expect_matches(&rt, "0x", &bytes, (1, LEN))?;
    expect_matches(&rt, "[01]+x", &bytes, (1, LEN))
}

#[test]
fn a_hybrid_finds_no_match_in_a_long_haystack(rt: HostRuntime) -> Result<(), Fail> {
    let bytes = haystack(rt.alloc(), 1, LEN - 1)?;
    expect_matches(&rt, "x0", &bytes, (0, 0))
}

#[test]
fn a_hybrid_finds_many_matches_in_a_long_haystack(rt: HostRuntime) -> Result<(), Fail> {
    let bytes = haystack(rt.alloc(), LEN / 100, 99)?;
    expect_matches(&rt, "0x", &bytes, (LEN / 100, LEN))?;
    expect_matches(&rt, "0+", &bytes, (LEN / 100, LEN - 1))
}
