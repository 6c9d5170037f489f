//! Patterns that begin with the assertion `Start`: their NFAs are always anchored, and find the same matches.

use super::expect_same;
use anyhow::Result;
use nfa_compiler::Compiler;
use nfa_engines::pikevm::PikeVM;
use regex_search_core::Input;
use test_support::engines::fitting;

/// Patterns, each with whether every way through it begins with `Start`.
const ROWS: [(&str, bool); 20] = [
    ("^abc", true),
    ("^$", true),
    (r"\Aa|\Ab", true),
    ("(^a|^b)c", true),
    (r"\b^a", true),
    ("(?:^)+a", true),
    ("(?:^a){2,3}", true),
    ("x{0}^a", true),
    ("((?<n>^)a)", true),
    ("(?:^a)?b", false),
    ("(?m)^a", false),
    ("(?R)(?m)^a", false),
    ("^*a", false),
    ("(?:^){0}a", false),
    ("^a|b", false),
    ("b|^a", false),
    ("a^", false),
    ("x*^a", false),
    ("$a", false),
    ("", false),
];

/// Haystacks in which each pattern is searched for.
const HAYSTACKS: [&str; 8] = ["", "a", "ab", "ba", "abc", "xabc", "a\nab", "bcac"];

/// Lists of patterns, each with whether all of them begin with `Start`.
const LISTS: [(&[&str], bool); 5] = [
    (&["^a", r"\Ab"], true),
    (&["^a", "b"], false),
    (&["b", "^a"], false),
    (&["^a", "b", "^c"], false),
    (&["^a"], true),
];

#[test]
fn patterns_that_begin_with_the_start_are_bound_to_it(rt: HostRuntime) -> Result<()> {
    let alloc = rt.alloc();
    for &(pattern, wanted) in &ROWS {
        let nfa = Compiler::new().build(alloc, pattern)?;
        assert_eq!(rt; nfa.is_always_start_anchored(), wanted, "{pattern}");
        for haystack in &HAYSTACKS {
            expect_same(&rt, alloc, pattern, haystack)?;
        }
    }
    for &(patterns, wanted) in &LISTS {
        let nfa = Compiler::new().build_many(alloc, patterns)?;
        assert_eq!(rt; nfa.is_always_start_anchored(), wanted, "{patterns:?}");
    }
    // A span that begins after the start of the haystack has no match.
    let vm = PikeVM::new_from_nfa(Compiler::new().build(alloc, "^a")?)?;
    let mut cache = vm.create_cache(alloc)?;
    let input = Input::new(b"aa");
    assert!(rt; vm.is_match(fitting(&vm, &mut cache), input.range(0..1)));
    assert!(rt; !vm.is_match(fitting(&vm, &mut cache), input.range(1..2)));
    Ok(())
}
