//! Sets of patterns of a hybrid and of a PikeVM over the samples, for both match kinds, and which engine made them.

use super::pair::Pair;
use nfa_choice::dfa::Config;
use nfa_compiler::Compiler;
use nfa_engines::{Input, MatchKind};
use std::test::Fail;
use test_support::samples::{NAMES, nfa_named};
use test_support::searches::searches_of;

const HAYSTACKS: &[&[u8]] = &[b"", b"abcab", b"foo 12", b"a\xE2\x98\x83b"];

#[test]
fn hybrids_make_the_sets_of_a_pikevm(rt: HostRuntime) -> Result<(), Fail> {
    let all = Config::new().match_kind(MatchKind::All);
    // A cache that fills up again and again, so the PikeVM has to go on with the set of the lazy DFA.
    let small = all.cache_capacity(2450).minimum_cache_clear_count(Some(1));
    for &name in NAMES {
        let nfa = nfa_named(rt.alloc(), name)?;
        for config in [all, small, Config::new()] {
            let mut pair = Pair::new(&rt, &nfa, config);
            for &haystack in HAYSTACKS {
                for input in &searches_of(rt.alloc(), haystack)? {
                    pair.expect_same_set(&rt, input);
                }
            }
        }
    }
    Ok(())
}

const PATTERNS: &[&str] = &[
    r"\w+", r"\d+", r"\pL+", "foo", "bar", "barfoo", "foobar", "",
];

// Sets for none, half and all of the patterns. The lazy DFA fills them under `All`, otherwise the PikeVM does.
#[test]
fn a_hybrid_says_which_engine_made_a_set(rt: HostRuntime) -> Result<(), Fail> {
    let nfa = Compiler::new().build_many(rt.alloc(), PATTERNS)?;
    let input = Input::new("foobar ☃ 12".as_bytes());
    for (kind, want) in [(MatchKind::All, (3, 0)), (MatchKind::LeftmostFirst, (0, 3))] {
        let mut pair = Pair::new(&rt, &nfa, Config::new().match_kind(kind));
        pair.expect_same_set(&rt, &input);
        assert_eq!(rt; pair.counts(), want, "{kind:?}");
    }
    Ok(())
}
