//! A hybrid over each sample: each span of some haystacks, four ways to search it, both match kinds, and caches of
//! several sizes, some too small for one row.

use super::pair::Pair;
use nfa_choice::dfa::Config;
use nfa_engines::{MatchKind, NFA};
use test_support::TestRuntime;
use test_support::samples::{NAMES, nfa_named};

const ASCII: &[&[u8]] = &[b"", b"abba", b"abcab", b"foo 12"];

const WIDE: &[&[u8]] = &[b"a\xE2\x98\x83b", b"\x80a\xE2\x98"];

// The capacity of a cache in bytes, and how often a search may clear it: the defaults, no row, and about one row, two
// and three. `None` is no limit.
const CACHES: &[(usize, Option<usize>)] = &[
    (2_097_152, Some(3)),
    (0, Some(3)),
    (1200, None),
    (2450, Some(2)),
    (3700, None),
];

fn expect_kind(rt: &impl TestRuntime, nfa: &NFA, kind: MatchKind) {
    for &(bytes, clears) in CACHES {
        let config = Config::new()
            .match_kind(kind)
            .cache_capacity(bytes)
            .minimum_cache_clear_count(clears);
        let mut pair = Pair::new(rt, nfa, config);
        for &haystack in ASCII {
            pair.expect_same_searches(rt, haystack);
        }
        // With the default cache, and without bytes of 128 or more, the lazy DFA gives each answer.
        if bytes > 1_000_000 {
            let (by_dfa, by_pike) = pair.counts();
            assert!(rt; by_dfa > 0 && by_pike == 0, "{by_dfa} and {by_pike}");
        }
        for &haystack in WIDE {
            pair.expect_same_searches(rt, haystack);
        }
    }
}

fn expect_samples(rt: &impl TestRuntime, names: &[&str]) {
    for &name in names {
        let nfa = nfa_named(rt.alloc(), name).expect(rt, "a sample");
        expect_kind(rt, &nfa, MatchKind::LeftmostFirst);
        expect_kind(rt, &nfa, MatchKind::All);
    }
}

// In parts, since a test may run for at most a minute.
#[test]
fn hybrids_answer_as_a_pikevm_over_words(rt: HostRuntime) {
    expect_samples(&rt, &NAMES[..8]);
}

#[test]
fn hybrids_answer_as_a_pikevm_over_empty_matches(rt: HostRuntime) {
    expect_samples(&rt, &NAMES[8..15]);
}

#[test]
fn hybrids_answer_as_a_pikevm_over_odd_samples(rt: HostRuntime) {
    expect_samples(&rt, &NAMES[15..22]);
}

#[test]
fn hybrids_answer_as_a_pikevm_over_the_last_samples(rt: HostRuntime) {
    expect_samples(&rt, &NAMES[22..]);
}
