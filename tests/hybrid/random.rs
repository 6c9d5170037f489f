//! A hybrid over random NFAs, from fixed seeds.

use super::pair::Pair;
use nfa_choice::dfa::Config;
use nfa_engines::MatchKind;
use test_support::TestRuntime;
use test_support::random::{Chance, random_nfa};

const HAYSTACKS: &[&[u8]] = &[b"", b"ab", b"abcab", b"a\xE2\x98\x83", b"\x80b a"];

// The number of NFAs of a test.
const PART: usize = 40;

// The match kind, the capacity of the cache in bytes, and how often a search may clear it.
const CONFIGS: &[(MatchKind, usize, Option<usize>)] = &[
    (MatchKind::LeftmostFirst, 2_097_152, Some(3)),
    (MatchKind::All, 2_097_152, Some(3)),
    (MatchKind::LeftmostFirst, 2450, None),
    (MatchKind::All, 3700, Some(1)),
];

fn expect_part(rt: &impl TestRuntime, seed: u64) {
    let mut chance = Chance::new(seed);
    for _ in 0..PART {
        let nfa = random_nfa(rt.alloc(), &mut chance).expect(rt, "an NFA");
        for &(kind, bytes, clears) in CONFIGS {
            let config = Config::new()
                .match_kind(kind)
                .cache_capacity(bytes)
                .minimum_cache_clear_count(clears);
            let mut pair = Pair::new(rt, &nfa, config);
            for &haystack in HAYSTACKS {
                pair.expect_same_searches(rt, haystack);
            }
        }
    }
}

// In parts, since a test may run for at most a minute.
#[test]
fn hybrids_answer_as_a_pikevm_by_chance(rt: HostRuntime) {
    expect_part(&rt, 2010);
}

#[test]
fn hybrids_answer_as_a_pikevm_by_another_chance(rt: HostRuntime) {
    expect_part(&rt, 1968);
}
