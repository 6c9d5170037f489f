//! All calls over random NFAs, from a fixed seed.

use super::grid::fold_nfa;
use super::sums::{SEED, Shared};
use test_support::TestRuntime;
use test_support::random::{Chance, random_nfa};

const HAYSTACKS: &[&[u8]] = &[b"", b"ab", b"abca", b"a\xE2\x98\x83", b"\x80b a"];

// The number of NFAs in each of the ten parts.
const PART: usize = 10;

const SEED_OF_NFAS: u64 = 2010;

// The sum of the answers to all searches so far, after each part. The sums come from the answers of regex-automata
// 0.4.18 to single searches, over NFAs of the same generator, written in another language.
const SUMS: &[u64] = &[
    SEED,
    1861892410165724649,
    11814896079961035759,
    8700693527630378015,
    3112159056568369119,
    11662113091756313425,
    10809539617642526514,
    1613264790971867764,
    4228821444749841996,
    16601322010708163812,
    10572554243172587508,
];

fn expect_part(rt: &impl TestRuntime, part: usize) {
    let mut chance = Chance::new(SEED_OF_NFAS);
    // The NFAs of the parts before this one.
    for _ in 0..part * PART {
        random_nfa(rt.alloc(), &mut chance).expect(rt, "an NFA");
    }
    let mut shared = Shared::new(rt);
    let mut sum = SUMS[part];
    for _ in 0..PART {
        let nfa = random_nfa(rt.alloc(), &mut chance).expect(rt, "an NFA");
        sum = fold_nfa(rt, nfa, &mut shared, sum, HAYSTACKS);
    }
    assert_eq!(rt; sum, SUMS[part + 1]);
}

// In ten parts, since a test may run for at most a minute.
#[test]
fn all_calls_search_what_chance_makes_from_0(rt: HostRuntime) {
    expect_part(&rt, 0);
}

#[test]
fn all_calls_search_what_chance_makes_from_10(rt: HostRuntime) {
    expect_part(&rt, 1);
}

#[test]
fn all_calls_search_what_chance_makes_from_20(rt: HostRuntime) {
    expect_part(&rt, 2);
}

#[test]
fn all_calls_search_what_chance_makes_from_30(rt: HostRuntime) {
    expect_part(&rt, 3);
}

#[test]
fn all_calls_search_what_chance_makes_from_40(rt: HostRuntime) {
    expect_part(&rt, 4);
}

#[test]
fn all_calls_search_what_chance_makes_from_50(rt: HostRuntime) {
    expect_part(&rt, 5);
}

#[test]
fn all_calls_search_what_chance_makes_from_60(rt: HostRuntime) {
    expect_part(&rt, 6);
}

#[test]
fn all_calls_search_what_chance_makes_from_70(rt: HostRuntime) {
    expect_part(&rt, 7);
}

#[test]
fn all_calls_search_what_chance_makes_from_80(rt: HostRuntime) {
    expect_part(&rt, 8);
}

#[test]
fn all_calls_search_what_chance_makes_from_90(rt: HostRuntime) {
    expect_part(&rt, 9);
}
